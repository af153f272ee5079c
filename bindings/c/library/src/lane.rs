//! What a slot has of a pool: a lane, the places that it fills, and the references that it keeps for its caller.
use crate::code::{must, Answer, Refusal};
use crate::counts::Counts;
use crate::handles::get;
use crate::share::{boxed, row, Share};
use crate::slot::Slot;
use crate::store::put;
use crate::sync::{AtomicU32, Ordering};
use pardz::{Buffer, Census, Filling, Pool, Ref, Shape};
use std::mem;

/// The most places that a lane fills at once.
const MOST_FILLINGS: usize = 16;

/// What the lanes of a pool share.
pub(crate) struct Opened {
    pub(crate) pool: Pool<Buffer>,
    shape: Shape,
    /// The number under which it was opened: lanes of other numbers are of other pools.
    number: u64,
    /// How many pages are open, of all lanes together.
    pages: AtomicU32,
}

/// A lane, which shares no line of the cache with another one, nor two that are fetched together. It borrows the pool of its share, which is
/// dropped behind the other fields.
#[repr(align(128))]
pub(crate) struct Lane {
    lane: pardz::Lane<'static, Buffer>,
    fillings: Vec<Filling<'static>>,
    references: Counts,
    pub(crate) number: u32,
    /// How many lanes were joined to this one.
    joined: u32,
    /// How many pages it has opened.
    pages: u32,
    opened: Share<Opened>,
}

/// What a lane tells of its pool and of itself, number after number.
#[repr(C)]
pub(crate) struct Stats {
    pub(crate) shape: Shape,
    pub(crate) lane: u32,
    pub(crate) references: u32,
    pub(crate) fillings: u32,
    pub(crate) joined: u32,
    pub(crate) opened: u32,
    pub(crate) places: Census,
}

/// How many numbers it tells, and how many of them without a look at each place.
pub(crate) const NUMBERS: usize = mem::size_of::<Stats>() / 4;
const KNOWN: usize = 9;

pub(crate) type LaneSlot = Slot<Box<Lane>>;

/// Opens a pool, and answers it and its lanes by rising number, each as `have` has it.
pub(crate) fn open<L>(
    &shape: &Shape,
    number: u64,
    have: impl Fn(Lane) -> Answer<L>,
) -> Answer<(Share<Opened>, Vec<L>)> {
    let opened = Share::new(Opened {
        pool: Pool::open(shape)?,
        shape,
        number,
        pages: AtomicU32::new(0),
    })?;
    let mut lanes = row(shape.lanes as usize)?;
    for number in 0..shape.lanes {
        lanes.push(have(Lane::new(opened.clone(), number)?)?);
    }
    Ok((opened, lanes))
}

/// Opens a pool, and puts its lanes into empty slots, by rising number.
pub(crate) fn open_into(shape: &Shape, number: u64, slots: &mut [LaneSlot]) -> Answer {
    must(slots.len() == shape.lanes as usize, Refusal::Lanes)?;
    slots.iter().try_for_each(Slot::must_be_empty)?;
    let (_, lanes) = open(shape, number, boxed)?;
    let mut filled = slots.iter_mut().zip(lanes);
    filled.try_for_each(|(slot, lane)| slot.fill(1, || Ok(lane)))
}

impl Lane {
    fn new(opened: Share<Opened>, number: u32) -> Answer<Lane> {
        // SAFETY: the lane, and what comes of it, is dropped before the share.
        let pool = unsafe { &opened.beyond().pool };
        Ok(Lane {
            lane: pool.lane()?,
            fillings: row(MOST_FILLINGS)?,
            references: Counts::new(&opened.shape)?,
            number,
            joined: 0,
            pages: 0,
            opened,
        })
    }

    /// Begins an empty buffer.
    #[inline(always)]
    pub(crate) fn begin(&mut self) -> Answer<Filling<'static>> {
        let filling = self.lane.create()?;
        let page = (u64::from(filling.key()) >> 12 & 0xf) as u32;
        if page >= self.pages {
            self.pages = page + 1;
            self.opened.pages.fetch_add(1, Ordering::Relaxed);
        }
        Ok(filling)
    }

    /// Begins a filling, and answers the key under which it will be published.
    pub(crate) fn create(&mut self) -> Answer<u64> {
        must(self.fillings.len() < MOST_FILLINGS, Refusal::Fillings)?;
        let filling = self.begin()?;
        let key = filling.key().into();
        self.fillings.push(filling);
        Ok(key)
    }

    /// Where the filling of a key stands.
    fn find(&self, key: u64) -> Answer<usize> {
        let found = self
            .fillings
            .iter()
            .position(|it| u64::from(it.key()) == key);
        found.ok_or(Refusal::NoFilling)
    }

    /// The filling of a key.
    pub(crate) fn filling(&mut self, key: u64) -> Answer<&mut Buffer> {
        let index = self.find(key)?;
        Ok(&mut self.fillings[index])
    }

    /// Takes a filling out.
    pub(crate) fn take(&mut self, key: u64) -> Answer<Filling<'static>> {
        let index = self.find(key)?;
        Ok(self.fillings.swap_remove(index))
    }

    /// Publishes a filling, and keeps a reference to it.
    pub(crate) fn downgrade(&mut self, key: u64) -> Answer {
        self.find(key)?;
        self.references.must_have_room()?;
        self.take(key)?.downgrade().leak();
        self.references.gain(key);
        Ok(())
    }

    /// Publishes bytes in a place of their own.
    #[inline(always)]
    pub(crate) fn put(&mut self, bytes: &[u8]) -> Answer<u64> {
        put(self.begin()?, bytes)
    }

    /// Keeps a reference to a key, and answers its bytes, which stand there until it is released.
    #[inline(always)]
    pub(crate) fn get(&mut self, key: u64) -> Answer<*const [u8]> {
        self.references.must_have_room()?;
        let bytes: *const [u8] = &get(&self.opened.pool, key)?.leak()[..];
        self.references.gain(key);
        Ok(bytes)
    }

    /// The reference to a key that the lane keeps, of which it was forgotten.
    #[inline(always)]
    fn reference(&mut self, key: u64) -> Answer<Ref<'_, Buffer>> {
        // SAFETY: by its counts the lane has forgotten one that it hasn't given back.
        Ok(unsafe { self.opened.pool.ref_from_key(key.try_into()?) })
    }

    /// The bytes of a key to which the lane keeps a reference.
    pub(crate) fn read(&mut self, key: u64) -> Answer<*const [u8]> {
        self.references.of_key(key)?;
        Ok(&self.reference(key)?.leak()[..])
    }

    /// Gives a reference back.
    #[inline(always)]
    pub(crate) fn release(&mut self, key: u64) -> Answer {
        self.references.lose(key)?;
        self.reference(key).map(drop)
    }

    /// Clears a key.
    #[inline(always)]
    pub(crate) fn clear(&mut self, key: u64) -> Answer {
        must(self.lane.clear(key.try_into()?), Refusal::Gone)
    }

    /// What it tells where so many numbers are asked for: those that take a look at places are 0 unless one of them is.
    pub(crate) fn stats(&self, asked: usize) -> Stats {
        let look = (asked > KNOWN).then(|| self.opened.pool.census());
        Stats {
            shape: self.opened.shape,
            lane: self.number,
            references: self.references.all,
            fillings: self.fillings.len() as u32,
            joined: self.joined,
            opened: self.opened.pages.load(Ordering::Relaxed),
            places: look.unwrap_or_default(),
        }
    }

    /// The lane ends. Nobody else has its places, what it fills stays so, and so does what it refers to.
    pub(crate) fn end(self) -> Share<Opened> {
        self.fillings.into_iter().for_each(mem::forget);
        mem::forget(self.lane);
        self.opened
    }
}

/// Joins a lane into lane 0: the last lane first, and then the one before it.
pub(crate) fn join(into: &mut LaneSlot, slot: &mut LaneSlot) -> Answer {
    let (first, other) = (into.get_mut()?, slot.get()?);
    let next = first.opened.shape.lanes - 1 - first.joined;
    let is_next = first.number == 0 && other.number != 0 && other.number == next;
    must(is_next, Refusal::Lanes)?;
    must(
        other.opened.number == first.opened.number,
        Refusal::OtherPool,
    )?;
    first.joined += 1;
    slot.take()?.end();
    Ok(())
}

/// Closes a pool whose lane 0 has all others.
pub(crate) fn close(slot: &mut LaneSlot) -> Answer<Census> {
    let lane = slot.get()?;
    must(lane.joined + 1 == lane.opened.shape.lanes, Refusal::Lanes)?;
    must(lane.opened.is_last(), Refusal::Shared)?;
    close_last(slot.take()?.end())
}

/// Closes a pool of which nobody else has a share.
pub(crate) fn close_last(opened: Share<Opened>) -> Answer<Census> {
    let opened = opened.into_inner().ok_or(Refusal::Shared)?;
    Ok(opened.pool.close())
}
