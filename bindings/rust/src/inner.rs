//! What a pool and its handles share.
//!
//! The memory is there as long as anybody holds it: the pool, and owned handles by their shares. Pages, shards and segments that are in it
//! stay until it goes.
use crate::erased::keybits::{place_of, Shape, PAGE_NUMBERS};
use crate::errors::CreateError;
use crate::key::Key;
use crate::limits::Limits;
use crate::memory::{self, Counted};
use crate::page::{Page, Place, Quota, PAGES};
use crate::panics::First;
use crate::registry::{Registry, State, Wanted};
use crate::segments::{Segment, Segments, SHARDS};
use crate::shard::Shard;
use crate::share::Stripes;
use crate::sync::{AtomicUsize, Counter, Ordering::*};
use crate::thread::Owner;
use std::cell::Cell;
use std::marker::PhantomData;
use std::ptr::NonNull;

/// (What a get reads stands in front.)
#[repr(C, align(128))]
pub(crate) struct Inner<T> {
    shape: Shape,
    id: u64,
    segments: Segments,
    limits: Limits,
    quota: Quota,
    registry: Counted<Registry>,
    /// Who keeps the memory: the pool, and when that has ended, the stripes that have shares.
    holders: AtomicUsize,
    stripes: Stripes,
    /// (An object may be written through a handle, so that the type must be the very one.)
    of: PhantomData<Cell<T>>,
}

// SAFETY: any thread may be the one that empties or drops an object, or reads it. All else is atomic, or its owner's.
unsafe impl<T: Send + Sync> Send for Inner<T> {}
// SAFETY: as above.
unsafe impl<T: Send + Sync> Sync for Inner<T> {}

/// A place that is the caller's alone and has an object, and the key under which that may be published.
pub(crate) type Begun<T> = (NonNull<Place<T>>, Key);

/// Memory for what a thread without a shard may need.
#[derive(Default)]
struct Spare {
    shard: Option<Box<Shard>>,
    segment: Option<Box<Segment>>,
}

impl<T> Inner<T> {
    /// The memory of a pool, which is to end it by `close`.
    pub(crate) fn open(limits: Limits) -> Result<NonNull<Inner<T>>, CreateError> {
        static NEXT: Counter = Counter::from_one();
        let inner = memory::boxed(Inner {
            shape: limits.segment_shape(0),
            id: NEXT.next(),
            segments: Segments::new(),
            limits,
            quota: Quota::new(limits.places),
            registry: Counted::new(Registry::new())?,
            holders: AtomicUsize::new(1),
            stripes: Stripes::new(),
            of: PhantomData,
        })?;
        Ok(NonNull::from(Box::leak(inner)))
    }

    /// The pool ends. What owned handles still have stays until they end.
    ///
    /// # Safety
    ///
    /// It is called once, and nobody has the memory but owned handles.
    pub(crate) unsafe fn close(inner: NonNull<Inner<T>>) {
        // SAFETY: the pool holds it.
        let this = unsafe { inner.as_ref() };
        this.registry.close();
        for stripe in this.stripes.iter().filter(|it| !it.has_none()) {
            // (First, as its last share may end at once.)
            this.holders.fetch_add(1, Relaxed);
            if !stripe.hold() {
                this.holders.fetch_sub(1, Relaxed);
            }
        }
        // SAFETY: the pool is a holder, and ends.
        unsafe { Inner::let_go(inner) };
    }

    /// One of the holders ends. The last frees the memory.
    ///
    /// # Safety
    ///
    /// The caller is one.
    pub(crate) unsafe fn let_go(inner: NonNull<Inner<T>>) {
        // SAFETY: a holder has it.
        if unsafe { inner.as_ref() }.holders.fetch_sub(1, AcqRel) == 1 {
            // SAFETY: it came from a box, and nobody has it any more.
            drop(unsafe { Box::from_raw(inner.as_ptr()) });
        }
    }

    #[inline(always)]
    pub(crate) fn stripes(&self) -> &Stripes {
        &self.stripes
    }

    #[inline(always)]
    pub(crate) fn shape(&self) -> &Shape {
        &self.shape
    }

    #[inline(always)]
    pub(crate) fn id(&self) -> u64 {
        self.id
    }

    pub(crate) fn quota(&self) -> &Quota {
        &self.quota
    }

    pub(crate) fn registry(&self) -> &Counted<Registry> {
        &self.registry
    }

    pub(crate) fn segments(&self) -> &Segments {
        &self.segments
    }

    /// The page of this number in its shard, which begins there.
    ///
    /// # Safety
    ///
    /// It is an open page of this pool.
    #[inline(always)]
    pub(crate) unsafe fn page_at(&self, at: NonNull<u8>, number: u32) -> Page<T> {
        let places = self.shape.page_size(number) as usize;
        // SAFETY: the page lives as long as this.
        unsafe { Page::of(at, number as usize, places) }
    }

    /// The page of a key's place, and the slot there.
    ///
    /// # Safety
    ///
    /// The pool has the place.
    #[inline(always)]
    unsafe fn page(&self, key: Key) -> (Page<T>, usize) {
        let number = place_of(key.number());
        // SAFETY: so its page is open.
        let at = unsafe { self.segments.page(key.number()).unwrap_unchecked() };
        // SAFETY: it is one of this pool.
        let page = unsafe { self.page_at(at, number / PAGE_NUMBERS % PAGES as u32) };
        (page, (number % PAGE_NUMBERS) as usize)
    }

    #[inline(always)]
    pub(crate) fn place(&self, key: Key) -> Option<&Place<T>> {
        let number = place_of(key.number());
        let at = self.segments.page(key.number())?.cast::<Place<T>>();
        let (page, slot) = (number / PAGE_NUMBERS % PAGES as u32, number % PAGE_NUMBERS);
        // (A page has 4,096 places at most, of which each slot is one.)
        if slot >= self.shape.first_page << page {
            return None;
        }
        // SAFETY: the page is open, has this slot, and lives as long as this; its places stand at its head.
        Some(unsafe { &*at.as_ptr().add(slot as usize) })
    }

    /// Gives a place back.
    ///
    /// # Safety
    ///
    /// The key is one of this pool, and its place is the caller's alone.
    #[inline(always)]
    pub(crate) unsafe fn give(&self, key: Key, by: Owner) {
        // SAFETY: the key's place is there.
        unsafe {
            let shard = self.segments.shard(key.number());
            let (page, slot) = self.page(key);
            match shard.is_owned_by(by) {
                true => shard.put(page, slot),
                false => shard.give_back(page, slot),
            }
        }
    }

    /// A shard for this owner alone: one that nobody owned, or else a new one.
    pub(crate) fn join(&self, owner: Owner, wanted: Wanted) -> Result<NonNull<Shard>, CreateError> {
        let mut spare = Spare::default();
        loop {
            let found = self
                .registry
                .locked(|state| match state.take(owner, wanted) {
                    Some(shard) => Ok(NonNull::new(shard.cast_mut())),
                    None if wanted == Wanted::Places => Err(CreateError::Full),
                    None => self.make_shard(state, owner, &mut spare),
                })?;
            if let Some(shard) = found {
                return Ok(shard);
            }
            // (Not under the lock: the allocator may call the pool.)
            spare.fill(self)?;
        }
    }

    /// A new shard, made of what is spare. None where more is needed.
    fn make_shard(
        &self,
        state: &mut State,
        owner: Owner,
        spare: &mut Spare,
    ) -> Result<Option<NonNull<Shard>>, CreateError> {
        if state.made == self.limits.most_shards() {
            return Err(match state.has_none() {
                true => CreateError::NoLane,
                false => CreateError::Full,
            });
        }
        let (segment, number) = (state.made / SHARDS, state.made % SHARDS);
        let tag = self.limits.segment_shape(segment as u32).tag as u8;
        if self.segments.get(tag).is_none() {
            match spare.segment.take() {
                Some(segment) => self.segments.place(tag, segment),
                None => return Ok(None),
            }
        }
        let (Some(segment), Some(mut shard)) = (self.segments.get(tag), spare.shard.take()) else {
            return Ok(None);
        };
        shard.place_at(tag.into(), number as u8, segment.pages_of(number));
        shard.own_by(owner);
        state.made += 1;
        Ok(Some(segment.place(number, shard)))
    }

    /// The owner leaves the shards of a ring.
    pub(crate) fn leave(&self, ring: NonNull<Shard>) {
        self.registry.leave(ring.as_ptr());
    }
}

impl Spare {
    /// Asks for what is missing.
    fn fill<T>(&mut self, inner: &Inner<T>) -> Result<(), CreateError> {
        if self.shard.is_none() {
            self.shard = Some(Shard::new(inner.shape, 0, NonNull::dangling())?);
        } else {
            self.segment = Some(Segment::new()?);
        }
        Ok(())
    }
}

impl<T> Drop for Inner<T> {
    fn drop(&mut self) {
        let mut panics = First::default();
        for (_, segment) in self.segments.all() {
            for number in 0..segment.shards() * PAGES {
                if let Some(at) = segment.page(number) {
                    // SAFETY: it is an open page, and nobody uses it any more.
                    unsafe { self.page_at(at, (number % PAGES) as u32).close(&mut panics) };
                }
            }
        }
        panics.hand_on();
    }
}
