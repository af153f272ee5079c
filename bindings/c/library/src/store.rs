//! Pools that any thread calls. One of a shape has lanes, which lie in posts, and from a post one call at a time has the lane: so any number of
//! threads call it.
use crate::code::{must, Answer, Refusal};
use crate::content::{Kind, Object};
use crate::handles::PoolFilling;
use crate::lane::{self, Lane, Opened};
use crate::share::{boxed, Share};
use crate::slot::Slot;
use crate::sync::{self, AtomicBool, Ordering};
use pardz::{Buffer, Census, Clear, Filling, Limits, Pool, Shape};
use std::cell::UnsafeCell;
use std::iter;

/// What the explorer calls it.
const LANE: &str = "a lane in its post";

/// Where a lane lies.
pub(crate) struct Post {
    is_had: AtomicBool,
    lane: UnsafeCell<Lane>,
}

// SAFETY: who turned `is_had` has the lane alone, until it turns that back; and a lane goes from thread to thread.
unsafe impl Sync for Post where Lane: Send {}

impl Post {
    fn new(lane: Lane) -> Answer<Post> {
        let (is_had, lane) = (AtomicBool::new(false), UnsafeCell::new(lane));
        Ok(Post { is_had, lane })
    }

    fn is_had(&self) -> bool {
        self.is_had.load(Ordering::Acquire)
    }

    /// Whether no call had the lane, which this call has then.
    #[inline]
    fn begins(&self) -> bool {
        !self.is_had() && !self.is_had.swap(true, Ordering::Acquire)
    }
}

/// How far a pool that grows may go.
#[repr(C)]
pub(crate) struct PoolLimits {
    pub(crate) places: u64,
    pub(crate) threads: u32,
    pub(crate) first_tag: u32,
    pub(crate) tags: u32,
    pub(crate) last_generation: u32,
}

impl PoolLimits {
    fn open<T: Clear>(&self) -> Answer<Pool<T>> {
        let limits = Limits::new()
            .places(usize::try_from(self.places).unwrap_or(usize::MAX))
            .shards(self.threads as usize)
            .first_tag(self.first_tag)
            .tags(self.tags)
            .last_generation(self.last_generation);
        Ok(limits.open()?)
    }
}

/// A pool, by what it has. (With a tag of its own, at which a call looks in one step.)
#[repr(u8)]
pub(crate) enum Store {
    Buffers(Pool<Buffer>),
    Lanes(Vec<Post>, Share<Opened>),
    Objects(Box<(Pool<Object>, Share<Kind>)>),
}

impl Store {
    /// Opens a pool of this shape.
    pub(crate) fn attach(shape: &Shape) -> Answer<Share<Store>> {
        // (No lane of it is joined to one of another pool, so its number tells nothing.)
        let (opened, posts) = lane::open(shape, 0, Post::new)?;
        Share::new(Store::Lanes(posts, opened))
    }

    /// Opens one that grows.
    pub(crate) fn grow(limits: &PoolLimits) -> Answer<Share<Store>> {
        Share::new(Store::Buffers(limits.open()?))
    }

    /// Opens one that grows, of this kind of objects.
    pub(crate) fn grow_of(limits: &PoolLimits, kind: &Kind) -> Answer<Share<Store>> {
        Share::new(Store::Objects(boxed((limits.open()?, Share::new(*kind)?))?))
    }

    /// Begins an empty object: in a place of the thread's own, or of a lane that no call has.
    pub(crate) fn create(&self) -> Answer<PoolFilling> {
        Ok(match self {
            Store::Buffers(pool) => PoolFilling::hand(pool.create()?),
            Store::Lanes(..) => PoolFilling::hand(self.by_any(0, Lane::begin)?),
            Store::Objects(objects) => PoolFilling::hand(begin(objects)?),
        })
    }

    /// Publishes bytes in such a place.
    pub(crate) fn put(&self, bytes: &[u8]) -> Answer<u64> {
        match self {
            Store::Buffers(pool) => Ok(pool.put(bytes)?.into()),
            Store::Lanes(..) => put(self.by_any(0, Lane::begin)?, bytes),
            Store::Objects(objects) => {
                let size = objects.1.size;
                must(size == 0 || size == bytes.len(), Refusal::Room)?;
                let mut filling = begin(objects)?;
                filling.set(bytes)?;
                Ok(filling.publish().into())
            }
        }
    }

    fn posts(&self) -> &[Post] {
        match self {
            Store::Lanes(posts, _) => posts,
            _ => &[],
        }
    }

    /// Calls by the first lane that no call has, from this number on and then from the first.
    #[inline]
    pub(crate) fn by_any<V>(
        &self,
        from: u32,
        call: impl FnOnce(&mut Lane) -> Answer<V>,
    ) -> Answer<V> {
        let from = (from as usize).checked_rem(self.posts().len());
        let (before, behind) = self.posts().split_at(from.ok_or(Refusal::EmptyLane)?);
        by_first(behind.iter().chain(before), call)
    }

    /// Gives a reference back, by the lane that keeps it.
    pub(crate) fn release(&self, lane: u32, key: u64) -> Answer {
        let post = self.posts().get(lane as usize);
        let post = post.ok_or(Refusal::NoReference)?;
        by_first(iter::once(post), |lane| lane.release(key))
    }

    fn close(self) -> Answer<Census> {
        match self {
            Store::Buffers(pool) => Ok(pool.close()),
            Store::Objects(objects) => Ok(objects.0.close()),
            Store::Lanes(posts, opened) => {
                for post in posts {
                    post.lane.into_inner().end();
                }
                lane::close_last(opened)
            }
        }
    }
}

/// Calls by the first of these lanes that no call has, and leaves it.
#[inline]
fn by_first<'s, V>(
    mut posts: impl Iterator<Item = &'s Post>,
    call: impl FnOnce(&mut Lane) -> Answer<V>,
) -> Answer<V> {
    let post = posts.find(|post| post.begins()).ok_or(Refusal::Busy)?;
    sync::writes(post.lane.get(), LANE);
    // SAFETY: `begins` said that this call has the lane alone.
    let answer = call(unsafe { &mut *post.lane.get() });
    sync::writes(post.lane.get(), LANE);
    post.is_had.store(false, Ordering::Release);
    answer
}

/// Begins an object of a kind.
fn begin((pool, kind): &(Pool<Object>, Share<Kind>)) -> Answer<Filling<'_, Object>> {
    let mut filling = pool.create_with(|| Object::new(kind))?;
    filling.begin()?;
    Ok(filling)
}

/// Publishes a filling with these bytes. Where memory for them is refused, its place is free again.
pub(crate) fn put(mut filling: Filling, bytes: &[u8]) -> Answer<u64> {
    filling.append(bytes)?;
    Ok(filling.publish().into())
}

/// The slot of a pool.
pub(crate) type PoolSlot = Slot<Share<Store>>;

/// Closes the pool of a slot, where no other slot has it, and no call a lane.
pub(crate) fn detach(slot: &mut PoolSlot) -> Answer<Census> {
    let store = slot.get()?;
    must(store.is_last(), Refusal::Shared)?;
    must(!store.posts().iter().any(Post::is_had), Refusal::Busy)?;
    slot.take()?.into_inner().ok_or(Refusal::Shared)?.close()
}
