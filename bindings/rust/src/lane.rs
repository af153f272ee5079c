//! Shards that a program holds.
use crate::buffer::Buffer;
use crate::clear::Clear;
use crate::errors::{CreateError, GetError};
use crate::filling::Filling;
use crate::held::{Held, Unpublished};
use crate::key::Key;
use crate::pool::Pool;
use crate::put::Put;
use crate::reference::Ref;
use crate::registry::Wanted;
use crate::shard::{Found, Shard};
use crate::share::Borrowed;
use crate::thread::Owner;
use std::cell::Cell;
use std::fmt;
use std::ptr::NonNull;
use std::sync::Arc;

/// A shard that the program holds: places of its own for creates, which look for nothing that their thread has. It may move to another thread ([`Send`]), and
/// isn't shared (not [`Sync`]). What it creates, others get and clear; its shard goes to others when it is dropped.
///
/// ```
/// use pardz::Pool;
/// use std::thread;
///
/// let pool = Pool::<String>::new();
/// let (lane, other) = (pool.lane()?, pool.lane()?);
/// let key = lane.put("from here")?;
/// thread::scope(|scope| {
///     scope.spawn(move || {
///         let text = other.get(key).expect("published");
///         assert_eq!(text.key(), key);
///         assert!(other.clear(key));
///     });
/// });
/// assert!(pool.get(key).is_none());
/// # Ok::<(), pardz::CreateError>(())
/// ```
pub struct Lane<'p, T: Clear = Buffer> {
    borrowed: Borrowed<'p, T>,
    owner: Owner,
    /// One of its ring of shards: that of which it had a place last.
    shard: Cell<NonNull<Shard>>,
}

// SAFETY: it owns its shards by a number of its own, wherever it is.
unsafe impl<T: Clear + Send + Sync> Send for Lane<'_, T> {}

/// A [`Lane`] with a share of the pool, as by an [`Arc`]. What its calls give borrows it.
///
/// ```
/// use pardz::{OwnedLane, Pool};
/// use std::sync::Arc;
/// use std::thread;
///
/// let pool = Arc::new(Pool::<String>::new());
/// let lane: OwnedLane<String> = pool.lane_owned()?;
/// let key = thread::spawn(move || lane.put("abc")).join().expect("no panic")?;
/// assert_eq!(*pool.get(key).expect("published"), "abc");
/// # Ok::<(), pardz::CreateError>(())
/// ```
pub struct OwnedLane<T: Clear + 'static = Buffer> {
    /// (Dropped first.)
    lane: Lane<'static, T>,
    pool: Arc<Pool<T>>,
}

impl<T: Clear> Pool<T> {
    /// A shard that the program holds.
    ///
    /// # Errors
    ///
    /// [`CreateError::NoLane`] where each shard that the pool may have is another lane's or a thread's, [`CreateError::Memory`] where memory was
    /// refused.
    ///
    /// ```
    /// use pardz::{CreateError, Pool, Shape};
    ///
    /// let pool = Pool::<Vec<u8>>::open(Shape { lanes: 1, ..Shape::default() })?;
    /// let lane = pool.lane()?;
    /// assert_eq!(pool.lane().err(), Some(CreateError::NoLane));
    /// drop(lane);
    /// assert!(pool.lane().is_ok());
    /// # Ok::<(), Box<dyn std::error::Error>>(())
    /// ```
    pub fn lane(&self) -> Result<Lane<'_, T>, CreateError> {
        let borrowed = self.borrowed_or_open()?;
        let owner = Owner::new();
        let shard = borrowed.join(owner, Wanted::Any)?;
        Ok(Lane {
            borrowed,
            owner,
            shard: Cell::new(shard),
        })
    }

    /// A [`Lane`] with a share of the pool.
    ///
    /// # Errors
    ///
    /// As of [`lane`](Pool::lane).
    pub fn lane_owned(self: &Arc<Self>) -> Result<OwnedLane<T>, CreateError>
    where
        T: 'static,
    {
        // SAFETY: the owned lane has the pool as long as this lane, which it lends for no longer.
        let pool: &'static Pool<T> = unsafe { &*Arc::as_ptr(self) };
        Ok(OwnedLane {
            lane: pool.lane()?,
            pool: Arc::clone(self),
        })
    }
}

impl<'p, T: Clear> Lane<'p, T> {
    /// Begins an empty object, to be filled and published.
    ///
    /// # Errors
    ///
    /// [`CreateError::Full`] where no place is free in the lane's shards, and nobody left one with a free place; [`CreateError::Memory`] where
    /// memory was refused.
    #[inline(always)]
    pub fn create(&self) -> Result<Filling<'p, T>, CreateError>
    where
        T: Default,
    {
        self.create_with(T::default)
    }

    /// The same, of a type without [`Default`]: where the place has no object, it gets what `make` answers.
    ///
    /// # Errors
    ///
    /// As of [`create`](Lane::create).
    #[inline(always)]
    pub fn create_with(&self, make: impl FnOnce() -> T) -> Result<Filling<'p, T>, CreateError> {
        // SAFETY: the lane owns the shard, which is one of this pool.
        let found = match unsafe { self.shard.get().as_ref().take() } {
            Some(found) => found,
            None => self.take_slow()?,
        };
        // SAFETY: it was taken just now, and is begun and filled once, in this pool.
        let begun = unsafe { self.borrowed.begin(found, make, || self.owner) };
        // SAFETY: as above.
        Ok(Filling::new(unsafe {
            Unpublished::of(begun, self.borrowed)
        }))
    }

    #[cold]
    #[inline(never)]
    fn take_slow(&self) -> Result<Found<T>, CreateError> {
        // SAFETY: the lane owns the shards of the ring.
        let (found, shard) = unsafe { self.borrowed.take_of(self.shard.get(), self.owner) }?;
        self.shard.set(shard);
        Ok(found)
    }

    /// Fills an object, and publishes it. Where the closure panics nothing is published, and the place is free again.
    ///
    /// # Errors
    ///
    /// As of [`create`](Lane::create).
    #[inline(always)]
    pub fn put_with(&self, fill: impl FnOnce(&mut T)) -> Result<Key, CreateError>
    where
        T: Default,
    {
        let mut filling = self.create()?;
        fill(&mut filling);
        Ok(filling.publish())
    }

    /// As [`Pool::get`].
    #[inline(always)]
    pub fn get(&self, key: Key) -> Option<Ref<'p, T>> {
        GetError::raised(self.try_get(key))
    }

    /// As [`Pool::try_get`].
    ///
    /// # Errors
    ///
    /// As there.
    #[inline(always)]
    pub fn try_get(&self, key: Key) -> Result<Option<Ref<'p, T>>, GetError> {
        let Some(place) = self.borrowed.get(key)? else {
            return Ok(None);
        };
        // SAFETY: it was got just now, of this pool.
        let held = unsafe { Held::of(place, key, self.borrowed) };
        Ok(Some(Ref::new(held)))
    }

    /// As [`Pool::clear`]. A place of the lane's own is the quickest to be used again.
    #[inline(always)]
    pub fn clear(&self, key: Key) -> bool {
        self.borrowed.clear(key, || self.owner)
    }

    /// As [`Pool::reserve`], for creates of this lane.
    ///
    /// # Errors
    ///
    /// As there.
    pub fn reserve(&self, count: usize) -> Result<(), CreateError> {
        // SAFETY: the lane owns the shards of the ring.
        unsafe { self.borrowed.provide(self.shard.get(), self.owner, count) }
    }
}

impl<T: Clear + 'static> OwnedLane<T> {
    /// The lane, borrowed: for calls that aren't here.
    #[inline(always)]
    pub fn lane(&self) -> &Lane<'_, T> {
        &self.lane
    }

    /// The pool.
    pub fn pool(&self) -> &Arc<Pool<T>> {
        &self.pool
    }

    /// As [`Lane::create`].
    ///
    /// # Errors
    ///
    /// As there.
    #[inline(always)]
    pub fn create(&self) -> Result<Filling<'_, T>, CreateError>
    where
        T: Default,
    {
        self.lane().create()
    }

    /// As [`Lane::put_with`].
    ///
    /// # Errors
    ///
    /// As there.
    #[inline(always)]
    pub fn put_with(&self, fill: impl FnOnce(&mut T)) -> Result<Key, CreateError>
    where
        T: Default,
    {
        self.lane().put_with(fill)
    }

    /// As [`Lane::put`].
    ///
    /// # Errors
    ///
    /// As there.
    #[inline(always)]
    pub fn put(&self, from: &T::From) -> Result<Key, CreateError>
    where
        T: Put + Default,
    {
        self.lane().put(from)
    }

    /// As [`Lane::get`].
    #[inline(always)]
    pub fn get(&self, key: Key) -> Option<Ref<'_, T>> {
        self.lane().get(key)
    }

    /// As [`Lane::clear`].
    #[inline(always)]
    pub fn clear(&self, key: Key) -> bool {
        self.lane().clear(key)
    }
}

impl<T: Clear + 'static> fmt::Debug for OwnedLane<T> {
    fn fmt(&self, f: &mut fmt::Formatter<'_>) -> fmt::Result {
        f.debug_struct("OwnedLane").finish_non_exhaustive()
    }
}

impl<T: Clear> Drop for Lane<'_, T> {
    fn drop(&mut self) {
        self.borrowed.leave(self.shard.get());
    }
}

impl<T: Clear> fmt::Debug for Lane<'_, T> {
    fn fmt(&self, f: &mut fmt::Formatter<'_>) -> fmt::Result {
        f.debug_struct("Lane").finish_non_exhaustive()
    }
}
