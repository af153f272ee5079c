//! Pools.
use crate::buffer::Buffer;
use crate::clear::Clear;
use crate::errors::{CreateError, GetError};
use crate::filling::{Filling, OwnedFilling};
use crate::held::{Held, Unpublished};
use crate::inner::Inner;
use crate::key::Key;
use crate::limits::Limits;
use crate::reference::{OwnedRef, Ref};
use crate::share::{Borrowed, Share};
use crate::sync::{AtomicPtr, Ordering::*};
use crate::thread::Owner;
use std::fmt;
use std::marker::PhantomData;
use std::panic::{RefUnwindSafe, UnwindSafe};
use std::ptr::{self, NonNull};

/// A pool of objects that are emptied in place and used again.
///
/// ```
/// use pardz::Pool;
///
/// let pool = Pool::<String>::new();
/// let key = pool.put("hello")?; // a number, for any thread
/// let text = pool.get(key).expect("published");
/// assert!(pool.clear(key)); // no get finds it any more,
/// assert!(pool.get(key).is_none());
/// assert_eq!(*text, "hello"); // and it stays until the reference is dropped
/// # Ok::<(), pardz::CreateError>(())
/// ```
///
/// A pool is shared by `&` or by an [`Arc`](std::sync::Arc), where `T` is [`Send`] and [`Sync`]; or it is a `static`. Any thread may make any
/// call, in any number, even while it exits. One that is dropped ends, and its objects with it, but for those that owned handles have.
///
/// ```
/// use pardz::{Key, Pool};
///
/// static POOL: Pool<Vec<u32>> = Pool::new();
///
/// let key: Key = POOL.put(&[1, 2, 3])?;
/// assert_eq!(*POOL.get(key).expect("published"), [1, 2, 3]);
/// # Ok::<(), pardz::CreateError>(())
/// ```
pub struct Pool<T: Clear = Buffer> {
    /// Null until the first create.
    inner: AtomicPtr<Inner<T>>,
    limits: Limits,
    of: PhantomData<Inner<T>>,
}

// SAFETY: it is a share of its memory.
unsafe impl<T: Clear> Send for Pool<T> where Inner<T>: Send + Sync {}
// SAFETY: as above.
unsafe impl<T: Clear> Sync for Pool<T> where Inner<T>: Send + Sync {}

// No panic leaves anything of it half done; what objects are then, their references tell.
impl<T: Clear> UnwindSafe for Pool<T> {}
impl<T: Clear> RefUnwindSafe for Pool<T> {}

impl<T: Clear> Pool<T> {
    /// An empty pool that grows as it fills, with the keys' tags from 0 on. It takes no memory before its first create, and then page by
    /// page. [`Limits`] has pools that grow less, or have other tags; [`Pool::open`] such of fixed size.
    #[inline]
    pub const fn new() -> Pool<T> {
        Pool::of(Limits::new())
    }

    pub(crate) const fn of(limits: Limits) -> Pool<T> {
        Pool {
            inner: AtomicPtr::new(ptr::null_mut()),
            limits,
            of: PhantomData,
        }
    }

    /// Its memory, where there is any.
    #[inline(always)]
    pub(crate) fn borrowed(&self) -> Option<Borrowed<'_, T>> {
        let inner = NonNull::new(self.inner.load(Acquire))?;
        // SAFETY: it is this pool's, which is borrowed.
        Some(unsafe { Borrowed::of(inner) })
    }

    #[inline(always)]
    pub(crate) fn borrowed_or_open(&self) -> Result<Borrowed<'_, T>, CreateError> {
        match self.borrowed() {
            Some(borrowed) => Ok(borrowed),
            None => self.open_slow(),
        }
    }

    #[cold]
    #[inline(never)]
    fn open_slow(&self) -> Result<Borrowed<'_, T>, CreateError> {
        let opened = Inner::open(self.limits)?;
        let placed = self
            .inner
            .compare_exchange(ptr::null_mut(), opened.as_ptr(), AcqRel, Acquire);
        if placed.is_err() {
            // Another thread was first.
            // SAFETY: nobody knows of this one.
            unsafe { Inner::close(opened) };
        }
        self.borrowed().ok_or(CreateError::Memory)
    }

    pub(crate) fn limits(&self) -> &Limits {
        &self.limits
    }

    /// Begins an empty object, to be filled and published: in a place of the calling thread's own shard, which it has from its first create
    /// until it exits.
    ///
    /// # Errors
    ///
    /// [`CreateError::Full`] where no place is free in the thread's shards, and no further shard with one is there that nobody has, or may be
    /// made; [`CreateError::NoLane`] where it has none, and each is another's; [`CreateError::Memory`] where memory was refused.
    ///
    /// ```
    /// use pardz::{Buffer, Pool};
    /// use std::io::Write;
    /// use std::thread;
    ///
    /// let pool = Pool::<Buffer>::new();
    /// let mut filling = pool.create()?;
    /// write!(filling, "hello {}", 5)?;
    /// let key = filling.publish();
    /// thread::scope(|scope| {
    ///     for _ in 0..20 {
    ///         scope.spawn(|| assert_eq!(*pool.get(key).expect("published"), *b"hello 5"));
    ///     }
    /// });
    /// assert!(pool.clear(key));
    /// # Ok::<(), Box<dyn std::error::Error>>(())
    /// ```
    #[inline(always)]
    pub fn create(&self) -> Result<Filling<'_, T>, CreateError>
    where
        T: Default,
    {
        self.create_with(T::default)
    }

    /// The same, of a type without [`Default`]: where the place has no object, it gets what `make` answers.
    ///
    /// # Errors
    ///
    /// As of [`create`](Pool::create).
    ///
    /// ```
    /// use pardz::{Clear, Pool};
    ///
    /// struct Line {
    ///     prefix: &'static str,
    ///     text: String,
    /// }
    ///
    /// impl Clear for Line {
    ///     fn clear(&mut self) {
    ///         self.text.clear();
    ///     }
    /// }
    ///
    /// let pool = Pool::<Line>::new();
    /// let mut line = pool.create_with(|| Line { prefix: "> ", text: String::new() })?;
    /// line.text.push_str("hello");
    /// let key = line.publish();
    /// assert_eq!(pool.get(key).expect("published").prefix, "> ");
    /// # Ok::<(), pardz::CreateError>(())
    /// ```
    #[inline(always)]
    pub fn create_with(&self, make: impl FnOnce() -> T) -> Result<Filling<'_, T>, CreateError> {
        let borrowed = self.borrowed_or_open()?;
        let begun = borrowed.create(make)?;
        // SAFETY: it was begun just now, in this pool.
        Ok(Filling::new(unsafe { Unpublished::of(begun, borrowed) }))
    }

    /// As [`create`](Pool::create), of a filling that may outlive the pool.
    ///
    /// # Errors
    ///
    /// As there.
    ///
    /// ```
    /// use pardz::Pool;
    /// use std::thread;
    ///
    /// let pool = Pool::<String>::new();
    /// let mut filling = pool.create_owned()?;
    /// let key = thread::spawn(move || {
    ///     filling.push_str("abc");
    ///     filling.publish()
    /// });
    /// assert_eq!(*pool.get(key.join().expect("no panic")).expect("published"), "abc");
    /// # Ok::<(), Box<dyn std::error::Error>>(())
    /// ```
    #[inline(always)]
    pub fn create_owned(&self) -> Result<OwnedFilling<T>, CreateError>
    where
        T: Default,
    {
        let borrowed = self.borrowed_or_open()?;
        let begun = borrowed.create(T::default)?;
        // SAFETY: it was begun just now, in the pool of the share.
        let begun = unsafe { Unpublished::of(begun, Share::of(borrowed)) };
        Ok(OwnedFilling::new(begun))
    }

    /// Fills an object, and publishes it. Where the closure panics nothing is published, and the place is free again.
    ///
    /// # Errors
    ///
    /// As of [`create`](Pool::create).
    ///
    /// ```
    /// let pool = pardz::Pool::<Vec<u32>>::new();
    /// let key = pool.put_with(|list| list.extend(1..4))?;
    /// assert_eq!(*pool.get(key).expect("published"), [1, 2, 3]);
    /// # Ok::<(), pardz::CreateError>(())
    /// ```
    #[inline(always)]
    pub fn put_with(&self, fill: impl FnOnce(&mut T)) -> Result<Key, CreateError>
    where
        T: Default,
    {
        let mut filling = self.create()?;
        fill(&mut filling);
        Ok(filling.publish())
    }

    /// A reference to the object of a key. `None` where it isn't published, or is cleared, or is no key of this pool.
    ///
    /// # Panics
    ///
    /// Where there are 268,435,456 references to the object.
    #[inline(always)]
    pub fn get(&self, key: Key) -> Option<Ref<'_, T>> {
        GetError::raised(self.try_get(key))
    }

    /// As [`get`](Pool::get), but for what that panics at.
    ///
    /// # Errors
    ///
    /// [`GetError::References`] where there are 268,435,456 references to the object.
    ///
    /// ```
    /// let pool = pardz::Pool::<String>::new();
    /// let key = pool.put("abc")?;
    /// assert_eq!(*pool.try_get(key)?.expect("published"), "abc");
    /// # Ok::<(), Box<dyn std::error::Error>>(())
    /// ```
    #[inline(always)]
    pub fn try_get(&self, key: Key) -> Result<Option<Ref<'_, T>>, GetError> {
        let Some(borrowed) = self.borrowed() else {
            return Ok(None);
        };
        let Some(place) = borrowed.get(key)? else {
            return Ok(None);
        };
        // SAFETY: it is a reference that was got just now, of this pool.
        let held = unsafe { Held::of(place, key, borrowed) };
        Ok(Some(Ref::new(held)))
    }

    /// As [`get`](Pool::get), of a reference that may outlive the pool.
    ///
    /// # Panics
    ///
    /// As there.
    ///
    /// ```
    /// use pardz::Pool;
    /// use std::thread;
    ///
    /// let pool = Pool::<String>::new();
    /// let text = pool.get_owned(pool.put("abc")?).expect("published");
    /// assert!(pool.clear(text.key()));
    /// drop(pool);
    /// thread::spawn(move || assert_eq!(*text, "abc")).join().expect("no panic");
    /// # Ok::<(), Box<dyn std::error::Error>>(())
    /// ```
    #[inline(always)]
    pub fn get_owned(&self, key: Key) -> Option<OwnedRef<T>> {
        GetError::raised(self.try_get_owned(key))
    }

    /// As [`get_owned`](Pool::get_owned), but for what that panics at.
    ///
    /// # Errors
    ///
    /// As of [`try_get`](Pool::try_get).
    #[inline(always)]
    pub fn try_get_owned(&self, key: Key) -> Result<Option<OwnedRef<T>>, GetError> {
        let Some(borrowed) = self.borrowed() else {
            return Ok(None);
        };
        let Some(place) = borrowed.get(key)? else {
            return Ok(None);
        };
        // SAFETY: it is a reference that was got just now, of the pool of the share.
        let held = unsafe { Held::of(place, key, Share::of(borrowed)) };
        Ok(Some(OwnedRef::new(held)))
    }

    /// Whether a get of the key would find an object now.
    ///
    /// ```
    /// let pool = pardz::Pool::<String>::new();
    /// let key = pool.put("abc")?;
    /// assert!(pool.contains(key));
    /// assert!(pool.clear(key) && !pool.contains(key));
    /// # Ok::<(), pardz::CreateError>(())
    /// ```
    #[inline]
    pub fn contains(&self, key: Key) -> bool {
        self.borrowed()
            .is_some_and(|borrowed| borrowed.contains(key))
    }

    /// Clears a key: no get finds it any more. Answers whether this call did: `false` where the key isn't published, or is cleared
    /// already, or is no key of this pool. The object stays for those who have a reference; the last of them empties it.
    ///
    /// ```
    /// let pool = pardz::Pool::<String>::new();
    /// let key = pool.put("abc")?;
    /// assert!(pool.clear(key));
    /// assert!(!pool.clear(key));
    /// # Ok::<(), pardz::CreateError>(())
    /// ```
    #[inline(always)]
    pub fn clear(&self, key: Key) -> bool {
        self.borrowed()
            .is_some_and(|borrowed| borrowed.clear(key, Owner::thread))
    }

    /// Sees to it that the calling thread can create so many objects without a page that is opened for it: as long as nobody else of the thread's
    /// calls takes their places.
    ///
    /// # Errors
    ///
    /// As of [`create`](Pool::create). What was opened stays. [`CreateError::Memory`] also where the thread exits, and so keeps no shard.
    ///
    /// ```
    /// let pool = pardz::Pool::<String>::new();
    /// pool.reserve(1000)?;
    /// assert!(pool.census().free >= 1000);
    /// # Ok::<(), pardz::CreateError>(())
    /// ```
    pub fn reserve(&self, count: usize) -> Result<(), CreateError> {
        self.borrowed_or_open()?.reserve(count)
    }
}

impl<T: Clear> Default for Pool<T> {
    fn default() -> Pool<T> {
        Pool::new()
    }
}

impl<T: Clear> Drop for Pool<T> {
    fn drop(&mut self) {
        if let Some(inner) = NonNull::new(*self.inner.get_mut()) {
            // SAFETY: what borrowed the pool has ended, or was forgotten, so that only owned handles have the memory.
            unsafe { Inner::close(inner) };
        }
    }
}

impl<T: Clear> fmt::Debug for Pool<T> {
    fn fmt(&self, f: &mut fmt::Formatter<'_>) -> fmt::Result {
        f.debug_struct("Pool")
            .field("limits", &self.limits)
            .finish_non_exhaustive()
    }
}
