//! The names of sharded-slab's `Pool` (0.1), so that a program that uses it changes one line:
//! `use sharded_slab::Pool` becomes `use pardz::sharded_slab::Pool`. The manifest may also put a crate of one line,
//! `pub use pardz::sharded_slab::*;`, in the place of `sharded-slab`, so that libraries use it unchanged: `tracing-subscriber` does, and
//! its own tests pass.
//!
//! ```
//! use pardz::sharded_slab::Pool;
//! use std::sync::Arc;
//! use std::thread;
//!
//! let pool: Arc<Pool<String>> = Arc::new(Pool::new());
//! let key = pool.create_with(|item| item.push_str("hello")).expect("memory");
//!
//! let item = pool.clone().get_owned(key).expect("published");
//! assert!(pool.clear(key)); // found no more,
//! assert!(pool.get(key).is_none());
//! thread::spawn(move || assert_eq!(item, "hello".to_string())); // and emptied by the last who has it
//! ```
//!
//! It is a thin layer over [`Pool`](crate::Pool): a create takes a place of its thread's own shard, and the pool grows as it fills.
//!
//! # What differs
//!
//! - **Which place is used next**: of the 64 places among which the thread freed one last, the lowest that is free; sharded-slab takes the one
//!   that was freed last. Both use a place again before they open a page.
//! - **A key is never found again** once it is cleared: a place whose generations are used up is retired. In sharded-slab they begin anew.
//! - **One clear of a key alone answers yes.** While there are references, sharded-slab answers yes to each.
//! - **What is being filled isn't cleared**: a clear of the key of a [`RefMut`] answers no, and does nothing. In sharded-slab it can empty
//!   the object under the `RefMut`.
//! - **A panic in the closure of [`Pool::create_with`]** publishes nothing: the object is emptied, and its place is free. sharded-slab
//!   leaves an object that nobody has the key of. (A [`RefMut`] that is dropped is published in both, also by a panic.)
//! - **Within [`Clear::clear`]**, objects of the same pool that it lets go of are emptied when it has returned, so that a chain of any
//!   length needs no deeper stack. Where it panics its object is dropped.
//! - **A create is refused** where memory is, or at the end of 16,384 shards of 44,992 places: it knows no other most number of threads, and
//!   works while the thread ends. An object has 268,435,456 references at most; one more is a panic.
//! - [`OwnedRef`] and [`OwnedRefMut`] are [`Send`] and [`Sync`] where `T` is both. A [`Clear`] is there for more types.
//! - Keys have 64 bits: the module is there where `usize` has as many.
//!
//! # What isn't there
//!
//! `Slab` with its entries and iterators. Of [`Config`], `MAX_THREADS`, `MAX_PAGES` and `INITIAL_PAGE_SIZE` are taken and not used.
pub use crate::clear::Clear;
use crate::errors::GetError;
use crate::held::{Held, Unpublished};
use crate::inner::Inner;
use crate::limits::Limits;
use crate::share::Borrowed;
use std::fmt;
use std::marker::PhantomData;
use std::ops::{Deref, DerefMut};
use std::ptr::NonNull;
use std::sync::Arc;

mod config;

use config::{index_of, key_of, last_generation};
pub use config::{Config, DefaultConfig};

/// The module of this name there: the pool, and what its calls give.
pub mod pool {
    pub use super::{OwnedRef, OwnedRefMut, Pool, Ref, RefMut};
}

/// A pool of objects that are emptied in place and used again. See [the module](self).
pub struct Pool<T: Clear + Default, C: Config = DefaultConfig> {
    inner: crate::Pool<T>,
    config: PhantomData<fn() -> C>,
}

impl<T: Clear + Default> Pool<T> {
    /// An empty pool.
    pub fn new() -> Pool<T> {
        Pool::<T>::new_with_config()
    }

    /// An empty pool, by another [`Config`].
    ///
    /// # Panics
    ///
    /// Where more than 24 bits are to be reserved.
    ///
    /// ```
    /// use pardz::sharded_slab::{Config, Pool};
    ///
    /// struct Flagged;
    /// impl Config for Flagged {
    ///     const RESERVED_BITS: usize = 2;
    /// }
    ///
    /// let pool = Pool::<String>::new_with_config::<Flagged>();
    /// let key = pool.create_with(|text| text.push('x')).expect("memory");
    /// assert_eq!(key >> 62, 0);
    /// assert!(pool.get(key | 3 << 62).is_some());
    /// ```
    pub fn new_with_config<C: Config>() -> Pool<T, C> {
        let limits = Limits::new().last_generation(last_generation::<C>());
        Pool {
            inner: crate::Pool::of(limits),
            config: PhantomData,
        }
    }
}

impl<T: Clear + Default> Default for Pool<T> {
    fn default() -> Pool<T> {
        Pool::new()
    }
}

impl<T: Clear + Default, C: Config> Pool<T, C> {
    /// How many of the lowest bits of a key are used: all but [`Config::RESERVED_BITS`].
    pub const USED_BITS: usize = u64::BITS as usize - C::RESERVED_BITS;

    /// An empty object, to be filled. It is published when it is dropped. `None` where memory is refused, or all shards are full.
    ///
    /// ```
    /// # use pardz::sharded_slab::Pool;
    /// let pool = Pool::<Vec<u8>>::new();
    /// let mut item = pool.create().expect("memory");
    /// let key = item.key();
    /// item.push(1);
    /// assert!(pool.get(key).is_none());
    /// drop(item);
    /// assert_eq!(pool.get(key).expect("published"), vec![1]);
    /// ```
    #[inline(always)]
    pub fn create(&self) -> Option<RefMut<'_, T, C>> {
        let borrowed = self.inner.borrowed_or_open().ok()?;
        let begun = borrowed.create(T::default).ok()?;
        // SAFETY: it was begun just now, in this pool.
        let filling = unsafe { Unpublished::of(begun, borrowed) };
        Some(RefMut {
            filling: Some(filling),
            config: PhantomData,
        })
    }

    /// As [`create`](Pool::create), with a share of the pool.
    ///
    /// ```
    /// # use pardz::sharded_slab::Pool;
    /// use std::sync::Arc;
    /// use std::thread;
    ///
    /// let pool = Arc::new(Pool::<Vec<u8>>::new());
    /// let mut item = pool.clone().create_owned().expect("memory");
    /// let key = item.key();
    /// thread::spawn(move || item.push(1)).join().expect("no panic");
    /// assert_eq!(pool.get(key).expect("published"), vec![1]);
    /// ```
    #[inline(always)]
    pub fn create_owned(self: Arc<Self>) -> Option<OwnedRefMut<T, C>> {
        let begun = self
            .inner
            .borrowed_or_open()
            .ok()?
            .create(T::default)
            .ok()?;
        // SAFETY: it was begun just now, in this pool.
        let filling = unsafe { Unpublished::of(begun, ByArc::of(self)?) };
        Some(OwnedRefMut {
            filling: Some(filling),
            config: PhantomData,
        })
    }

    /// Fills an object and publishes it: its key. `None` as with [`create`](Pool::create).
    #[inline(always)]
    pub fn create_with(&self, fill: impl FnOnce(&mut T)) -> Option<usize> {
        let key = self.inner.put_with(fill).ok()?;
        Some(index_of::<C>(key))
    }

    /// A reference to the object of a key. `None` where it isn't published, or is cleared, or was never a key.
    #[inline(always)]
    pub fn get(&self, key: usize) -> Option<Ref<'_, T, C>> {
        let key = key_of::<C>(key)?;
        let borrowed = self.inner.borrowed()?;
        let place = GetError::raised(borrowed.get(key))?;
        // SAFETY: it is a reference that was got just now, of this pool.
        let item = unsafe { Held::of(place, key, borrowed) };
        Some(Ref {
            item,
            config: PhantomData,
        })
    }

    /// As [`get`](Pool::get), with a share of the pool.
    #[inline(always)]
    pub fn get_owned(self: Arc<Self>, key: usize) -> Option<OwnedRef<T, C>> {
        let key = key_of::<C>(key)?;
        let place = self.inner.borrowed()?.get(key);
        let place = GetError::raised(place)?;
        // SAFETY: it is a reference that was got just now, of this pool.
        let item = unsafe { Held::of(place, key, ByArc::of(self)?) };
        Some(OwnedRef {
            item,
            config: PhantomData,
        })
    }

    /// Clears a key: no get finds it any more. Answers whether this call did. The object is emptied by the last who leaves it: who drops
    /// the last reference, or makes a get or a clear of the key just then, or here.
    #[inline(always)]
    pub fn clear(&self, key: usize) -> bool {
        match key_of::<C>(key) {
            Some(key) => self.inner.clear(key),
            None => false,
        }
    }
}

impl<T: Clear + Default + fmt::Debug, C: Config> fmt::Debug for Pool<T, C> {
    fn fmt(&self, f: &mut fmt::Formatter<'_>) -> fmt::Result {
        f.debug_struct("Pool").finish_non_exhaustive()
    }
}

/// A reference to a published object.
pub struct Ref<'p, T: Clear + Default, C: Config = DefaultConfig> {
    item: Held<T, Borrowed<'p, T>>,
    config: PhantomData<fn() -> C>,
}

/// An object that is being filled. It is published when it is dropped.
pub struct RefMut<'p, T: Clear + Default, C: Config = DefaultConfig> {
    filling: Option<Unpublished<T, Borrowed<'p, T>>>,
    config: PhantomData<fn() -> C>,
}

/// A reference with a share of the pool.
pub struct OwnedRef<T: Clear + Default, C: Config = DefaultConfig> {
    item: Held<T, ByArc<T, C>>,
    config: PhantomData<fn() -> C>,
}

/// An object that is being filled, with a share of the pool. It is published when it is dropped.
pub struct OwnedRefMut<T: Clear + Default, C: Config = DefaultConfig> {
    filling: Option<Unpublished<T, ByArc<T, C>>>,
    config: PhantomData<fn() -> C>,
}

/// A share of a pool by its `Arc`, which keeps the pool's memory.
struct ByArc<T: Clear + Default, C: Config> {
    inner: NonNull<Inner<T>>,
    _pool: Arc<Pool<T, C>>,
}

// SAFETY: as the `Arc`, and a reference to the memory.
unsafe impl<T: Clear + Default + Send + Sync, C: Config> Send for ByArc<T, C> {}
// SAFETY: as above.
unsafe impl<T: Clear + Default + Send + Sync, C: Config> Sync for ByArc<T, C> {}

impl<T: Clear + Default, C: Config> ByArc<T, C> {
    /// None where the pool has no memory yet.
    fn of(pool: Arc<Pool<T, C>>) -> Option<ByArc<T, C>> {
        let inner = NonNull::from(&*pool.inner.borrowed()?);
        Some(ByArc { inner, _pool: pool })
    }
}

impl<T: Clear + Default, C: Config> Deref for ByArc<T, C> {
    type Target = Inner<T>;

    #[inline(always)]
    fn deref(&self) -> &Inner<T> {
        // SAFETY: the memory is there as long as the pool.
        unsafe { self.inner.as_ref() }
    }
}

/// What is there until its owner is spent.
#[inline(always)]
fn there<F>(filling: Option<F>) -> F {
    match filling {
        Some(filling) => filling,
        None => unreachable!("it is taken by `downgrade` or the drop alone"),
    }
}

/// What the two references share.
macro_rules! reference {
    ($name:ident $(<$life:lifetime>)?) => {
        impl<$($life,)? T: Clear + Default, C: Config> $name<$($life,)? T, C> {
            /// The key.
            #[inline]
            pub fn key(&self) -> usize {
                index_of::<C>(self.item.key())
            }
        }

        impl<$($life,)? T: Clear + Default, C: Config> Deref for $name<$($life,)? T, C> {
            type Target = T;

            #[inline]
            fn deref(&self) -> &T {
                self.item.object()
            }
        }
    };
}

/// What the two fillings share.
macro_rules! filling {
    ($name:ident $(<$life:lifetime>)?, $reference:ident) => {
        impl<$($life,)? T: Clear + Default, C: Config> $name<$($life,)? T, C> {
            /// The key under which it will be published.
            #[inline]
            pub fn key(&self) -> usize {
                index_of::<C>(there(self.filling.as_ref()).key())
            }

            /// Publishes, and keeps a reference.
            #[inline]
            pub fn downgrade(mut self) -> $reference<$($life,)? T, C> {
                $reference {
                    item: there(self.filling.take()).downgrade(),
                    config: PhantomData,
                }
            }
        }

        impl<$($life,)? T: Clear + Default, C: Config> Deref for $name<$($life,)? T, C> {
            type Target = T;

            #[inline]
            fn deref(&self) -> &T {
                there(self.filling.as_ref()).object()
            }
        }

        impl<$($life,)? T: Clear + Default, C: Config> DerefMut for $name<$($life,)? T, C> {
            #[inline]
            fn deref_mut(&mut self) -> &mut T {
                there(self.filling.as_mut()).object_mut()
            }
        }

        impl<$($life,)? T: Clear + Default, C: Config> Drop for $name<$($life,)? T, C> {
            #[inline(always)]
            fn drop(&mut self) {
                if let Some(filling) = self.filling.take() {
                    let _ = filling.publish();
                }
            }
        }
    };
}

/// Each shows as its object, and compares with one.
macro_rules! as_object {
    ($name:ident $(<$life:lifetime>)?) => {
        impl<$($life,)? T: Clear + Default + fmt::Debug, C: Config> fmt::Debug for $name<$($life,)? T, C> {
            fn fmt(&self, f: &mut fmt::Formatter<'_>) -> fmt::Result {
                (**self).fmt(f)
            }
        }

        impl<$($life,)? T: Clear + Default + PartialEq, C: Config> PartialEq<T> for $name<$($life,)? T, C> {
            fn eq(&self, other: &T) -> bool {
                **self == *other
            }
        }
    };
}

reference!(Ref<'p>);
reference!(OwnedRef);
filling!(RefMut<'p>, Ref);
filling!(OwnedRefMut, OwnedRef);
as_object!(Ref<'p>);
as_object!(RefMut<'p>);
as_object!(OwnedRef);
as_object!(OwnedRefMut);
