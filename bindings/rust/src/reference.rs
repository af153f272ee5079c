//! References.
use crate::buffer::Buffer;
use crate::clear::Clear;
use crate::errors::GetError;
use crate::held::Held;
use crate::key::Key;
use crate::share::{Borrowed, Share};
use std::borrow::Borrow;
use std::cmp::Ordering;
use std::fmt;
use std::hash::{Hash, Hasher};
use std::ops::Deref;
use std::panic::{RefUnwindSafe, UnwindSafe};

/// A reference to a published object. It is given back when it is dropped, on whichever thread.
///
/// The object doesn't change (but for locks and atomics in it) and doesn't move while the reference lives, even if the key is
/// cleared meanwhile.
///
/// It compares, hashes and shows as its object. A clone is one more reference to the same object, also where the key is cleared.
///
/// ```
/// use pardz::Pool;
/// use std::thread;
///
/// let pool = Pool::<String>::new();
/// let (one, other) = (pool.put("abc")?, pool.put("abc")?);
/// let text = pool.get(one).expect("published");
/// assert!(text == pool.get(other).expect("published"));
/// assert!(pool.clear(one));
/// let more = text.clone();
/// thread::scope(|scope| {
///     scope.spawn(move || assert_eq!(*text, "abc"));
/// });
/// assert_eq!(*more, "abc");
/// # Ok::<(), Box<dyn std::error::Error>>(())
/// ```
pub struct Ref<'p, T: Clear = Buffer> {
    held: Held<T, Borrowed<'p, T>>,
}

/// A reference with a share of the pool's memory. Where the pool is dropped before, its memory and its objects go with the last owned
/// handle.
///
/// ```
/// let pool = pardz::Pool::<pardz::Buffer>::new();
/// let key = pool.put(b"abc")?;
/// let bytes = pool.get_owned(key).expect("published");
/// assert!(pool.clear(key));
/// let more = bytes.clone();
/// drop((bytes, pool));
/// let slice: &[u8] = more.as_ref(); // so `bytes::Bytes::from_owner` takes it
/// assert_eq!(slice, b"abc");
/// # Ok::<(), Box<dyn std::error::Error>>(())
/// ```
///
/// It may be used behind a panic that was caught, if `&T` may.
///
/// ```
/// let pool = pardz::Pool::<String>::new();
/// let text = pool.get_owned(pool.put("abc")?).expect("published");
/// assert!(std::panic::catch_unwind(move || assert_eq!(*text, "abc")).is_ok());
/// # Ok::<(), Box<dyn std::error::Error>>(())
/// ```
pub struct OwnedRef<T: Clear = Buffer> {
    held: Held<T, Share<T>>,
}

impl<'p, T: Clear> Ref<'p, T> {
    #[inline(always)]
    pub(crate) fn new(held: Held<T, Borrowed<'p, T>>) -> Ref<'p, T> {
        Ref { held }
    }

    /// The object, by a reference that is never given back: it stays as long as the pool is borrowed, and its place is lost until the
    /// pool ends.
    ///
    /// ```
    /// let pool = pardz::Pool::<String>::new();
    /// let key = pool.put("abc")?;
    /// let text: &str = pool.get(key).expect("published").leak();
    /// assert!(pool.clear(key));
    /// assert_eq!(text, "abc");
    /// # Ok::<(), pardz::CreateError>(())
    /// ```
    pub fn leak(self) -> &'p T {
        self.held.leak()
    }

    /// The same reference, with a share of the pool's memory in place of the borrow.
    ///
    /// ```
    /// use std::thread;
    ///
    /// let pool = pardz::Pool::<String>::new();
    /// let text = pool.get(pool.put("abc")?).expect("published");
    /// assert!(pool.clear(text.key()));
    /// let text = text.into_owned();
    /// drop(pool);
    /// thread::spawn(move || assert_eq!(*text, "abc")).join().expect("no panic");
    /// # Ok::<(), Box<dyn std::error::Error>>(())
    /// ```
    pub fn into_owned(self) -> OwnedRef<T> {
        // SAFETY: the share is one of the pool that was borrowed.
        OwnedRef::new(unsafe { self.held.kept_by(|borrowed| Share::of(*borrowed)) })
    }
}

impl<T: Clear> OwnedRef<T> {
    #[inline(always)]
    pub(crate) fn new(held: Held<T, Share<T>>) -> OwnedRef<T> {
        OwnedRef { held }
    }
}

// What they have of the pool no panic leaves half done; the object they only read.
impl<T: Clear + RefUnwindSafe> UnwindSafe for Ref<'_, T> {}
impl<T: Clear + RefUnwindSafe> RefUnwindSafe for Ref<'_, T> {}
impl<T: Clear + RefUnwindSafe> UnwindSafe for OwnedRef<T> {}
impl<T: Clear + RefUnwindSafe> RefUnwindSafe for OwnedRef<T> {}

/// What references do as their objects do it.
macro_rules! reads_as_its_object {
    ($name:literal, $($of:tt)*) => {
        impl<T: Clear> $($of)* {
            /// The key.
            #[inline]
            pub fn key(&self) -> Key {
                self.held.key()
            }

            /// One more reference to the same object, also where the key is cleared.
            ///
            /// # Errors
            ///
            /// [`GetError::References`] where there are 268,435,456, the most; a clone panics then.
            #[inline]
            pub fn try_clone(&self) -> Result<Self, GetError> {
                Ok(Self { held: self.held.try_clone()? })
            }
        }

        impl<T: Clear> Clone for $($of)* {
            #[inline]
            fn clone(&self) -> Self {
                GetError::raised(self.try_clone())
            }
        }

        impl<T: Clear> Deref for $($of)* {
            type Target = T;

            #[inline(always)]
            fn deref(&self) -> &T {
                self.held.object()
            }
        }

        impl<T: Clear + AsRef<U>, U: ?Sized> AsRef<U> for $($of)* {
            #[inline]
            fn as_ref(&self) -> &U {
                (**self).as_ref()
            }
        }

        impl<T: Clear> Borrow<T> for $($of)* {
            #[inline]
            fn borrow(&self) -> &T {
                self
            }
        }

        /// By their objects, as with a `Box`.
        impl<T: Clear + PartialEq> PartialEq for $($of)* {
            fn eq(&self, other: &Self) -> bool {
                **self == **other
            }
        }

        impl<T: Clear + Eq> Eq for $($of)* {}

        impl<T: Clear + PartialOrd> PartialOrd for $($of)* {
            fn partial_cmp(&self, other: &Self) -> Option<Ordering> {
                (**self).partial_cmp(other)
            }
        }

        impl<T: Clear + Ord> Ord for $($of)* {
            fn cmp(&self, other: &Self) -> Ordering {
                (**self).cmp(other)
            }
        }

        impl<T: Clear + Hash> Hash for $($of)* {
            fn hash<H: Hasher>(&self, state: &mut H) {
                (**self).hash(state);
            }
        }

        impl<T: Clear + fmt::Display> fmt::Display for $($of)* {
            fn fmt(&self, f: &mut fmt::Formatter<'_>) -> fmt::Result {
                (**self).fmt(f)
            }
        }

        impl<T: Clear + fmt::Debug> fmt::Debug for $($of)* {
            fn fmt(&self, f: &mut fmt::Formatter<'_>) -> fmt::Result {
                f.debug_struct($name)
                    .field("key", &self.key())
                    .field("object", &**self)
                    .finish()
            }
        }
    };
}

reads_as_its_object!("Ref", Ref<'_, T>);
reads_as_its_object!("OwnedRef", OwnedRef<T>);
