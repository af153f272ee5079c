//! Fillings.
use crate::buffer::Buffer;
use crate::clear::Clear;
use crate::held::Unpublished;
use crate::key::Key;
use crate::reference::{OwnedRef, Ref};
use crate::share::{Borrowed, Share};
use std::borrow::{Borrow, BorrowMut};
use std::fmt;
use std::io;
use std::ops::{Deref, DerefMut};

/// An empty object, to be filled and published, on whichever thread. It is used as a `&mut T`.
///
/// One that is dropped without a publish gives its place back: the object is emptied, and its key used up, so that it never names
/// anything. One that is forgotten ([`std::mem::forget`]) keeps its place until the pool ends, which drops the object.
///
/// ```
/// let pool = pardz::Pool::<Vec<u8>>::new();
/// let mut filling = pool.create()?;
/// filling.extend([1, 2, 3]);
/// let key = filling.key();
/// assert!(pool.get(key).is_none()); // not yet
/// assert_eq!(filling.publish(), key);
/// assert_eq!(pool.get(key).expect("published").len(), 3);
/// drop(pool.create()?); // not published: its place is free again
/// # Ok::<(), Box<dyn std::error::Error>>(())
/// ```
#[must_use = "a filling that is dropped isn't published"]
pub struct Filling<'p, T: Clear = Buffer> {
    begun: Unpublished<T, Borrowed<'p, T>>,
}

/// A filling with a share of the pool's memory, in place of a borrow.
///
/// ```
/// let pool = pardz::Pool::<String>::new();
/// let mut filling = pool.create_owned()?;
/// filling.push_str("abc");
/// let text = filling.downgrade();
/// assert_eq!(*text, "abc");
/// # Ok::<(), Box<dyn std::error::Error>>(())
/// ```
#[must_use = "a filling that is dropped isn't published"]
pub struct OwnedFilling<T: Clear = Buffer> {
    begun: Unpublished<T, Share<T>>,
}

impl<'p, T: Clear> Filling<'p, T> {
    #[inline(always)]
    pub(crate) fn new(begun: Unpublished<T, Borrowed<'p, T>>) -> Filling<'p, T> {
        Filling { begun }
    }

    /// Publishes, and keeps a reference.
    ///
    /// ```
    /// let pool = pardz::Pool::<String>::new();
    /// let mut filling = pool.create()?;
    /// filling.push_str("abc");
    /// let text = filling.downgrade();
    /// assert_eq!(*text, "abc");
    /// # Ok::<(), Box<dyn std::error::Error>>(())
    /// ```
    #[inline]
    pub fn downgrade(self) -> Ref<'p, T> {
        Ref::new(self.begun.downgrade())
    }

    /// The same filling, with a share of the pool's memory in place of the borrow.
    pub fn into_owned(self) -> OwnedFilling<T> {
        // SAFETY: the share is one of the pool that was borrowed.
        OwnedFilling::new(unsafe { self.begun.kept_by(|borrowed| Share::of(*borrowed)) })
    }
}

impl<T: Clear> OwnedFilling<T> {
    #[inline(always)]
    pub(crate) fn new(begun: Unpublished<T, Share<T>>) -> OwnedFilling<T> {
        OwnedFilling { begun }
    }

    /// Publishes, and keeps a reference.
    #[inline]
    pub fn downgrade(self) -> OwnedRef<T> {
        OwnedRef::new(self.begun.downgrade())
    }
}

/// What fillings do as their objects do it.
macro_rules! fills_as_its_object {
    ($name:literal, $($of:tt)*) => {
        impl<T: Clear> $($of)* {
            /// The key under which it will be published.
            #[inline]
            pub fn key(&self) -> Key {
                self.begun.key()
            }

            /// Publishes: from now on each call finds the object under the key.
            #[inline(always)]
            pub fn publish(self) -> Key {
                self.begun.publish()
            }
        }

        impl<T: Clear> Deref for $($of)* {
            type Target = T;

            #[inline]
            fn deref(&self) -> &T {
                self.begun.object()
            }
        }

        impl<T: Clear> DerefMut for $($of)* {
            #[inline]
            fn deref_mut(&mut self) -> &mut T {
                self.begun.object_mut()
            }
        }

        impl<T: Clear + io::Write> io::Write for $($of)* {
            #[inline]
            fn write(&mut self, bytes: &[u8]) -> io::Result<usize> {
                (**self).write(bytes)
            }

            #[inline]
            fn write_vectored(&mut self, rows: &[io::IoSlice<'_>]) -> io::Result<usize> {
                (**self).write_vectored(rows)
            }

            #[inline]
            fn write_all(&mut self, bytes: &[u8]) -> io::Result<()> {
                (**self).write_all(bytes)
            }

            fn flush(&mut self) -> io::Result<()> {
                (**self).flush()
            }
        }

        impl<T: Clear + fmt::Write> fmt::Write for $($of)* {
            #[inline]
            fn write_str(&mut self, text: &str) -> fmt::Result {
                (**self).write_str(text)
            }

            #[inline]
            fn write_char(&mut self, character: char) -> fmt::Result {
                (**self).write_char(character)
            }
        }

        impl<A, T: Clear + Extend<A>> Extend<A> for $($of)* {
            #[inline]
            fn extend<I: IntoIterator<Item = A>>(&mut self, items: I) {
                (**self).extend(items);
            }
        }

        impl<T: Clear + AsRef<U>, U: ?Sized> AsRef<U> for $($of)* {
            #[inline]
            fn as_ref(&self) -> &U {
                (**self).as_ref()
            }
        }

        impl<T: Clear + AsMut<U>, U: ?Sized> AsMut<U> for $($of)* {
            #[inline]
            fn as_mut(&mut self) -> &mut U {
                (**self).as_mut()
            }
        }

        impl<T: Clear> Borrow<T> for $($of)* {
            #[inline]
            fn borrow(&self) -> &T {
                self
            }
        }

        impl<T: Clear> BorrowMut<T> for $($of)* {
            #[inline]
            fn borrow_mut(&mut self) -> &mut T {
                self
            }
        }

        impl<T: Clear + fmt::Debug> fmt::Debug for $($of)* {
            fn fmt(&self, f: &mut fmt::Formatter<'_>) -> fmt::Result {
                f.debug_struct($name)
                    .field("key", &self.key())
                    .field("object", &**self)
                    .finish()
            }
        }
    };
}

fills_as_its_object!("Filling", Filling<'_, T>);
fills_as_its_object!("OwnedFilling", OwnedFilling<T>);
