//! References and fillings that were forgotten, by their keys: for who can keep a number alone, as a program in C.
use crate::clear::Clear;
use crate::filling::Filling;
use crate::held::{Held, Unpublished};
use crate::key::Key;
use crate::page::Place;
use crate::pool::Pool;
use crate::reference::Ref;
use crate::share::Borrowed;
use std::ptr::NonNull;

impl<T: Clear> Pool<T> {
    /// The reference to a key's object that was forgotten ([`std::mem::forget`]), for who can keep the key alone.
    ///
    /// # Safety
    ///
    /// Such a reference of this pool, by a get or a downgrade, was forgotten, and is made again no more than once.
    ///
    /// ```
    /// let pool = pardz::Pool::<String>::new();
    /// let key = pool.put("abc")?;
    /// std::mem::forget(pool.get(key));
    /// assert!(pool.clear(key));
    /// // SAFETY: it was forgotten above.
    /// let text = unsafe { pool.ref_from_key(key) };
    /// assert_eq!(*text, "abc");
    /// # Ok::<(), pardz::CreateError>(())
    /// ```
    #[inline]
    pub unsafe fn ref_from_key(&self, key: Key) -> Ref<'_, T> {
        // SAFETY: there is a reference, so that the pool has the key's place; and the caller makes it again once.
        unsafe {
            let (borrowed, place) = self.borrowed_place(key);
            debug_assert!(place.as_ref().word.is_held(key.number()));
            Ref::new(Held::of(place, key, borrowed))
        }
    }

    /// The filling of a key that was forgotten, likewise.
    ///
    /// # Safety
    ///
    /// Such a filling of this pool was forgotten, and is made again no more than once at a time.
    ///
    /// ```
    /// let pool = pardz::Pool::<String>::new();
    /// let filling = pool.create()?;
    /// let key = filling.key();
    /// std::mem::forget(filling);
    /// // SAFETY: it was forgotten above.
    /// let mut filling = unsafe { pool.filling_from_key(key) };
    /// filling.push_str("abc");
    /// assert_eq!(filling.publish(), key);
    /// # Ok::<(), pardz::CreateError>(())
    /// ```
    #[inline]
    pub unsafe fn filling_from_key(&self, key: Key) -> Filling<'_, T> {
        // SAFETY: there is a filling, so that the pool has the key's place; and the caller makes it again once.
        unsafe {
            let (borrowed, place) = self.borrowed_place(key);
            debug_assert!(place.as_ref().word.is_begun(key.number()));
            Filling::new(Unpublished::of((place, key), borrowed))
        }
    }

    /// # Safety
    ///
    /// The pool has the key's place.
    #[inline(always)]
    unsafe fn borrowed_place(&self, key: Key) -> (Borrowed<'_, T>, NonNull<Place<T>>) {
        // SAFETY: so it has memory, and the place is there.
        unsafe {
            let borrowed = self.borrowed().unwrap_unchecked();
            (
                borrowed,
                NonNull::from(borrowed.place(key).unwrap_unchecked()),
            )
        }
    }
}
