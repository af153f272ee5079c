//! References and fillings, as all kinds of them are inside: they keep the pool's memory by a borrow or by a share, and are the same else.
//!
//! A reference is one of the count of its place's word, so that nobody writes the object; a filling has its place alone. Each ends by one
//! step, which takes the value: so none ends twice.
use crate::errors::GetError;
use crate::inner::{Begun, Inner};
use crate::key::Key;
use crate::page::Place;
use crate::share::Borrowed;
use crate::Clear;
use std::mem::ManuallyDrop;
use std::ops::Deref;
use std::ptr::{self, NonNull};

/// What keeps the memory of a pool of this type, at one address.
pub(crate) trait Keeper<T>: Deref<Target = Inner<T>> {}

impl<T, R: Deref<Target = Inner<T>>> Keeper<T> for R {}

/// A reference to a published object.
pub(crate) struct Held<T: Clear, R: Keeper<T>> {
    place: NonNull<Place<T>>,
    key: Key,
    by: R,
}

/// An object that isn't published.
pub(crate) struct Unpublished<T: Clear, R: Keeper<T>> {
    place: NonNull<Place<T>>,
    key: Key,
    by: R,
}

// SAFETY: the object is read meanwhile by others, and may be emptied by this thread; its end makes atomic steps, or the owner's.
unsafe impl<T: Clear + Send + Sync, R: Keeper<T> + Send> Send for Held<T, R> {}
// SAFETY: a shared one only reads, and is cloned by atomic steps.
unsafe impl<T: Clear + Send + Sync, R: Keeper<T> + Sync> Sync for Held<T, R> {}
// SAFETY: it has its object alone, which others may read once it is published.
unsafe impl<T: Clear + Send + Sync, R: Keeper<T> + Send> Send for Unpublished<T, R> {}
// SAFETY: a shared one only reads.
unsafe impl<T: Clear + Send + Sync, R: Keeper<T> + Sync> Sync for Unpublished<T, R> {}

impl<T: Clear, R: Keeper<T>> Held<T, R> {
    /// # Safety
    ///
    /// It is one of the references to this key's object, of the pool that `by` keeps, and nobody else ends it.
    #[inline(always)]
    pub(crate) unsafe fn of(place: NonNull<Place<T>>, key: Key, by: R) -> Self {
        Held { place, key, by }
    }

    #[inline(always)]
    fn place(&self) -> &Place<T> {
        // SAFETY: it is in the pool's memory, which `by` keeps.
        unsafe { self.place.as_ref() }
    }

    #[inline(always)]
    pub(crate) fn key(&self) -> Key {
        self.key
    }

    #[inline(always)]
    pub(crate) fn object(&self) -> &T {
        // SAFETY: nobody writes the object while there is a reference.
        unsafe { self.place().read() }
    }

    /// One more reference, also where the key was cleared.
    #[inline]
    pub(crate) fn try_clone(&self) -> Result<Self, GetError>
    where
        R: Clone,
    {
        self.place().word.enter_again()?;
        Ok(Held {
            place: self.place,
            key: self.key,
            by: self.by.clone(),
        })
    }

    /// The same reference, by another keeper of the same pool.
    ///
    /// # Safety
    ///
    /// It keeps the same memory.
    #[inline]
    pub(crate) unsafe fn kept_by<S: Keeper<T>>(self, keep: impl FnOnce(&R) -> S) -> Held<T, S> {
        let by = keep(&self.by);
        let this = ManuallyDrop::new(self);
        // SAFETY: the reference isn't used or dropped any more, so that its keeper is dropped once, here.
        drop(unsafe { ptr::read(&this.by) });
        Held {
            place: this.place,
            key: this.key,
            by,
        }
    }
}

impl<'p, T: Clear> Held<T, Borrowed<'p, T>> {
    /// The object, by a reference that never ends.
    pub(crate) fn leak(self) -> &'p T {
        let this = ManuallyDrop::new(self);
        // SAFETY: the place is there as long as the pool is borrowed, and nobody writes the object, since the reference is counted for ever.
        unsafe { this.place.as_ref().read() }
    }
}

impl<T: Clear, R: Keeper<T>> Drop for Held<T, R> {
    #[inline]
    fn drop(&mut self) {
        // SAFETY: the reference ends, which is one of this pool.
        unsafe { self.by.release(self.place.as_ref(), self.key) };
    }
}

impl<T: Clear, R: Keeper<T>> Unpublished<T, R> {
    /// # Safety
    ///
    /// It was begun in the pool that `by` keeps, and nobody else ends it.
    #[inline(always)]
    pub(crate) unsafe fn of((place, key): Begun<T>, by: R) -> Self {
        Unpublished { place, key, by }
    }

    #[inline(always)]
    fn place(&self) -> &Place<T> {
        // SAFETY: it is in the pool's memory, which `by` keeps.
        unsafe { self.place.as_ref() }
    }

    #[inline(always)]
    pub(crate) fn key(&self) -> Key {
        self.key
    }

    #[inline(always)]
    pub(crate) fn object(&self) -> &T {
        // SAFETY: nobody else has the object.
        unsafe { self.place().read() }
    }

    #[inline(always)]
    pub(crate) fn object_mut(&mut self) -> &mut T {
        // SAFETY: nobody else has the object.
        unsafe { self.place().write() }
    }

    #[inline(always)]
    pub(crate) fn publish(self) -> Key {
        let (place, key, _by) = self.into_parts();
        // SAFETY: it is in the pool's memory, which `_by` keeps.
        unsafe { place.as_ref() }.word.publish();
        key
    }

    #[inline(always)]
    pub(crate) fn downgrade(self) -> Held<T, R> {
        let (place, key, by) = self.into_parts();
        // SAFETY: it is in the pool's memory, which `by` keeps.
        unsafe { place.as_ref() }.word.publish_held();
        Held { place, key, by }
    }

    /// The same filling, by another keeper.
    ///
    /// # Safety
    ///
    /// It keeps the same memory.
    #[inline]
    pub(crate) unsafe fn kept_by<S: Keeper<T>>(
        self,
        keep: impl FnOnce(&R) -> S,
    ) -> Unpublished<T, S> {
        let by = keep(&self.by);
        let (place, key, _by) = self.into_parts();
        Unpublished { place, key, by }
    }

    #[inline(always)]
    fn into_parts(self) -> (NonNull<Place<T>>, Key, R) {
        let this = ManuallyDrop::new(self);
        // SAFETY: the filling isn't used or dropped any more.
        (this.place, this.key, unsafe { ptr::read(&this.by) })
    }
}

impl<T: Clear, R: Keeper<T>> Drop for Unpublished<T, R> {
    fn drop(&mut self) {
        // SAFETY: the place is this filling's alone, in this pool.
        unsafe { self.by.abandon(self.place.as_ref(), self.key) };
    }
}
