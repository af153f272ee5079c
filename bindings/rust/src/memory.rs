//! Memory that may be refused: values in boxes, and one that several have.
use crate::errors::MemoryRefused;
use crate::sync::{AtomicUsize, Ordering::*};
use std::alloc::{alloc, alloc_zeroed, Layout};
use std::mem;
use std::ops::Deref;
use std::ptr::NonNull;

/// A box, where memory for it is granted. Else the value is dropped.
pub(crate) fn boxed<V>(value: V) -> Result<Box<V>, MemoryRefused> {
    const { assert!(mem::size_of::<V>() > 0) };
    // SAFETY: the layout has bytes.
    let at = unsafe { alloc(Layout::new::<V>()) }.cast::<V>();
    let at = NonNull::new(at).ok_or(MemoryRefused)?;
    // SAFETY: it is memory of this layout, from the allocator that a box frees it to.
    unsafe {
        at.as_ptr().write(value);
        Ok(Box::from_raw(at.as_ptr()))
    }
}

/// A box of zeros, where memory for it is granted.
///
/// # Safety
///
/// Zeros are a value of the type.
pub(crate) unsafe fn zeroed<V>() -> Result<Box<V>, MemoryRefused> {
    const { assert!(mem::size_of::<V>() > 0) };
    // SAFETY: the layout has bytes.
    let at = unsafe { alloc_zeroed(Layout::new::<V>()) }.cast::<V>();
    let at = NonNull::new(at).ok_or(MemoryRefused)?;
    // SAFETY: it is memory of this layout, from the allocator that a box frees it to, and the caller says that it is a value.
    Ok(unsafe { Box::from_raw(at.as_ptr()) })
}

/// A value that several have, as in an `Arc`.
pub(crate) struct Counted<V>(NonNull<(AtomicUsize, V)>);

// SAFETY: as an `Arc`: whoever has it reads the value, and the last one drops it.
unsafe impl<V: Send + Sync> Send for Counted<V> {}
// SAFETY: as above.
unsafe impl<V: Send + Sync> Sync for Counted<V> {}

impl<V> Counted<V> {
    pub(crate) fn new(value: V) -> Result<Counted<V>, MemoryRefused> {
        let at = boxed((AtomicUsize::new(1), value))?;
        Ok(Counted(NonNull::from(Box::leak(at))))
    }
}

impl<V> Clone for Counted<V> {
    /// (Each clone is one thread's or the pool's: no program has so many that the count would wrap.)
    fn clone(&self) -> Self {
        // SAFETY: the value is there while anybody has it.
        unsafe { self.0.as_ref() }.0.fetch_add(1, Relaxed);
        Counted(self.0)
    }
}

impl<V> Deref for Counted<V> {
    type Target = V;

    fn deref(&self) -> &V {
        // SAFETY: the value is there while anybody has it.
        unsafe { &self.0.as_ref().1 }
    }
}

impl<V> Drop for Counted<V> {
    fn drop(&mut self) {
        // SAFETY: the value is there while anybody has it.
        if unsafe { self.0.as_ref() }.0.fetch_sub(1, AcqRel) == 1 {
            // SAFETY: it was made by a box, and nobody has it any more.
            drop(unsafe { Box::from_raw(self.0.as_ptr()) });
        }
    }
}
