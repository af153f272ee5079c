//! Memory that may be refused: rows, boxes, and values that several have.
use crate::code::Answer;
use crate::sync::{AtomicUsize, Ordering};
use std::mem::ManuallyDrop;
use std::ops::Deref;
use std::ptr::NonNull;

/// An empty row with room for so many.
pub(crate) fn row<T>(count: usize) -> Answer<Vec<T>> {
    let mut row = Vec::new();
    row.try_reserve_exact(count)?;
    Ok(row)
}

/// A box of a value, which is dropped where memory is refused.
pub(crate) fn boxed<T>(value: T) -> Answer<Box<T>> {
    let mut row = row(1)?;
    row.push(value);
    // SAFETY: a box of one value's row is laid out as one of the value.
    Ok(unsafe { Box::from_raw(Box::into_raw(row.into_boxed_slice()).cast()) })
}

/// The right of one of those who have a value to it, as std's `Arc`. The last who has it drops the value.
#[repr(transparent)]
pub(crate) struct Share<T>(NonNull<(AtomicUsize, T)>);

// SAFETY: as of `Arc`: whoever has one reads the value, and any of them may drop it.
unsafe impl<T: Send + Sync> Send for Share<T> {}
// SAFETY: as above.
unsafe impl<T: Send + Sync> Sync for Share<T> {}

impl<T> Share<T> {
    /// The first share of a value, which is dropped where memory is refused.
    pub(crate) fn new(value: T) -> Answer<Share<T>> {
        let counted = boxed((AtomicUsize::new(1), value))?;
        Ok(Share(NonNull::from(Box::leak(counted))))
    }

    /// Whether nobody else has the value.
    pub(crate) fn is_last(&self) -> bool {
        self.count().load(Ordering::Acquire) == 1
    }

    /// The value, where nobody else has it. The share ends in any case.
    pub(crate) fn into_inner(self) -> Option<T> {
        let counted = ManuallyDrop::new(self).end()?;
        Some(counted.1)
    }

    /// The value, for longer than the borrow of this share.
    ///
    /// # Safety
    ///
    /// Some share of it outlives what is done with the value.
    pub(crate) unsafe fn beyond<'v>(&self) -> &'v T {
        // SAFETY: the value is there as long as there is a share, which is asked of whoever calls.
        unsafe { &self.0.as_ref().1 }
    }

    fn count(&self) -> &AtomicUsize {
        // SAFETY: the last share frees it, and this one is there.
        unsafe { &self.0.as_ref().0 }
    }

    /// The share ends. The last one answers what it had.
    fn end(&mut self) -> Option<Box<(AtomicUsize, T)>> {
        let is_last = self.count().fetch_sub(1, Ordering::AcqRel) == 1;
        // SAFETY: it was a box, and nobody else has it any more.
        is_last.then(|| unsafe { Box::from_raw(self.0.as_ptr()) })
    }
}

impl<T> Clone for Share<T> {
    fn clone(&self) -> Share<T> {
        // (A share is a slot of the program's, or a lane: no program has so many that the count would wrap.)
        self.count().fetch_add(1, Ordering::Relaxed);
        Share(self.0)
    }
}

impl<T> Deref for Share<T> {
    type Target = T;

    #[inline]
    fn deref(&self) -> &T {
        // SAFETY: this share outlives the borrow.
        unsafe { self.beyond() }
    }
}

impl<T> Drop for Share<T> {
    fn drop(&mut self) {
        self.end();
    }
}
