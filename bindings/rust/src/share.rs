//! Shares of a pool's memory, by which owned handles keep it.
//!
//! They are counted in stripes, by the threads that make them, so that few threads meet at one count. When the pool ends each stripe that
//! has shares becomes a holder of the memory, until its last share ends. A share is made by who has the pool, or another share of the same
//! stripe: so a stripe that has none then never has one again.
use crate::inner::Inner;
use crate::sync::{AtomicU64, Ordering::*};
use crate::thread::Owner;
use std::marker::PhantomData;
use std::ops::Deref;
use std::ptr::NonNull;

/// The counts of a pool.
pub(crate) struct Stripes([Stripe; STRIPES]);

const STRIPES: usize = 16;

/// How many shares there are of one stripe.
#[repr(align(128))]
pub(crate) struct Stripe(AtomicU64);

/// Whether the stripe is a holder.
const HOLDS: u64 = 1;
const ONE: u64 = 2;

impl Stripes {
    pub(crate) const fn new() -> Stripes {
        Stripes([const { Stripe(AtomicU64::new(0)) }; STRIPES])
    }

    /// That of this thread.
    #[inline(always)]
    fn of_thread(&self) -> &Stripe {
        &self.0[Owner::numbered_thread().number() as usize % STRIPES]
    }

    pub(crate) fn iter(&self) -> impl Iterator<Item = &Stripe> {
        self.0.iter()
    }
}

impl Stripe {
    /// (2^62 shares are more than fit into memory, but for those that are forgotten: at one a nanosecond, after a century.)
    #[inline(always)]
    fn add(&self) {
        self.0.fetch_add(ONE, Relaxed);
    }

    /// Whether it was the last, and the stripe is a holder.
    #[inline(always)]
    fn end_one(&self) -> bool {
        self.0.fetch_sub(ONE, AcqRel) == ONE | HOLDS
    }

    pub(crate) fn has_none(&self) -> bool {
        self.0.load(Acquire) == 0
    }

    /// Makes the stripe a holder, if there are shares still.
    pub(crate) fn hold(&self) -> bool {
        self.0.fetch_add(HOLDS, AcqRel) != 0
    }
}

/// A borrow of a pool, which keeps its memory.
pub(crate) struct Borrowed<'p, T> {
    inner: NonNull<Inner<T>>,
    of: PhantomData<&'p Inner<T>>,
}

// SAFETY: as a reference to the memory.
unsafe impl<T> Send for Borrowed<'_, T> where Inner<T>: Sync {}
// SAFETY: as above.
unsafe impl<T> Sync for Borrowed<'_, T> where Inner<T>: Sync {}

impl<T> Borrowed<'_, T> {
    /// # Safety
    ///
    /// The pool has this memory, and doesn't end as long as it is borrowed.
    #[inline(always)]
    pub(crate) unsafe fn of(inner: NonNull<Inner<T>>) -> Self {
        Borrowed {
            inner,
            of: PhantomData,
        }
    }
}

impl<T> Clone for Borrowed<'_, T> {
    #[inline(always)]
    fn clone(&self) -> Self {
        *self
    }
}

impl<T> Copy for Borrowed<'_, T> {}

impl<T> Deref for Borrowed<'_, T> {
    type Target = Inner<T>;

    #[inline(always)]
    fn deref(&self) -> &Inner<T> {
        // SAFETY: the memory is there, by the borrow.
        unsafe { self.inner.as_ref() }
    }
}

/// A share of a pool's memory.
pub(crate) struct Share<T> {
    inner: NonNull<Inner<T>>,
    stripe: NonNull<Stripe>,
}

// SAFETY: as a reference to the memory.
unsafe impl<T> Send for Share<T> where Inner<T>: Sync {}
// SAFETY: as above.
unsafe impl<T> Sync for Share<T> where Inner<T>: Sync {}

impl<T> Share<T> {
    /// A share by who borrows the pool.
    #[inline(always)]
    pub(crate) fn of(borrowed: Borrowed<'_, T>) -> Share<T> {
        let stripe = borrowed.stripes().of_thread();
        stripe.add();
        Share {
            inner: borrowed.inner,
            stripe: NonNull::from(stripe),
        }
    }

    #[cold]
    #[inline(never)]
    fn end_stripe(&self) {
        // SAFETY: the pool has ended, and made this stripe a holder, which ends with its last share.
        unsafe { Inner::let_go(self.inner) };
    }
}

impl<T> Clone for Share<T> {
    #[inline]
    fn clone(&self) -> Share<T> {
        // SAFETY: the memory is there, by this share.
        unsafe { self.stripe.as_ref() }.add();
        Share { ..*self }
    }
}

impl<T> Deref for Share<T> {
    type Target = Inner<T>;

    #[inline(always)]
    fn deref(&self) -> &Inner<T> {
        // SAFETY: the memory is there, by this share.
        unsafe { self.inner.as_ref() }
    }
}

impl<T> Drop for Share<T> {
    #[inline(always)]
    fn drop(&mut self) {
        // SAFETY: the memory is there, by this share.
        if unsafe { self.stripe.as_ref() }.end_one() {
            self.end_stripe();
        }
    }
}
