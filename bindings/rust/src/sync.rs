//! What threads share, as the crate's own files use it: the standard library's. Under `cfg(pardz_explore)` it is the explorer's, which runs
//! scenarios through their schedules (`bindings/explore`).
#[cfg(pardz_explore)]
pub(crate) use explorer::{
    reads, writes, AtomicPtr, AtomicU64, AtomicUsize, Counter, Mutex, MutexGuard, Ordering,
};
#[cfg(not(pardz_explore))]
pub(crate) use standard::*;
#[cfg(not(pardz_tries))]
use std::sync::PoisonError;

/// Locks. (A lock that was poisoned is as good: nothing that panics is done under it.)
pub(crate) fn lock<V>(mutex: &Mutex<V>) -> MutexGuard<'_, V> {
    // By tries, which a thread sanitizer sees: what threads do that wait within std it doesn't.
    #[cfg(pardz_tries)]
    loop {
        match mutex.try_lock() {
            Ok(guard) => return guard,
            Err(std::sync::TryLockError::Poisoned(poisoned)) => return poisoned.into_inner(),
            Err(std::sync::TryLockError::WouldBlock) => std::thread::yield_now(),
        }
    }
    #[cfg(not(pardz_tries))]
    mutex.lock().unwrap_or_else(PoisonError::into_inner)
}

#[cfg(not(pardz_explore))]
mod standard {
    pub(crate) use std::sync::atomic::{AtomicPtr, AtomicU64, AtomicUsize, Ordering};
    pub(crate) use std::sync::{Mutex, MutexGuard};

    /// A counter of the whole process.
    pub(crate) struct Counter(AtomicU64);

    impl Counter {
        pub(crate) const fn from_one() -> Counter {
            Counter(AtomicU64::new(1))
        }

        /// Counts one more, and answers the number before.
        pub(crate) fn next(&self) -> u64 {
            self.0.fetch_add(1, Ordering::Relaxed)
        }
    }

    /// Tells the explorer, where it looks on, that what stands there is read now.
    #[inline(always)]
    pub(crate) fn reads<V: ?Sized>(_: *const V, _: &str) {}

    /// That it is written now, or lent to be written until the thread's next step.
    #[inline(always)]
    pub(crate) fn writes<V: ?Sized>(_: *const V, _: &str) {}
}
