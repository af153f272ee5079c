//! Atomic words and a mutex as std's, of which each operation is a step of the thread's schedule. Outside of one they are std's.
//!
//! A step finds what the last one left, whatever its ordering: words don't tell what is old. The ordering says which memory behind the word
//! is known then (`memory.rs`).
use crate::run::{self, Effect, Kind};
use std::fmt;
use std::ops::{Deref, DerefMut};
use std::sync::atomic::{self, AtomicU64 as Number};
use std::sync::{LockResult, PoisonError};

pub use std::sync::atomic::Ordering;
use Ordering::{AcqRel, Acquire, Release, SeqCst};

fn effect(order: Ordering, reads: bool, writes: bool) -> Effect {
    Effect {
        acquires: reads && matches!(order, Acquire | AcqRel | SeqCst),
        releases: writes && matches!(order, Release | AcqRel | SeqCst),
        reads,
        writes,
        in_one_order: order == SeqCst,
    }
}

/// What a word's value is as a number, and back.
trait Bits {
    fn bits(self) -> u64;
    fn of(bits: u64) -> Self;
}

impl Bits for bool {
    fn bits(self) -> u64 {
        self.into()
    }

    fn of(bits: u64) -> bool {
        bits != 0
    }
}

impl<T> Bits for *mut T {
    fn bits(self) -> u64 {
        self as u64
    }

    fn of(bits: u64) -> *mut T {
        bits as *mut T
    }
}

macro_rules! bits {
    ($($value:ty)*) => { $(
        impl Bits for $value {
            fn bits(self) -> u64 {
                self as u64
            }

            fn of(bits: u64) -> $value {
                bits as $value
            }
        }
    )* };
}

bits!(u32 u64 usize);

/// What each atomic type has.
macro_rules! atomic {
    ($name:ident $(<$of:ident>)?, $value:ty) => {
        #[repr(transparent)]
        pub struct $name $(<$of>)? (atomic::$name $(<$of>)?);

        impl $(<$of>)? $name $(<$of>)? {
            pub const fn new(value: $value) -> Self {
                Self(atomic::$name::new(value))
            }

            fn bits(&self) -> u64 {
                self.0.load(SeqCst).bits()
            }

            fn at(&self) -> usize {
                std::ptr::from_ref(self).cast::<()>() as usize
            }

            pub fn load(&self, order: Ordering) -> $value {
                Bits::of(run::look(self.at(), || self.bits(), effect(order, true, false)))
            }

            pub fn store(&self, value: $value, order: Ordering) {
                run::step(Kind::Write, self.at(), "store", || self.bits(), || (self.0.store(value, SeqCst), effect(order, false, true)))
            }

            pub fn swap(&self, value: $value, order: Ordering) -> $value {
                run::step(Kind::Write, self.at(), "swap", || self.bits(), || (self.0.swap(value, SeqCst), effect(order, true, true)))
            }

            pub fn compare_exchange(&self, old: $value, new: $value, order: Ordering, failed: Ordering) -> Result<$value, $value> {
                run::step(Kind::Write, self.at(), "compare_exchange", || self.bits(), || {
                    let found = self.0.compare_exchange(old, new, SeqCst, SeqCst);
                    let order = if found.is_ok() { order } else { failed };
                    (found, effect(order, true, found.is_ok()))
                })
            }

            /// Here it fails for no other reason than `compare_exchange`.
            pub fn compare_exchange_weak(&self, old: $value, new: $value, order: Ordering, failed: Ordering) -> Result<$value, $value> {
                self.compare_exchange(old, new, order, failed)
            }

            pub fn fetch_update(
                &self,
                order: Ordering,
                failed: Ordering,
                mut with: impl FnMut($value) -> Option<$value>,
            ) -> Result<$value, $value> {
                let mut now = self.load(failed);
                while let Some(new) = with(now) {
                    match self.compare_exchange(now, new, order, failed) {
                        Ok(found) => return Ok(found),
                        Err(found) => now = found,
                    }
                }
                Err(now)
            }

            pub fn get_mut(&mut self) -> &mut $value {
                crate::writes(self, "an atomic word that is one's own");
                run::is_own(self.at());
                self.0.get_mut()
            }
        }

        impl $(<$of>)? fmt::Debug for $name $(<$of>)? {
            fn fmt(&self, f: &mut fmt::Formatter<'_>) -> fmt::Result {
                self.0.fmt(f)
            }
        }
    };
}

macro_rules! numbers {
    ($($name:ident: $value:ty, $($operation:ident)*;)*) => { $(
        atomic!($name, $value);

        impl Default for $name {
            fn default() -> Self {
                Self::new(Default::default())
            }
        }

        impl $name { $(
            pub fn $operation(&self, value: $value, order: Ordering) -> $value {
                run::step(Kind::Write, self.at(), stringify!($operation), || self.bits(), || {
                    (self.0.$operation(value, SeqCst), effect(order, true, true))
                })
            }
        )* }
    )* };
}

numbers! {
    AtomicBool: bool, fetch_or fetch_and;
    AtomicU32: u32, fetch_add fetch_sub fetch_or fetch_and fetch_max;
    AtomicU64: u64, fetch_add fetch_sub fetch_or fetch_and fetch_max;
    AtomicUsize: usize, fetch_add fetch_sub fetch_or fetch_and fetch_max;
}
atomic!(AtomicPtr<T>, *mut T);

impl AtomicU64 {
    /// # Safety
    ///
    /// As of std's.
    pub unsafe fn from_ptr<'a>(at: *mut u64) -> &'a AtomicU64 {
        // SAFETY: the caller's; it is as a std's, which is as a number.
        unsafe { &*at.cast() }
    }
}

/// Which schedule it is, of all.
static SCHEDULE: Number = Number::new(0);

/// The next schedule begins: its counters too.
pub(crate) fn begin_counters() {
    SCHEDULE.fetch_add(1, SeqCst);
}

/// The first number of a schedule's threads.
const FIRST_OF_A_SCHEDULE: u64 = 1 << 32;

/// A counter of the whole process. Threads of a schedule count on from a number with which each schedule begins, so that each finds the same.
/// What calls beside one counts from 1 on, and no number comes again, since it lasts.
pub struct Counter {
    number: AtomicU64,
    schedule: Number,
    beside: Number,
}

impl Counter {
    pub const fn from_one() -> Counter {
        Counter {
            number: AtomicU64::new(FIRST_OF_A_SCHEDULE),
            schedule: Number::new(0),
            beside: Number::new(1),
        }
    }

    /// Counts one more, and answers the number before.
    pub fn next(&self) -> u64 {
        if !run::is_of_a_schedule() {
            return self.beside.fetch_add(1, SeqCst);
        }
        let schedule = SCHEDULE.load(SeqCst);
        if self.schedule.swap(schedule, SeqCst) != schedule {
            self.number.0.store(FIRST_OF_A_SCHEDULE, SeqCst);
        }
        self.number.fetch_add(1, Ordering::Relaxed)
    }
}

/// As std's, of which a thread that waits isn't chosen. It is never poisoned.
#[derive(Debug, Default)]
pub struct Mutex<T>(std::sync::Mutex<T>);

/// What is in a mutex, as long as it is had.
#[derive(Debug)]
pub struct MutexGuard<'l, T> {
    value: std::sync::MutexGuard<'l, T>,
    at: usize,
}

impl<T> Mutex<T> {
    pub const fn new(value: T) -> Mutex<T> {
        Mutex(std::sync::Mutex::new(value))
    }

    pub fn lock(&self) -> LockResult<MutexGuard<'_, T>> {
        let at = std::ptr::from_ref(self).cast::<()>() as usize;
        let have = || self.0.lock().unwrap_or_else(PoisonError::into_inner);
        let value = run::step(
            Kind::Lock,
            at,
            "lock",
            || 0,
            || (have(), effect(Acquire, true, false)),
        );
        Ok(MutexGuard { value, at })
    }
}

impl<T> Deref for MutexGuard<'_, T> {
    type Target = T;

    fn deref(&self) -> &T {
        &self.value
    }
}

impl<T> DerefMut for MutexGuard<'_, T> {
    fn deref_mut(&mut self) -> &mut T {
        &mut self.value
    }
}

impl<T> Drop for MutexGuard<'_, T> {
    fn drop(&mut self) {
        run::step(
            Kind::Unlock,
            self.at,
            "unlock",
            || 0,
            || ((), effect(Release, false, true)),
        );
    }
}
