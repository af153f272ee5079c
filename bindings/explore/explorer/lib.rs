//! Runs scenarios of two to four threads through their schedules.
//!
//! The crate under test has the types of this one in the place of std's: each operation on an atomic word, and each lock, is a step, in
//! front of which another thread may be chosen. Beside that it looks at memory which isn't atomic: whether the orderings that the steps
//! declare order each two accesses of which one writes, whether what is freed was used last before that, and isn't used behind it.
#![deny(unsafe_op_in_unsafe_fn)]

mod atomics;
mod calls;
mod clock;
mod explore;
mod heap;
mod memory;
mod run;
mod walk;

pub use atomics::{
    AtomicBool, AtomicPtr, AtomicU32, AtomicU64, AtomicUsize, Counter, Mutex, MutexGuard, Ordering,
};
pub use calls::{call, calls};
pub use explore::{explore, stay, watch, Extent, Plan, Report, Work};
pub use heap::{interrupting, refusing, Heap};
pub use run::Steps;

use memory::Access;
use std::time::Duration;

/// Tells that what stands there is read now.
pub fn reads<V: ?Sized>(at: *const V, what: &str) {
    run::access(at.cast::<()>() as usize, Access::Read, what);
}

/// Tells that what stands there is written now, or lent to be written until the thread's next step.
pub fn writes<V: ?Sized>(at: *const V, what: &str) {
    run::access(at.cast::<()>() as usize, Access::Write, what);
}

/// Lets others go on, until one writes a word that this thread has read since it last did so.
pub fn spin_loop() {
    run::wait();
}

/// As [`spin_loop`].
pub fn yield_now() {
    run::wait();
}

/// As [`spin_loop`].
pub fn sleep(_: Duration) {
    run::wait();
}
