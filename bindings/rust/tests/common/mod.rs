//! What tests with several threads share: they end by an assertion, and never wait for ever.
//!
//! A thread sanitizer sees what `lock` and `at_once` order. What threads do within std, as they wait for a `Mutex` or at the end of a
//! scope, it doesn't see, since std isn't built for it.
#![allow(dead_code)] // (Each test program takes what it needs.)
use std::io::{self, Write};
use std::panic::Location;
use std::process::{self, Command, Stdio};
use std::sync::mpsc::{channel, RecvTimeoutError, Sender};
use std::sync::{Condvar, Mutex, MutexGuard, PoisonError, TryLockError};
use std::time::Duration;
use std::{env, thread};

/// Marsaglia's xorshift.
pub struct Draws(pub u64);

impl Draws {
    pub fn below(&mut self, limit: usize) -> usize {
        self.0 ^= self.0 << 13;
        self.0 ^= self.0 >> 7;
        self.0 ^= self.0 << 17;
        (self.0 >> 11) as usize % limit
    }

    pub fn of<T: Copy>(&mut self, some: &[T]) -> T {
        some[self.below(some.len())]
    }
}

/// No test takes as long, also where others load the machine: 60 seconds, or as many as `PARDZ_TEST_SECONDS` says, which an emulator
/// may want.
fn longest() -> Duration {
    let seconds = env::var("PARDZ_TEST_SECONDS").ok();
    let seconds = seconds.map(|seconds| seconds.parse().expect("a number of seconds"));
    Duration::from_secs(seconds.unwrap_or(60))
}

/// Ends the process by a message, where the test is still under way after the longest time.
#[must_use = "the test ends with it"]
pub struct Limit {
    _ends: Sender<()>,
}

#[track_caller]
pub fn limit() -> Limit {
    let test = Location::caller();
    let (ends, ended) = channel();
    thread::spawn(move || {
        if ended.recv_timeout(longest()) == Err(RecvTimeoutError::Timeout) {
            // (Past what captures the output of tests, which would be lost.)
            let _ = writeln!(io::stderr(), "{test}: a thread waits for ever");
            process::abort();
        }
    });
    Limit { _ends: ends }
}

/// Where a process is told which test is its own.
pub const ALONE: &str = "PARDZ_ALONE";

/// Runs the work of the test of this name in a process of its own, which may crash or hang.
#[track_caller]
pub fn alone(test: &str, work: impl FnOnce()) {
    if env::var(ALONE).is_ok_and(|alone| alone == test) {
        let _limit = limit();
        return work();
    }
    let program = env::current_exe().expect("the program of the tests");
    let done = Command::new(program)
        .args([test, "--exact", "--include-ignored", "--nocapture"])
        .env(ALONE, test)
        .stdin(Stdio::null())
        .output()
        .expect("it runs once more");
    let (out, err) = (
        String::from_utf8_lossy(&done.stdout),
        String::from_utf8_lossy(&done.stderr),
    );
    assert!(done.status.success(), "{}: {out}{err}", done.status);
    assert!(out.contains("1 passed"), "no test of this name: {out}");
}

/// Locks by tries. Panics where another thread panicked with it.
pub fn lock<V>(mutex: &Mutex<V>) -> MutexGuard<'_, V> {
    for look in 0.. {
        match mutex.try_lock() {
            Ok(value) => return value,
            Err(TryLockError::WouldBlock) => rest(look),
            Err(TryLockError::Poisoned(_)) => panic!("another thread panicked"),
        }
    }
    unreachable!("it looks for ever")
}

/// Lets others run between two looks: longer, where it has looked for a while.
fn rest(look: u32) {
    if look < 20 {
        thread::yield_now();
    } else {
        thread::sleep(Duration::from_micros(50));
    }
}

/// Has all do their work at once, each on a thread of its own, and joins them.
pub fn at_once<R: Send>(works: impl IntoIterator<Item = impl FnOnce() -> R + Send>) -> Vec<R> {
    thread::scope(|scope| {
        let threads: Vec<_> = works.into_iter().map(|work| scope.spawn(work)).collect();
        let ends = threads.into_iter().map(|thread| thread.join());
        ends.map(|end| end.expect("no panic")).collect()
    })
}

/// Where threads wait for each other, as at a `Barrier`; where one of them panics, the others panic too.
pub struct Gate {
    threads: usize,
    state: Mutex<State>,
    opens: Condvar,
    _limit: Limit,
}

#[derive(Default)]
struct State {
    here: usize,
    round: usize,
    is_broken: bool,
}

impl Gate {
    #[track_caller]
    pub fn new(threads: usize) -> Gate {
        Gate {
            threads,
            state: Mutex::default(),
            opens: Condvar::new(),
            _limit: limit(),
        }
    }

    /// For one of the threads, as long as it may make others wait.
    pub fn enter(&self) -> Member<'_> {
        Member(self)
    }

    fn state(&self) -> MutexGuard<'_, State> {
        self.state.lock().unwrap_or_else(PoisonError::into_inner)
    }
}

/// A thread that others wait for.
pub struct Member<'g>(&'g Gate);

impl Member<'_> {
    /// Waits for all. Answers whether this one came last.
    pub fn wait(&self) -> bool {
        let mut state = self.0.state();
        state.here += 1;
        let is_last = state.here == self.0.threads;
        if is_last {
            state.here = 0;
            state.round += 1;
            self.0.opens.notify_all();
        }
        let round = state.round;
        let waits = |state: &mut State| !is_last && !state.is_broken && state.round == round;
        drop(self.0.opens.wait_while(state, waits));
        self.go_on();
        is_last
    }

    /// Panics where another thread did: for loops that wait for something else.
    pub fn go_on(&self) {
        let is_broken = self.0.state().is_broken;
        assert!(!is_broken, "another thread panicked");
    }
}

impl Drop for Member<'_> {
    fn drop(&mut self) {
        if thread::panicking() {
            self.0.state().is_broken = true;
            self.0.opens.notify_all();
        }
    }
}
