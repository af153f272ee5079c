//! How long the slowest calls take: each call is timed on its own thread's clock, and counted by its nanoseconds.
use crate::rounds::{on_threads, Plan};
use crate::stores::Store;
use std::hint::black_box;
use std::sync::{Barrier, Mutex, PoisonError};
use std::time::Instant;

/// How many counts a power of two of nanoseconds has: a time is told to one part in sixteen.
const PARTS: u64 = 16;

/// Powers of two from 16 ns to 16 s.
const POWERS: usize = 31;

/// Of how many calls in ten thousand the longest is told: p50, p99, p99.9.
const TOLD: [u64; 3] = [5_000, 9_900, 9_990];

/// How many buffers are read in turn.
const MANY: usize = 16;

/// How many calls took how long.
struct Times([u64; POWERS * PARTS as usize]);

impl Times {
    fn new() -> Times {
        Times([0; POWERS * PARTS as usize])
    }

    /// Counts a call of so many nanoseconds.
    #[inline]
    fn count(&mut self, ns: u64) {
        let power = u64::from(ns.max(PARTS).ilog2() - PARTS.ilog2());
        let at = power * PARTS + (ns.max(PARTS) >> power) - PARTS;
        self.0[(at as usize).min(self.0.len() - 1)] += 1;
    }

    fn add(&mut self, other: &Times) {
        for (sum, count) in self.0.iter_mut().zip(other.0) {
            *sum += count;
        }
    }

    /// The nanoseconds within which so many calls of ten thousand were done.
    fn within(&self, of_ten_thousand: u64) -> u64 {
        let calls: u64 = self.0.iter().sum();
        let mut left = calls * of_ten_thousand / 10_000;
        for (at, count) in (0..).zip(self.0) {
            if left < count {
                return (PARTS + at % PARTS) << (at / PARTS);
            }
            left -= count;
        }
        u64::MAX
    }
}

/// Times each call of each thread, once all threads are there, and prints p50, p99 and p99.9 in nanoseconds.
fn time_calls<S: Store + Sync, C>(
    store: &S,
    plan: Plan,
    begin: impl Fn(&S) -> C + Sync,
    call: impl Fn(&S, &C, u64) -> u64 + Sync,
) -> u64 {
    let (all, ready) = (Mutex::new(Times::new()), Barrier::new(plan.threads));
    let counted = on_threads(plan.threads, |_| {
        let (own, mut times, mut counted) = (begin(store), Times::new(), 0);
        ready.wait();
        for round in 0..plan.rounds {
            let start = Instant::now();
            counted += call(store, &own, round);
            times.count(start.elapsed().as_nanos() as u64);
        }
        all.lock()
            .unwrap_or_else(PoisonError::into_inner)
            .add(&times);
        counted
    });
    let all = all.into_inner().unwrap_or_else(PoisonError::into_inner);
    let [half, slow, slowest] = TOLD.map(|calls| all.within(calls));
    println!("{half} {slow} {slowest}");
    counted
}

/// Each thread reads 16 buffers of its own in turn.
pub fn gets<S: Store + Sync>(store: &S, plan: Plan) -> u64 {
    time_calls(
        store,
        plan,
        |store| -> [S::Handle; MANY] { std::array::from_fn(|_| store.put()) },
        |store, own, round| store.read(&own[(round % MANY as u64) as usize]) as u64,
    )
}

/// Each thread puts a buffer and takes it away.
pub fn cycles<S: Store + Sync>(store: &S, plan: Plan) -> u64 {
    time_calls(
        store,
        plan,
        |_| (),
        |store, (), _| u64::from(store.take(black_box(store.put()))),
    )
}

/// Nothing is done between the two looks at the clock.
pub fn nothing<S: Store + Sync>(store: &S, plan: Plan) -> u64 {
    time_calls(store, plan, |_| (), |_, (), _| black_box(0))
}
