//! The rounds of `crates/poolbench` over what one would take in the pool's place, in plain Rust.
//!
//!     tools/bench/build peers                # wants rustc alone; with Debian's librust-sharded-slab-dev the slab too
//!     ./peers map-cycle 4 1000000           # a case, threads, rounds of each: prints one number, so that the work is done
//!
//! `bare` is two fetch_adds on a word of the thread's own, and `alu` a round in registers alone. The other cases are
//! PEER-ROUNDS. The peers:
//!
//! - `slab`: the `Pool` of the real sharded-slab, as Debian has it; `slab16k` with buffers of 16 KiB, `slab192` with objects of 192
//!   bytes; `slabowned` by its owned handles;
//! - `pardz`: the Rust crate, by calls; `owned` by its owned handles; `lane` by a lane in hand of each thread, which
//!   has the rounds `get-many`, `get-two`, `cycle`, `cycle-two`, `at-once-1000`, `churn-1000`, `churn-20000` and `random-100000`;
//! - `dropin`: the Rust crate's module `sharded_slab`, by the same lines as `slab`; `dropin16k`, `dropin192`
//!   and `dropinowned` likewise;
//! - `slabvec`, `slabownedvec`, `dropinvec`, `dropinownedvec`: the same of a `Vec<u8>`, which has the library's `Clear`;
//! - `map`: a hash map of buffers behind a `Mutex`;
//! - `row`: a row of boxed buffers behind a `Mutex`, which are emptied in place, with a list of the free ones;
//! - `queue`: a queue of boxed spare buffers behind a `Mutex`, from which a thread takes one to own it;
//! - `stack`: the same as a stack, of which the last that came is taken first;
//! - `local`: a list of spare buffers for each thread, each an `Arc<Mutex<..>>`, of which a handle is a clone;
//! - `arc`: malloc and free: a fresh buffer in an `Arc` each time.
//!
//! The rounds, with buffers of 64 bytes:
//!
//! - `get-own`, `get-shared`, `get-others`: the length of one buffer is read, which the thread itself, the first thread or
//!   the next thread has put;
//! - `get-many`: the same of 16 own buffers in turn;
//! - `get-two`, `cycle-two`: `get-many` and `cycle` from two places of call, one after the other;
//! - `cycle`: a buffer is put and taken away;
//! - `life`: a buffer is put, read, and taken away;
//! - `held`: a buffer is put, and taken away while it is read;
//! - `churn`, `churn-1000`, `churn-20000`, `churn-3000000`: 24 buffers are live, or so many: the oldest is taken away, and a new one put;
//! - `at-once-1000`: a thousand buffers are put, read, and taken away;
//! - `idle-get`, `idle-cycle`: `get-many` and `cycle` while twelve threads that called once wait;
//! - `tails-get`, `tails-cycle`: the same with each call timed, of which p50, p99 and p99.9 are printed in nanoseconds; `tails-nothing`: two
//!   looks at the clock, which are in each of the two.
//!
//! Those of stores with keys (`slab`, `slabowned`, `pardz`, `owned`, `dropin`, `dropinowned`, `map`, `row`):
//!
//! - `miss`, `get-miss`: a buffer that was taken away is taken away again, or read;
//! - `pass`: a buffer is put by one thread and taken away by another, for an even number of threads;
//! - `free-16`, `free-100`, `free-1000`: so many buffers are put by one thread, and then all taken away by another, likewise;
//! - `get-of-2`, `get-of-8`, `get-of-40`, `cycle-of-2`, `cycle-of-8`, `cycle-of-40`: a buffer of 2, 8 or 40 stores in turn is read, or put
//!   and taken away;
//! - `random-100000`: a fresh store is given a hundred thousand buffers, which are taken away in a random order, and dropped;
//! - `after-100000`: a store that has had a hundred thousand buffers is given a thousand, which are taken away in a random order;
//! - `open`, `hundred`, `page`, `million`: a fresh store is given no buffer, or 100, 1,985 or a million, and dropped; `million-kept`: it
//!   isn't dropped;
//! - `heap`: by how many bytes the heap grows for a fresh store with as many buffers as there are rounds (glibc; the queue's too).
//!
//! A case is timed from outside. In one process:
//!
//!     ./peers turns 31 4 100000 slab-cycle pardz-cycle  # how many turns, threads, rounds; cases
//!
//! does the cases in turns, and prints the lower quartile and the median of a round of each, in nanoseconds, and the median of its time by
//! that of the first.
use std::env;
use std::hint::black_box;
use std::process::ExitCode;
use std::time::Instant;

mod heap;
mod pardz;
mod rounds;
mod stores;
mod tails;

/// The `Pool` of the real sharded-slab.
#[cfg(sharded_slab)]
mod slab {
    use sharded_slab::{Clear, Pool};
    include!("slab.rs");
}

/// The Rust crate's `Pool` of those names.
mod dropin {
    use pardz::sharded_slab::{Clear, Pool};
    include!("slab.rs");
}

use rounds::{Plan, Whose};
use stores::{Arcs, Keyed, Local, Map, Queue, Row, Stack, Store};

/// How many buffers a store is given in a round of `page`.
const PAGE_ROUND: usize = 1985;

/// Does the rounds of this name over a store. None where there are none of the name.
fn do_rounds<S: Store + Sync>(store: &S, name: &str, plan: Plan) -> Option<u64> {
    match name {
        "get-own" => Some(rounds::get(store, plan, Whose::Own)),
        "get-shared" => Some(rounds::get(store, plan, Whose::Shared)),
        "get-others" => Some(rounds::get(store, plan, Whose::Others)),
        "get-many" => Some(rounds::get_many(store, plan)),
        "get-two" => Some(rounds::get_two(store, plan)),
        "get-large" => Some(rounds::get_large(store, plan)),
        "cycle" => Some(rounds::cycle(store, plan)),
        "cycle-two" => Some(rounds::cycle_two(store, plan)),
        "life" => Some(rounds::life(store, plan)),
        "held" => Some(rounds::held(store, plan)),
        "churn" => Some(rounds::churn(store, plan)),
        "churn-1000" => Some(rounds::churn_of(store, plan, 1000)),
        "churn-20000" => Some(rounds::churn_of(store, plan, 20_000)),
        "churn-3000000" => Some(rounds::churn_of(store, plan, 3_000_000)),
        "at-once-1000" => Some(rounds::at_once(store, plan)),
        "tails-get" => Some(tails::gets(store, plan)),
        "tails-cycle" => Some(tails::cycles(store, plan)),
        "tails-nothing" => Some(tails::nothing(store, plan)),
        "idle-get" => Some(rounds::beside_idle(store, |store| {
            rounds::get_many(store, plan)
        })),
        "idle-cycle" => Some(rounds::beside_idle(store, |store| {
            rounds::cycle(store, plan)
        })),
        _ => None,
    }
}

/// Does the rounds of this name over stores whose handles are keys.
fn do_keyed<S: Keyed + Sync + Default>(name: &str, plan: Plan) -> Option<u64> {
    let pairs = plan.threads % 2 == 0;
    match name {
        "pass" => pairs.then(|| rounds::pass(&S::default(), plan)),
        "free-16" => pairs.then(|| rounds::free_by_other(&S::default(), plan, 16)),
        "free-100" => pairs.then(|| rounds::free_by_other(&S::default(), plan, 100)),
        "free-1000" => pairs.then(|| rounds::free_by_other(&S::default(), plan, 1000)),
        "miss" => Some(rounds::miss(&S::default(), plan)),
        "get-miss" => Some(rounds::get_miss(&S::default(), plan)),
        "get-of-2" => Some(rounds::get_of_several::<S, 2>(plan)),
        "get-of-8" => Some(rounds::get_of_several::<S, 8>(plan)),
        "get-of-40" => Some(rounds::get_of_several::<S, 40>(plan)),
        "cycle-of-2" => Some(rounds::cycle_of_several::<S, 2>(plan)),
        "cycle-of-8" => Some(rounds::cycle_of_several::<S, 8>(plan)),
        "cycle-of-40" => Some(rounds::cycle_of_several::<S, 40>(plan)),
        "random-100000" => Some(rounds::random::<S>(plan)),
        "after-100000" => Some(rounds::after_many(&S::default(), plan)),
        "open" => Some(rounds::page::<S>(plan, 0, true)),
        "hundred" => Some(rounds::page::<S>(plan, 100, true)),
        "page" => Some(rounds::page::<S>(plan, PAGE_ROUND, true)),
        "million" => Some(rounds::page::<S>(plan, 1_000_000, true)),
        "million-kept" => Some(rounds::page::<S>(plan, 1_000_000, false)),
        "heap" => Some(heap::bytes_of::<S>(plan.rounds)),
        _ => do_rounds(&S::default(), name, plan),
    }
}

/// Does a case. None where there is none of the name.
fn do_case(case: &str, plan: Plan) -> Option<u64> {
    match case {
        "bare" => {
            return Some(rounds::on_threads(plan.threads, |_| {
                rounds::bare(plan.rounds)
            }))
        }
        "alu" => {
            return Some(rounds::on_threads(plan.threads, |_| {
                rounds::alu(plan.rounds)
            }))
        }
        _ => {}
    }
    let (peer, name) = case.split_once('-')?;
    match peer {
        #[cfg(sharded_slab)]
        "slab" => do_keyed::<slab::Slab<slab::Buffer>>(name, plan),
        #[cfg(sharded_slab)]
        "slabowned" => do_keyed::<slab::Owned<slab::Buffer>>(name, plan),
        #[cfg(sharded_slab)]
        "slabvec" => do_keyed::<slab::Slab<Vec<u8>>>(name, plan),
        #[cfg(sharded_slab)]
        "slabownedvec" => do_keyed::<slab::Owned<Vec<u8>>>(name, plan),
        #[cfg(sharded_slab)]
        "slab16k" => do_rounds(&slab::Slab::<slab::Large>::default(), name, plan),
        #[cfg(sharded_slab)]
        "slab192" => do_rounds(&slab::Slab::<slab::Record>::default(), name, plan),
        "dropin" => do_keyed::<dropin::Slab<dropin::Buffer>>(name, plan),
        "dropinowned" => do_keyed::<dropin::Owned<dropin::Buffer>>(name, plan),
        "dropinvec" => do_keyed::<dropin::Slab<Vec<u8>>>(name, plan),
        "dropinownedvec" => do_keyed::<dropin::Owned<Vec<u8>>>(name, plan),
        "dropin16k" => do_rounds(&dropin::Slab::<dropin::Large>::default(), name, plan),
        "dropin192" => do_rounds(&dropin::Slab::<dropin::Record>::default(), name, plan),
        "pardz" => do_keyed::<self::pardz::Pardz>(name, plan),
        "owned" => do_keyed::<self::pardz::Owned>(name, plan),
        "lane" => self::pardz::do_by_lanes(name, plan),
        "map" => do_keyed::<Map>(name, plan),
        "row" => do_keyed::<Row>(name, plan),
        "queue" if name == "heap" => Some(heap::bytes_of::<Queue>(plan.rounds)),
        "queue" => do_rounds(&Queue::default(), name, plan),
        "stack" => do_rounds(&Stack::default(), name, plan),
        "local" => do_rounds(&Local, name, plan),
        "arc" => do_rounds(&Arcs, name, plan),
        _ => None,
    }
}

/// The case and the plan that the words name.
fn read_words() -> Option<(String, Plan)> {
    let mut words = env::args().skip(1);
    let case = words.next()?;
    let threads = words.next()?.parse().ok().filter(|threads| *threads > 0)?;
    let rounds = words.next()?.parse().ok()?;
    Some((case, Plan { threads, rounds }))
}

/// Does cases in turns, as the words say, and prints their times. None where the words say something else.
fn take_turns(words: &[String]) -> Option<()> {
    let [turns, threads, rounds, cases @ ..] = words else {
        return None;
    };
    let turns: usize = turns.parse().ok().filter(|turns| *turns > 0)?;
    let threads = threads.parse().ok().filter(|threads| *threads > 0)?;
    let rounds = rounds.parse().ok().filter(|rounds| *rounds > 0)?;
    let time = |case: &String| {
        let begin = Instant::now();
        black_box(do_case(case, Plan { threads, rounds })?);
        Some(begin.elapsed().as_nanos() as f64 / rounds as f64)
    };
    let all_times: Option<Vec<Vec<f64>>> = (0..turns)
        .map(|_| cases.iter().map(time).collect())
        .collect();
    let all_times = all_times?;
    for (number, case) in cases.iter().enumerate() {
        let times = all_times.iter().map(|times| times[number]);
        let parts = all_times.iter().map(|times| times[number] / times[0]);
        let (times, parts) = (sorted(times), sorted(parts));
        let [quarter, median] = [turns / 4, turns / 2].map(|at| times[at]);
        println!(
            "{case:24} {quarter:12.1} {median:12.1} {:8.3}",
            parts[turns / 2]
        );
    }
    Some(())
}

fn sorted(numbers: impl Iterator<Item = f64>) -> Vec<f64> {
    let mut numbers: Vec<f64> = numbers.collect();
    numbers.sort_by(f64::total_cmp);
    numbers
}

fn main() -> ExitCode {
    let words: Vec<String> = env::args().skip(1).collect();
    if words.first().is_some_and(|word| word == "turns") {
        if take_turns(&words[1..]).is_some() {
            return ExitCode::SUCCESS;
        }
    }
    match read_words().and_then(|(case, plan)| do_case(&case, plan)) {
        Some(count) => {
            println!("{count}");
            ExitCode::SUCCESS
        }
        None => {
            eprintln!("words: a case, a number of threads, and a number of rounds");
            ExitCode::FAILURE
        }
    }
}
