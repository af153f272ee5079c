//! Rounds of calls of a pool, as `bench` times those of `Lane`s. It reads no clock, but for `open`.
//!
//!     servers CASE THREADS ROUNDS
//!
//! - `get-many`: a get of one of 16 own keys in turn, a read of the length, a drop;
//! - `far-get-many`: the same where 10,000 buffers are open, so that the keys are of further pages;
//! - `cycle`: a buffer of 64 bytes is filled and published, and cleared;
//! - `owned-get-many`: as `get-many`, by owned references;
//! - `hold`: so many buffers are published and stay open;
//! - `open`: so many pools are opened and dropped with one buffer each, one after the other. Prints the time of one in nanoseconds.
//!
//! Prints one number, so that the work is done.
use pardz::{Buffer, Key, Pool};
use std::process::ExitCode;
use std::sync::Arc;
use std::time::Instant;
use std::{array, env, thread};

const MANY: usize = 16;

fn put(pool: &Pool) -> Key {
    pool.put(&[7; 64]).expect("memory")
}

fn get_many(pool: &Pool, rounds: usize) -> usize {
    let keys: [Key; MANY] = array::from_fn(|_| put(pool));
    (0..rounds)
        .map(|round| pool.get(keys[round % MANY]).map_or(0, |bytes| bytes.len()))
        .sum()
}

fn owned_get_many(pool: &Arc<Pool>, rounds: usize) -> usize {
    let keys: [Key; MANY] = array::from_fn(|_| put(pool));
    (0..rounds)
        .map(|round| {
            let bytes = pool.get_owned(keys[round % MANY]);
            bytes.map_or(0, |bytes| bytes.len())
        })
        .sum()
}

fn cycle(pool: &Pool, rounds: usize) -> usize {
    (0..rounds).filter(|_| pool.clear(put(pool))).count()
}

fn on_threads(threads: usize, work: impl Fn() -> usize + Sync) -> usize {
    if threads == 1 {
        return work();
    }
    thread::scope(|scope| {
        let running: Vec<_> = (0..threads).map(|_| scope.spawn(&work)).collect();
        let results = running.into_iter().map(|thread| thread.join());
        results.map(|result| result.expect("no panic")).sum()
    })
}

/// `None` where the words aren't right.
fn run() -> Option<usize> {
    let words: Vec<String> = env::args().skip(1).collect();
    let [case, threads, rounds] = &words[..] else {
        return None;
    };
    let (threads, rounds) = (threads.parse().ok()?, rounds.parse().ok()?);
    let pool = Arc::new(Pool::<Buffer>::new());
    match case.as_str() {
        "get-many" => Some(on_threads(threads, || get_many(&pool, rounds))),
        "far-get-many" => {
            (0..10_000).for_each(|_| _ = put(&pool));
            Some(on_threads(threads, || get_many(&pool, rounds)))
        }
        "owned-get-many" => Some(on_threads(threads, || owned_get_many(&pool, rounds))),
        "cycle" => Some(on_threads(threads, || cycle(&pool, rounds))),
        "hold" => Some(on_threads(threads, || {
            (0..rounds).for_each(|_| _ = put(&pool));
            rounds
        })),
        "open" => {
            let begin = Instant::now();
            (0..rounds).for_each(|_| _ = put(&Pool::new()));
            Some(begin.elapsed().as_nanos() as usize / rounds)
        }
        _ => None,
    }
}

fn main() -> ExitCode {
    match run() {
        Some(count) => {
            println!("{count}");
            ExitCode::SUCCESS
        }
        None => {
            eprintln!("servers CASE THREADS ROUNDS, as its source says");
            ExitCode::FAILURE
        }
    }
}
