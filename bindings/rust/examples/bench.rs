//! Rounds of the pool's calls, so many on so many threads. It reads no clock: it is timed from outside.
//!
//!     bench CASE THREADS ROUNDS
//!
//! The cases are a pool and rounds, as `bytes-cycle`. The pools:
//!
//! - `bytes`: buffers, of 64 bytes;
//! - `large`: buffers, of 16 KiB;
//! - `objects`: objects of 192 bytes, without memory of their own;
//! - `lists`: vectors, of 64 bytes.
//!
//! The rounds:
//!
//! - `get-many`: a get of one of 16 own keys in turn, a read of the length, a drop;
//! - `get-shared`: the same of one key, which the first lane published;
//! - `cycle`: an object is filled and published, and cleared;
//! - `churn`: of 24 live objects the oldest is cleared, and a new one published.
//!
//! Prints one number, so that the work is done.
use pardz::{Buffer, Clear, Key, Lane, Pool, Shape};
use std::process::ExitCode;
use std::{array, env, thread};

/// How many keys are read in turn.
const MANY: usize = 16;

/// How many objects are live in a churn.
const LIVE: usize = 24;

static LARGE: [u8; 16_384] = [7; 16_384];

/// What is pooled: how it is filled, and what a reader sees of it.
trait Pooled: Clear + Default + Send + Sync {
    fn fill(&mut self);

    fn size(&self) -> usize;
}

/// A buffer of so many bytes.
#[derive(Default)]
struct Bytes<const N: usize>(Buffer);

impl<const N: usize> Clear for Bytes<N> {
    #[inline]
    fn clear(&mut self) {
        self.0.clear();
    }
}

impl<const N: usize> Pooled for Bytes<N> {
    #[inline]
    fn fill(&mut self) {
        self.0.append(&LARGE[..N]).expect("memory");
    }

    #[inline]
    fn size(&self) -> usize {
        self.0.len()
    }
}

impl Pooled for Vec<u8> {
    #[inline]
    fn fill(&mut self) {
        self.extend_from_slice(&LARGE[..64]);
    }

    #[inline]
    fn size(&self) -> usize {
        self.len()
    }
}

/// An object of 192 bytes.
#[derive(Default)]
struct Record {
    numbers: [u64; 23],
    count: usize,
}

impl Clear for Record {
    #[inline]
    fn clear(&mut self) {
        self.count = 0;
    }
}

impl Pooled for Record {
    #[inline]
    fn fill(&mut self) {
        self.numbers[self.count] = 7;
        self.count += 1;
    }

    #[inline]
    fn size(&self) -> usize {
        self.count * 8
    }
}

#[inline]
fn put<T: Pooled>(lane: &Lane<T>) -> Key {
    lane.put_with(T::fill).expect("a free place")
}

fn get_many<T: Pooled>(lane: &Lane<T>, keys: &[Key; MANY], rounds: usize) -> usize {
    (0..rounds)
        .map(|round| {
            lane.get(keys[round % MANY])
                .map_or(0, |object| object.size())
        })
        .sum()
}

fn cycle<T: Pooled>(lane: &Lane<T>, rounds: usize) -> usize {
    (0..rounds).filter(|_| lane.clear(put(lane))).count()
}

fn churn<T: Pooled>(lane: &Lane<T>, rounds: usize) -> usize {
    let mut keys: [Key; LIVE] = array::from_fn(|_| put(lane));
    (0..rounds)
        .filter(|round| {
            let oldest = &mut keys[round % LIVE];
            let cleared = lane.clear(*oldest);
            *oldest = put(lane);
            cleared
        })
        .count()
}

/// The sum of what the lanes answer, each on a thread of its own. One needs no other thread.
fn on_threads<T: Pooled>(
    mut lanes: Vec<Lane<'_, T>>,
    work: impl Fn(&Lane<'_, T>) -> usize + Sync,
) -> usize {
    if lanes.len() == 1 {
        return work(&lanes.remove(0));
    }
    let work = &work;
    thread::scope(|scope| {
        let running: Vec<_> = lanes
            .into_iter()
            .map(|lane| scope.spawn(move || work(&lane)))
            .collect();
        running
            .into_iter()
            .map(|thread| thread.join().expect("no panic"))
            .sum()
    })
}

/// `None` where there are no such rounds.
fn run<T: Pooled>(case: &str, threads: u32, rounds: usize) -> Option<usize> {
    let pool = Pool::<T>::open(Shape {
        lanes: threads,
        first_page: 32,
        pages: 1,
        ..Shape::default()
    })
    .ok()?;
    let lanes: Vec<_> = (0..threads).filter_map(|_| pool.lane().ok()).collect();
    match case {
        "get-many" | "get-shared" => {
            let shared = put(lanes.first()?);
            Some(on_threads(lanes, |lane| {
                let own = |_| match case {
                    "get-shared" => shared,
                    _ => put(lane),
                };
                get_many(lane, &array::from_fn(own), rounds)
            }))
        }
        "cycle" => Some(on_threads(lanes, |lane| cycle(lane, rounds))),
        "churn" => Some(on_threads(lanes, |lane| churn(lane, rounds))),
        _ => None,
    }
}

/// `None` where the words aren't right.
fn run_words() -> Option<usize> {
    let words: Vec<String> = env::args().skip(1).collect();
    let [case, threads, rounds] = &words[..] else {
        return None;
    };
    let (pool, case) = case.split_once('-')?;
    let (threads, rounds) = (threads.parse().ok()?, rounds.parse().ok()?);
    match pool {
        "bytes" => run::<Bytes<64>>(case, threads, rounds),
        "large" => run::<Bytes<16_384>>(case, threads, rounds),
        "objects" => run::<Record>(case, threads, rounds),
        "lists" => run::<Vec<u8>>(case, threads, rounds),
        _ => None,
    }
}

fn main() -> ExitCode {
    match run_words() {
        Some(count) => {
            println!("{count}");
            ExitCode::SUCCESS
        }
        None => {
            eprintln!("words: a case, a number of threads up to 16, and a number of rounds");
            ExitCode::FAILURE
        }
    }
}
