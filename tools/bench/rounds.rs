//! The rounds.
use crate::stores::{Keyed, Store};
use std::hint::black_box;
use std::sync::atomic::{AtomicU64, AtomicUsize, Ordering::SeqCst};
use std::sync::{Barrier, Mutex, OnceLock, PoisonError};
use std::{array, mem, thread};

/// How many buffers are read in turn.
const MANY: usize = 16;

/// How many buffers are live in a churn.
const LIVE: usize = 24;

/// How many keys may be under way from one thread to another.
const UNDER_WAY: usize = 16;

/// How many buffers are put one after the other in a round of `at-once-1000`.
const AT_ONCE: usize = 1000;

/// How many buffers are taken away in a random order.
const RANDOM: usize = 100_000;

/// How many buffers are read at random: as many as the largest narrow pool has places.
const LARGE: usize = 64_512;

/// How many threads are idle.
const IDLE: usize = 12;

/// What a word says where no key is under way in it.
const FREE: u64 = u64::MAX;

/// A plan: so many rounds on each of so many threads.
#[derive(Clone, Copy)]
pub struct Plan {
    pub threads: usize,
    pub rounds: u64,
}

/// Whose buffers the threads read.
#[derive(Clone, Copy)]
pub enum Whose {
    Own,
    Shared,
    Others,
}

/// Runs `work` on so many threads, each with its number. Answers the sum of what they counted.
pub fn on_threads(threads: usize, work: impl Fn(usize) -> u64 + Sync) -> u64 {
    let work = &work;
    thread::scope(|scope| {
        let running: Vec<_> = (0..threads)
            .map(|number| scope.spawn(move || work(number)))
            .collect();
        running
            .into_iter()
            .map(|thread| thread.join().expect("a thread panicked"))
            .fold(0, u64::wrapping_add)
    })
}

/// Two fetch_adds on a word of the thread's own.
pub fn bare(rounds: u64) -> u64 {
    let word = AtomicU64::new(0);
    (0..rounds).fold(0, |found: u64, _| {
        found
            .wrapping_add(word.fetch_add(1, SeqCst))
            .wrapping_add(word.fetch_add(1, SeqCst))
    })
}

/// A step of Marsaglia's xorshift generator.
fn random_after(mut word: u64) -> u64 {
    word ^= word << 13;
    word ^= word >> 7;
    word ^= word << 17;
    word
}

/// The same again and again: registers alone.
pub fn alu(rounds: u64) -> u64 {
    (0..rounds).fold(1, |word, _| random_after(word))
}

/// Each thread puts a buffer; when all have, each reads one.
pub fn get<S: Store + Sync>(store: &S, plan: Plan, whose: Whose) -> u64 {
    let handles: Vec<OnceLock<S::Handle>> = (0..plan.threads).map(|_| OnceLock::new()).collect();
    let all_put = Barrier::new(plan.threads);
    let all_read = Barrier::new(plan.threads);
    on_threads(plan.threads, |number| {
        let _ = handles[number].set(store.put());
        all_put.wait();
        let from = match whose {
            Whose::Own => number,
            Whose::Shared => 0,
            Whose::Others => (number + 1) % plan.threads,
        };
        let handle = handles[from].get().expect("each thread has put a buffer");
        let bytes = (0..plan.rounds).map(|_| store.read(handle) as u64).sum();
        all_read.wait();
        bytes
    })
}

/// Each thread reads 16 buffers of its own in turn.
pub fn get_many<S: Store + Sync>(store: &S, plan: Plan) -> u64 {
    on_threads(plan.threads, |_| many_gets(store, plan.rounds))
}

/// What one thread does of it.
#[inline]
pub fn many_gets<S: Store>(store: &S, rounds: u64) -> u64 {
    let handles: [S::Handle; MANY] = array::from_fn(|_| store.put());
    (0..rounds)
        .map(|round| store.read(&handles[(round % MANY as u64) as usize]) as u64)
        .sum()
}

/// The same, two rounds one after the other from two places of call.
pub fn get_two<S: Store + Sync>(store: &S, plan: Plan) -> u64 {
    on_threads(plan.threads, |_| two_gets(store, plan.rounds))
}

/// What one thread does of it.
#[inline]
pub fn two_gets<S: Store>(store: &S, rounds: u64) -> u64 {
    let handles: [S::Handle; MANY] = array::from_fn(|_| store.put());
    (0..rounds / 2)
        .map(|round| {
            let first = (round % (MANY as u64 / 2)) as usize;
            let bytes = store.read(&handles[first]) as u64;
            bytes + store.read(&handles[first + MANY / 2]) as u64
        })
        .sum()
}

/// Each thread reads one of many buffers at random.
pub fn get_large<S: Store + Sync>(store: &S, plan: Plan) -> u64 {
    on_threads(plan.threads, |_| {
        let handles: Vec<S::Handle> = (0..LARGE).map(|_| store.put()).collect();
        let count = handles.len() as u64;
        let mut word = 88_172_645_463_325_252;
        (0..plan.rounds)
            .map(|_| {
                word = random_after(word);
                let at = ((word >> 32) * count) >> 32;
                store.read(&handles[at as usize]) as u64
            })
            .sum()
    })
}

/// Each thread puts a buffer and takes it away.
pub fn cycle<S: Store + Sync>(store: &S, plan: Plan) -> u64 {
    on_threads(plan.threads, |_| cycles(store, plan.rounds))
}

/// What one thread does of it.
#[inline]
pub fn cycles<S: Store>(store: &S, rounds: u64) -> u64 {
    (0..rounds)
        .filter(|_| store.take(black_box(store.put())))
        .count() as u64
}

/// The same, two rounds one after the other from two places of call.
pub fn cycle_two<S: Store + Sync>(store: &S, plan: Plan) -> u64 {
    on_threads(plan.threads, |_| two_cycles(store, plan.rounds))
}

/// What one thread does of it.
#[inline]
pub fn two_cycles<S: Store>(store: &S, rounds: u64) -> u64 {
    (0..rounds / 2)
        .map(|_| {
            let first = store.take(black_box(store.put()));
            u64::from(first) + u64::from(store.take(black_box(store.put())))
        })
        .sum()
}

/// Each thread puts a buffer, reads it, and takes it away.
pub fn life<S: Store + Sync>(store: &S, plan: Plan) -> u64 {
    on_threads(plan.threads, |_| {
        (0..plan.rounds)
            .map(|_| {
                let handle = black_box(store.put());
                let bytes = store.read(&handle);
                bytes as u64 + u64::from(store.take(handle))
            })
            .sum()
    })
}

/// Each thread puts a buffer and takes it away while it reads it.
pub fn held<S: Store + Sync>(store: &S, plan: Plan) -> u64 {
    on_threads(plan.threads, |_| {
        (0..plan.rounds)
            .map(|_| store.read_last(black_box(store.put())) as u64)
            .sum()
    })
}

/// Each thread puts a buffer, and takes it away again and again.
pub fn miss<S: Keyed + Sync>(store: &S, plan: Plan) -> u64 {
    on_threads(plan.threads, |_| {
        let key = store.put();
        (0..plan.rounds)
            .filter(|_| store.take(black_box(key)))
            .count() as u64
    })
}

/// Each thread puts a buffer and takes it away, and reads it again and again.
pub fn get_miss<S: Keyed + Sync>(store: &S, plan: Plan) -> u64 {
    on_threads(plan.threads, |_| {
        let key = store.put();
        store.take(key);
        (0..plan.rounds)
            .map(|_| store.read(&black_box(key)) as u64)
            .sum()
    })
}

/// Each thread puts a thousand buffers, reads them, and takes them away.
pub fn at_once<S: Store + Sync>(store: &S, plan: Plan) -> u64 {
    on_threads(plan.threads, |_| all_at_once(store, plan.rounds))
}

/// What one thread does of it.
#[inline]
pub fn all_at_once<S: Store>(store: &S, rounds: u64) -> u64 {
    let mut handles = Vec::with_capacity(AT_ONCE);
    (0..rounds)
        .map(|_| {
            handles.extend((0..AT_ONCE).map(|_| store.put()));
            let bytes: usize = handles.iter().map(|handle| store.read(handle)).sum();
            bytes
                + handles
                    .drain(..)
                    .map(|handle| usize::from(store.take(handle)))
                    .sum::<usize>()
        })
        .sum::<usize>() as u64
}

/// In turn the oldest of these is taken away, and a new one put.
#[inline(always)]
fn replace_oldest<S: Store>(store: &S, handles: &mut [Option<S::Handle>], rounds: u64) -> u64 {
    let live = handles.len() as u64;
    (0..rounds)
        .filter(|round| {
            let oldest = &mut handles[(round % live) as usize];
            let taken = oldest.take().is_some_and(|handle| store.take(handle));
            *oldest = Some(store.put());
            taken
        })
        .count() as u64
}

/// Each thread has 24 buffers, takes the oldest away and puts a new one.
pub fn churn<S: Store + Sync>(store: &S, plan: Plan) -> u64 {
    on_threads(plan.threads, |_| {
        let mut handles: [Option<S::Handle>; LIVE] = array::from_fn(|_| Some(store.put()));
        replace_oldest(store, &mut handles, plan.rounds)
    })
}

/// The same with so many buffers.
pub fn churn_of<S: Store + Sync>(store: &S, plan: Plan, live: usize) -> u64 {
    on_threads(plan.threads, |_| churns(store, plan.rounds, live))
}

/// What one thread does of it.
#[inline]
pub fn churns<S: Store>(store: &S, rounds: u64, live: usize) -> u64 {
    let mut handles: Vec<Option<S::Handle>> = (0..live).map(|_| Some(store.put())).collect();
    replace_oldest(store, &mut handles, rounds)
}

/// Hands a key on, when its word is free.
fn send(word: &AtomicU64, key: u64) {
    while word.load(SeqCst) != FREE {
        thread::yield_now();
    }
    word.store(key, SeqCst);
}

/// The key of a word, when one is there.
fn receive(word: &AtomicU64) -> u64 {
    while word.load(SeqCst) == FREE {
        thread::yield_now();
    }
    word.swap(FREE, SeqCst)
}

/// Of each two threads the first puts buffers, and the second takes them away.
pub fn pass<S: Keyed + Sync>(store: &S, plan: Plan) -> u64 {
    let words: Vec<AtomicU64> = (0..plan.threads.div_ceil(2) * UNDER_WAY)
        .map(|_| AtomicU64::new(FREE))
        .collect();
    on_threads(plan.threads, |number| {
        let way = &words[number / 2 * UNDER_WAY..][..UNDER_WAY];
        let turns = (0..plan.rounds).map(|round| &way[(round % UNDER_WAY as u64) as usize]);
        if number % 2 == 0 {
            turns.for_each(|word| send(word, S::word(store.put())));
            return 0;
        }
        turns
            .filter(|word| store.take(S::key(receive(word))))
            .count() as u64
    })
}

/// What waits between two looks.
fn wait_for(ready: impl Fn() -> bool) {
    while !ready() {
        thread::yield_now();
    }
}

/// Of each two threads the first puts so many buffers, the second takes them all away, and so on.
pub fn free_by_other<S: Keyed + Sync>(store: &S, plan: Plan, count: usize) -> u64 {
    let pairs = plan.threads.div_ceil(2);
    let rows: Vec<Mutex<Vec<S::Handle>>> = (0..pairs).map(|_| Mutex::default()).collect();
    let turns: Vec<AtomicUsize> = (0..pairs).map(|_| AtomicUsize::new(0)).collect();
    on_threads(plan.threads, |number| {
        let (row, turn, side) = (&rows[number / 2], &turns[number / 2], number % 2);
        let mut taken = 0;
        for _ in 0..plan.rounds {
            wait_for(|| turn.load(SeqCst) == side);
            let mut keys = row.lock().unwrap_or_else(PoisonError::into_inner);
            match side {
                0 => keys.extend((0..count).map(|_| store.put())),
                _ => taken += keys.drain(..).filter(|key| store.take(*key)).count(),
            }
            turn.store(1 - side, SeqCst);
        }
        taken as u64
    })
}

/// Does rounds while twelve other threads, of which each has put a buffer and taken it away, wait for their end.
pub fn beside_idle<S: Store + Sync>(store: &S, rounds: impl FnOnce(&S) -> u64) -> u64 {
    let (called, ended) = (Barrier::new(IDLE + 1), Barrier::new(IDLE + 1));
    thread::scope(|scope| {
        for _ in 0..IDLE {
            scope.spawn(|| {
                store.take(store.put());
                called.wait();
                ended.wait();
            });
        }
        called.wait();
        let counted = rounds(store);
        ended.wait();
        counted
    })
}

/// Each thread reads a buffer of so many stores in turn.
pub fn get_of_several<S: Store + Sync + Default, const N: usize>(plan: Plan) -> u64 {
    let stores: [S; N] = array::from_fn(|_| S::default());
    on_threads(plan.threads, |_| {
        let handles: [S::Handle; N] = array::from_fn(|number| stores[number].put());
        (0..plan.rounds)
            .map(|round| {
                let number = (round % N as u64) as usize;
                stores[number].read(&handles[number]) as u64
            })
            .sum()
    })
}

/// The same with a buffer that is put and taken away.
pub fn cycle_of_several<S: Store + Sync + Default, const N: usize>(plan: Plan) -> u64 {
    let stores: [S; N] = array::from_fn(|_| S::default());
    on_threads(plan.threads, |_| {
        (0..plan.rounds)
            .filter(|round| {
                let store = &stores[(round % N as u64) as usize];
                store.take(black_box(store.put()))
            })
            .count() as u64
    })
}

/// Each thread gives a fresh store so many buffers, and drops it; or keeps it, so that the drop isn't in the time.
pub fn page<S: Store + Sync + Default>(plan: Plan, count: usize, drops: bool) -> u64 {
    on_threads(plan.threads, |_| {
        (0..plan.rounds)
            .map(|_| {
                let store = S::default();
                let put = (0..count).map(|_| black_box(store.put())).count() as u64;
                if !drops {
                    mem::forget(store);
                }
                put
            })
            .sum()
    })
}

/// Each thread gives a fresh store a hundred thousand buffers, takes them away in a random order, and drops it.
pub fn random<S: Keyed + Sync + Default>(plan: Plan) -> u64 {
    on_threads(plan.threads, |_| {
        (0..plan.rounds)
            .map(|_| in_random_order(&S::default()))
            .sum()
    })
}

/// Each thread gives a store a hundred thousand buffers and takes them away in a random order, and then again and again a thousand.
pub fn after_many<S: Keyed + Sync>(store: &S, plan: Plan) -> u64 {
    on_threads(plan.threads, |_| {
        let many = in_random_order(store);
        let few = (0..plan.rounds).map(|_| some_in_random_order(store, AT_ONCE));
        many + few.sum::<u64>()
    })
}

/// What one thread does of a hundred thousand with one store.
#[inline]
pub fn in_random_order<S: Store<Handle: Copy>>(store: &S) -> u64 {
    some_in_random_order(store, RANDOM)
}

/// So many buffers are put, and taken away in a random order.
#[inline]
fn some_in_random_order<S: Store<Handle: Copy>>(store: &S, count: usize) -> u64 {
    let mut keys: Vec<_> = (0..count).map(|_| store.put()).collect();
    shuffle(&mut keys);
    keys.into_iter().filter(|key| store.take(*key)).count() as u64
}

/// A random order, always the same.
fn shuffle<K>(keys: &mut [K]) {
    let mut word = 1;
    for last in (1..keys.len()).rev() {
        word = random_after(word);
        keys.swap(last, (word % (last as u64 + 1)) as usize);
    }
}
