//! Places, shards and threads, up to their limits.
#[path = "pool/storm.rs"]
mod storm;
#[path = "pool/threads.rs"]
mod threads;

use pardz::{Clear, CreateError, Key, Limits, OwnedRef, Pool};
use std::cell::RefCell;
use std::collections::{HashMap, HashSet};
use std::panic::{catch_unwind, AssertUnwindSafe};
use std::sync::atomic::{AtomicBool, AtomicU64, AtomicUsize, Ordering::*};
use std::sync::mpsc;
use std::sync::{Arc, Barrier, Mutex};
use std::thread;

fn put(pool: &Pool<String>, text: &str) -> Key {
    pool.put_with(|it| it.push_str(text)).unwrap()
}

#[test]
fn a_life() {
    let pool = Pool::<String>::new();
    let mut filling = pool.create().unwrap();
    filling.push_str("one");
    let key = filling.key();
    assert!(pool.get(key).is_none());
    assert!(!pool.clear(key));
    assert_eq!(filling.publish(), key);
    let one = pool.get(key).unwrap();
    let two = one.clone();
    assert!(pool.clear(key) && !pool.clear(key) && pool.get(key).is_none());
    let three = two.clone();
    drop((one, two));
    assert_eq!(*three, "one");
    drop(three);
    let again = pool.create().unwrap();
    assert!(again.is_empty() && again.capacity() >= 3);
    assert_ne!(again.key(), key);
}

#[test]
fn keys_that_are_none() {
    let pool = Pool::<String>::new();
    let key = u64::from(put(&pool, "x"));
    for bit in 0..64 {
        let Ok(other) = Key::try_from(key ^ 1 << bit) else {
            continue;
        };
        assert!(pool.get(other).is_none() && !pool.clear(other), "{bit}");
    }
    for number in [1, u64::MAX, 1 << 56, 0xff_ffff] {
        assert!(pool.get(Key::try_from(number).unwrap()).is_none());
    }
    assert!(Key::try_from(0).is_err());
    // The first slot that the page hasn't, at the generation that the word of its free places would tell there.
    let keys: Vec<Key> = (1..32).map(|_| put(&pool, "y")).collect();
    assert!(pool.clear(Key::try_from(key).unwrap()));
    let behind = Key::try_from(0xffff_ffff << 24 | 64).unwrap();
    assert!(pool.get(behind).is_none() && !pool.clear(behind) && !pool.contains(behind));
    assert!(keys.iter().all(|key| pool.contains(*key)));
}

#[test]
fn a_dropped_filling_ends_its_key() {
    let pool = Pool::<String>::new();
    let mut filling = pool.create().unwrap();
    filling.push('x');
    let key = filling.key();
    drop(filling);
    let next = pool.create().unwrap();
    assert!(next.is_empty() && next.key() != key);
    _ = next.publish();
    assert!(pool.get(key).is_none());
}

#[test]
fn no_key_comes_twice() {
    let pool = Pool::<String>::new();
    let mut keys = HashSet::new();
    let mut live = Vec::new();
    for i in 0..50_000u64 {
        let key = pool.create().unwrap().publish();
        assert!(keys.insert(key));
        live.push(key);
        if i % 3 != 0 {
            let at = (i * 7919) as usize % live.len();
            assert!(pool.clear(live.swap_remove(at)));
        }
    }
    assert!(live.iter().all(|&key| pool.get(key).is_some()));
}

#[test]
fn places_retire() {
    static LIVE: AtomicUsize = AtomicUsize::new(0);
    struct Counted;
    impl Default for Counted {
        fn default() -> Counted {
            LIVE.fetch_add(1, Relaxed);
            Counted
        }
    }
    impl Drop for Counted {
        fn drop(&mut self) {
            LIVE.fetch_sub(1, Relaxed);
        }
    }
    impl Clear for Counted {
        fn clear(&mut self) {}
    }
    let pool = Limits::new()
        .shards(1)
        .last_generation(3)
        .open::<Counted>()
        .unwrap();
    let mut created = 0;
    loop {
        match pool.create() {
            Ok(filling) if created % 3 == 0 => drop(filling),
            Ok(filling) if created % 3 == 1 => assert!(pool.clear(filling.publish())),
            Ok(filling) => {
                let held = filling.downgrade();
                assert!(pool.clear(held.key()));
            }
            Err(error) => break assert_eq!(error, CreateError::Full),
        }
        created += 1;
    }
    assert_eq!(created, 3 * 44_992);
    assert_eq!(LIVE.load(Relaxed), 0);
}

#[test]
fn full_and_further_shards() {
    let pool = Limits::new().shards(2).open::<u8Cell>().unwrap();
    let keys: Vec<Key> = (0..2 * 44_992)
        .map(|_| pool.create().unwrap().publish())
        .collect();
    assert_eq!(pool.create().err(), Some(CreateError::Full));
    thread::scope(|scope| {
        scope.spawn(|| assert_eq!(pool.create().err(), Some(CreateError::NoLane)));
    });
    // A place of either shard that this thread, or another one, frees is found again.
    for &key in [&keys[0], &keys[44_992], &keys[89_983], &keys[5_000]] {
        assert!(pool.clear(key));
        _ = pool.create().unwrap().publish();
        assert_eq!(pool.create().err(), Some(CreateError::Full));
    }
    thread::scope(|scope| {
        scope.spawn(|| {
            keys[1..5000]
                .iter()
                .for_each(|&key| assert!(pool.clear(key)))
        });
    });
    (1..5000).for_each(|_| {
        _ = pool.create().unwrap().publish();
    });
    assert_eq!(pool.create().err(), Some(CreateError::Full));
}

#[allow(non_camel_case_types)]
#[derive(Default)]
struct u8Cell(u8);
impl Clear for u8Cell {
    fn clear(&mut self) {
        self.0 = 0;
    }
}

#[test]
fn a_million() {
    let pool = Pool::<String>::new();
    let keys: Vec<Key> = (0..1_000_000u32)
        .map(|i| put(&pool, &i.to_string()))
        .collect();
    for (i, &key) in keys.iter().enumerate().step_by(997) {
        assert_eq!(*pool.get(key).unwrap(), i.to_string());
    }
}

#[test]
fn a_full_shard_that_was_left_is_taken_again() {
    let pool = Limits::new().shards(1).open::<u8Cell>().unwrap();
    let keys = thread::scope(|scope| {
        let all = || {
            (0..44_992)
                .map(|_| pool.create().unwrap().publish())
                .collect::<Vec<_>>()
        };
        scope.spawn(all).join().unwrap()
    });
    assert_eq!(pool.create().err(), Some(CreateError::Full));
    assert!(pool.clear(keys[77]));
    _ = pool.create().unwrap().publish();
    assert_eq!(pool.create().err(), Some(CreateError::Full));
}

#[test]
fn a_clear_calls_the_pool() {
    #[derive(Default)]
    struct Node {
        pool: Option<Arc<Pool<Node>>>,
        next: Option<Key>,
        held: Option<OwnedRef<Node>>,
        cleared: Option<Arc<AtomicUsize>>,
    }
    impl Clear for Node {
        fn clear(&mut self) {
            let pool = self.pool.take();
            self.held = None;
            if let (Some(pool), Some(next)) = (&pool, self.next.take()) {
                assert!(pool.clear(next));
                assert!(pool.clear(pool.create().unwrap().publish()));
                drop(pool.create().unwrap());
            }
            if let Some(cleared) = self.cleared.take() {
                cleared.fetch_add(1, Relaxed);
            }
        }
    }
    let (pool, cleared) = (Arc::new(Pool::<Node>::new()), Arc::new(AtomicUsize::new(0)));
    let mut last: Option<Key> = None;
    for _ in 0..200 {
        let mut node = pool.create().unwrap();
        node.pool = Some(pool.clone());
        node.next = last;
        node.held = last.and_then(|key| pool.get_owned(key));
        node.cleared = Some(cleared.clone());
        last = Some(node.publish());
    }
    assert!(pool.clear(last.unwrap()));
    assert_eq!(cleared.load(Relaxed), 200);
}

static LIVE: AtomicUsize = AtomicUsize::new(0);
static PANICS: AtomicBool = AtomicBool::new(false);

/// Counts in `LIVE`, and panics as it is made or emptied while `PANICS` says so.
struct Wild(#[allow(dead_code)] Box<u8>);

impl Default for Wild {
    fn default() -> Wild {
        assert!(!PANICS.load(Relaxed), "default");
        LIVE.fetch_add(1, Relaxed);
        Wild(Box::new(1))
    }
}

impl Clear for Wild {
    fn clear(&mut self) {
        assert!(!PANICS.load(Relaxed), "clear");
    }
}

impl Drop for Wild {
    fn drop(&mut self) {
        LIVE.fetch_sub(1, Relaxed);
    }
}

/// Whether the work panics, where each `Wild` does.
fn wild_panics(work: impl FnOnce()) -> bool {
    PANICS.store(true, Relaxed);
    let panicked = catch_unwind(AssertUnwindSafe(work)).is_err();
    PANICS.store(false, Relaxed);
    panicked
}

#[test]
fn panics() {
    let pool = Pool::<Wild>::new();
    assert!(wild_panics(|| drop(pool.create())));
    let key = pool.create().unwrap().publish();
    let place = u64::from(key) & 0xff_ffff;
    assert!(wild_panics(|| _ = pool.clear(key)));
    assert_eq!(LIVE.load(Relaxed), 0);
    // The place is free again, and its object a new one.
    assert!(wild_panics(|| drop(pool.create())));
    let filling = pool.create().unwrap();
    assert_eq!(u64::from(filling.key()) & 0xff_ffff, place);
    assert_eq!(LIVE.load(Relaxed), 1);
    assert!(wild_panics(|| drop(filling)));
    // While the thread unwinds, a further panic goes no further.
    let key = pool.create().unwrap().publish();
    assert!(wild_panics(|| {
        let _held = pool.get(key).unwrap();
        pool.clear(key);
        panic!("outer");
    }));
    assert_eq!(u64::from(pool.create().unwrap().key()) & 0xff_ffff, place);
    drop(pool);
    assert_eq!(LIVE.load(Relaxed), 0);
}

#[test]
fn places_freed_when_all_were_in_use() {
    const PLACES: usize = 44_992;
    let pool = Limits::new().shards(1).open::<u8Cell>().unwrap();
    let mut keys: Vec<Key> = (0..PLACES)
        .map(|_| pool.create().unwrap().publish())
        .collect();
    for distance in [1, 63, 64, 65, 4096, 40_000] {
        assert_eq!(pool.create().err(), Some(CreateError::Full));
        let freed: Vec<usize> = (0..5)
            .map(|i| (PLACES - 1 + i * distance) % PLACES)
            .collect();
        freed.iter().for_each(|&at| assert!(pool.clear(keys[at])));
        freed
            .iter()
            .for_each(|&at| keys[at] = pool.create().unwrap().publish());
    }
}

#[test]
fn many_pools_on_a_thread() {
    let pools: Vec<Pool<String>> = (0..40).map(|_| Pool::new()).collect();
    for round in 0..3 {
        for (i, pool) in pools.iter().enumerate() {
            let key = put(pool, &i.to_string());
            assert_eq!(*pool.get(key).unwrap(), i.to_string());
            assert_eq!(u64::from(key) & 0xff_ffff, round);
        }
    }
    for _ in 0..1000 {
        _ = put(&Pool::new(), "x");
    }
}

#[test]
fn large_alignment_and_no_bytes() {
    #[derive(Default)]
    #[repr(align(256))]
    struct Wide(u8);
    impl Clear for Wide {
        fn clear(&mut self) {
            self.0 = 0;
        }
    }
    let pool = Pool::<Wide>::new();
    for _ in 0..200 {
        let filling = pool.create().unwrap();
        assert_eq!(&*filling as *const Wide as usize % 256, 0);
        _ = filling.publish();
    }
    #[derive(Default)]
    struct Nothing;
    impl Clear for Nothing {
        fn clear(&mut self) {}
    }
    let pool = Pool::<Nothing>::new();
    let keys: Vec<Key> = (0..1000)
        .map(|_| pool.create().unwrap().publish())
        .collect();
    keys.iter().for_each(|&key| assert!(pool.clear(key)));
}

#[test]
fn lanes() {
    let pool = Pool::<String>::new();
    let lane = pool.lane().unwrap();
    let keys: Vec<Key> = (0..100_000)
        .map(|_| lane.create().unwrap().publish())
        .collect();
    let own = put(&pool, "own");
    drop(lane);
    keys.iter().for_each(|&key| assert!(pool.clear(key)));
    assert!(pool.get(own).is_some());
}

fn is_send_and_sync<T: Send + Sync>() {}

#[test]
fn kinds() {
    is_send_and_sync::<Pool<String>>();
    is_send_and_sync::<OwnedRef<String>>();
    is_send_and_sync::<pardz::OwnedFilling<String>>();
    is_send_and_sync::<pardz::Ref<'_, String>>();
}
