//! Several pools on one thread: each create finds the thread's shard of its own pool.
mod common;

use common::limit;
use pardz::{Key, Pool, Shape};
use std::thread;

/// More than a thread has at hand.
const MANY: usize = 70;

fn opened(lanes: u32) -> Pool<String> {
    let shape = Shape {
        lanes,
        first_page: 8,
        pages: 1,
        ..Shape::default()
    };
    Pool::open(shape).expect("a pool")
}

fn text_of(round: usize, number: usize) -> String {
    format!("{round} of {number}")
}

/// In each round an object of each pool in turn. (Pools of one shape give equal keys.)
fn in_turn(pools: &[Pool<String>]) {
    let mut held: Vec<Vec<Key>> = vec![Vec::new(); pools.len()];
    for round in 0..4 {
        for (number, pool) in pools.iter().enumerate() {
            held[number].push(pool.put(&text_of(round, number)).expect("a place"));
        }
        for (number, pool) in pools.iter().enumerate() {
            for (round, key) in held[number].iter().enumerate() {
                let text = pool.get(*key).expect("published");
                assert_eq!(*text, text_of(round, number));
            }
            assert_eq!(pool.census().present, round as u32 + 1);
        }
    }
    for (pool, keys) in pools.iter().zip(&held) {
        assert!(keys.iter().all(|key| pool.clear(*key)));
        assert!(!keys.iter().any(|key| pool.clear(*key)));
        assert_eq!(pool.census().present, 0);
    }
}

#[test]
fn each_pool_of_many() {
    let _limit = limit();
    let pools: Vec<_> = (0..MANY).map(|_| opened(2)).collect();
    in_turn(&pools);
    // A thread that comes later has the other shard of each.
    thread::scope(|scope| scope.spawn(|| in_turn(&pools)).join().expect("no panic"));
    in_turn(&pools);
}

fn lane_of(key: Key) -> u64 {
    u64::from(key) >> 16 & 0xff
}

/// Of many pools each of two threads keeps the shard that it took, and goes back to it.
#[test]
fn each_thread_keeps_its_lane_of_many_pools() {
    let _limit = limit();
    let pools: Vec<_> = (0..MANY).map(|_| opened(2)).collect();
    let lanes = || {
        pools
            .iter()
            .map(|pool| lane_of(pool.put("x").expect("a place")))
    };
    let first: Vec<_> = lanes().collect();
    assert_eq!(first, [0; MANY]);
    thread::scope(|scope| {
        let other = || [(); 3].map(|()| lanes().all(|lane| lane == 1));
        assert_eq!(scope.spawn(other).join().expect("no panic"), [true; 3]);
    });
    assert!(lanes().all(|lane| lane == 0));
    assert!(pools.iter().all(|pool| pool.census().present == 5));
}

/// A thread finds the keys of all shards: of those that it has, and of others'.
#[test]
fn a_thread_reads_all_shards() {
    let _limit = limit();
    let pool = Pool::<String>::new();
    let put = |number: usize| pool.put(&text_of(0, number)).expect("a place");
    let keys: Vec<Key> = (0..50_000).map(put).collect();
    assert_eq!(keys.iter().copied().map(lane_of).max(), Some(1));
    let reads = || {
        for (number, key) in keys.iter().enumerate() {
            assert_eq!(*pool.get(*key).expect("published"), text_of(0, number));
        }
    };
    reads();
    thread::scope(|scope| scope.spawn(reads).join().expect("no panic"));
}

/// A key of a lane, page or place that the pool doesn't have is found by no call, and cleared by none.
#[test]
fn keys_that_no_place_has() {
    let pool = opened(4);
    let kept = pool.put("kept").expect("a place");
    for (shard, page) in (0..256).flat_map(|shard| (0..16).map(move |page| (shard, page))) {
        for slot in [if shard < 8 { 4095 } else { 0 }, 4095] {
            let number = 1 << 24 | shard << 16 | page << 12 | slot;
            let key = Key::try_from(number).expect("it has a generation");
            assert!(pool.get(key).is_none() && !pool.clear(key), "{number:x}");
        }
    }
    assert_eq!(*pool.get(kept).expect("published"), "kept");
}

/// Pools that are closed, and others after them, in which a thread takes a shard anew.
#[test]
fn pools_that_come_and_go() {
    for round in 0..3 * MANY {
        let pool = opened(1);
        let key = pool.put(&text_of(round, 0)).expect("a place");
        assert_eq!(*pool.get(key).expect("published"), text_of(round, 0));
        assert_eq!(pool.close().present, 1);
    }
}
