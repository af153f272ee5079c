//! The program's allocator calls the pool: as a hook of one might, that counts or traces.
mod common;
#[path = "common/hooked.rs"]
mod hooked;

use common::{alone, at_once, ALONE};
use hooked::{BLOCKS, HOOK, HOOKED};
use pardz::{Key, OwnedLane, Pool, Shape};
use std::cell::{Cell, OnceCell};
use std::sync::atomic::Ordering::SeqCst;
use std::sync::{Arc, OnceLock};
use std::{env, mem, ptr};

thread_local! {
    static LANE: OnceCell<OwnedLane<String>> = const { OnceCell::new() };
}

fn pool() -> &'static Arc<Pool<String>> {
    static POOL: OnceLock<Arc<Pool<String>>> = OnceLock::new();
    POOL.get_or_init(|| {
        let shape = Shape {
            lanes: 4,
            first_page: 1,
            pages: 6,
            ..Shape::default()
        };
        let is_growing = env::var(ALONE).is_ok_and(|test| test.contains("growing"));
        Arc::new(if is_growing {
            Pool::new()
        } else {
            Pool::open(shape).unwrap()
        })
    })
}

/// All calls of the pool, by each way.
fn calls() {
    HOOKED.fetch_add(1, SeqCst);
    if let Ok(key) = pool().put_with(|text| text.push_str("by the hook")) {
        let held = pool().get(key).expect("published");
        let owned = pool().get_owned(key).expect("published");
        assert!(pool().clear(key));
        assert_eq!(*held, *owned.clone());
    }
    drop(pool().create_owned());
    // (As the thread ends it has none.)
    let _ = LANE.try_with(|lane| {
        let lane = lane.get()?;
        let key = lane.put_with(|text| text.push('x')).ok()?;
        assert_eq!(*lane.get(key).expect("published"), "x");
        assert!(lane.clear(key));
        Some(key)
    });
}

/// A part with the hook.
fn with_hook<R>(work: impl FnOnce() -> R) -> R {
    HOOK.set(calls);
    let answer = work();
    HOOK.set(|| ());
    answer
}

/// As many as there is room for, or so many: each is there, under its own key, and is cleared.
fn fills(most: usize, publish: impl Fn(String) -> Option<Key>) -> usize {
    let texts = (0..most).map(|number| format!("text {number}"));
    let keys: Vec<(Key, String)> = with_hook(|| {
        let published = texts.map_while(|text| Some((publish(text.clone())?, text)));
        published.collect()
    });
    for (key, text) in &keys {
        let held = pool().get(*key).expect("published");
        assert!(ptr::eq(
            &*held,
            &*pool().get_owned(*key).expect("published")
        ));
        assert_eq!(*held, *text);
    }
    assert!(keys.iter().all(|(key, _)| pool().clear(*key)));
    keys.len()
}

/// By owned handles; by the thread's shard; by `Lane`s; and by clones.
fn all_ways(most: usize) {
    for _ in 0..3 {
        let by_owned = |text: String| {
            let mut filling = pool().create_owned().ok()?;
            filling.push_str(&text);
            Some(filling.publish())
        };
        assert!(fills(most, by_owned) > 40);
        assert!(fills(most, |text| pool().put(&text).ok()) > 40);
        LANE.with(|lane| {
            let lane =
                lane.get_or_init(|| pool().lane_owned().expect("a lane is at home, or idle"));
            assert!(fills(most, |text| lane.put(&text).ok()) > 40);
        });
        let key = pool().put("cloned").unwrap();
        let owned = pool().get_owned(key).unwrap();
        let clones: Vec<_> = with_hook(|| (0..20).map(|_| owned.clone()).collect());
        assert!(pool().clear(key));
        with_hook(|| drop((owned, clones)));
        assert!(pool().get(key).is_none());
    }
}

#[test]
fn a_hook_of_the_allocator_calls_the_pool() {
    alone("a_hook_of_the_allocator_calls_the_pool", || {
        std::thread::spawn(|| with_hook(|| ())).join().unwrap();
        std::thread::spawn(|| all_ways(63)).join().unwrap();
        assert!(HOOKED.load(SeqCst) > 100);
        assert_eq!(pool().census().present, 0);
    });
}

#[test]
fn a_hook_of_the_allocator_calls_a_growing_pool() {
    alone("a_hook_of_the_allocator_calls_a_growing_pool", || {
        at_once([(); 3].map(|()| || all_ways(3000)));
        assert!(HOOKED.load(SeqCst) > 100);
        assert_eq!(pool().census().present, 0);
    });
}

/// Each segment, shard and page is asked for while no lock is held, and none is there twice: no call waits for its own thread.
#[test]
fn a_hook_creates_while_a_segment_opens() {
    static GROWING: OnceLock<Pool<String>> = OnceLock::new();
    // (It keeps its places, so that either may find the pool full.)
    fn creates() {
        let pool = GROWING.get().expect("it is set");
        _ = pool.put("by the hook").unwrap();
        HOOKED.fetch_add(1, SeqCst);
    }
    alone("a_hook_creates_while_a_segment_opens", || {
        let pool = GROWING.get_or_init(Pool::new);
        HOOK.set(creates);
        let keys: Vec<_> = (0..3000).map(|_| pool.put("x").unwrap()).collect();
        HOOK.set(|| ());
        assert!(keys.iter().all(|key| pool.clear(*key)));
        let hooked = HOOKED.load(SeqCst);
        assert!(hooked > 1000);
        assert_eq!(pool.census().present as usize, hooked);
    });
}

thread_local! {
    static WITHIN: Cell<Option<&'static Pool<String>>> = const { Cell::new(None) };
    /// How many requests for memory pass before the hook creates.
    static PASS: Cell<usize> = const { Cell::new(0) };
}

/// Another create within the first one in the pool's last shard, at each of its requests for memory: neither is refused.
#[test]
fn a_hook_creates_within_a_create() {
    fn creates() {
        PASS.set(PASS.get().wrapping_sub(1));
        if PASS.get() == 0 {
            let pool = WITHIN.get().expect("it is set");
            _ = pool.put("by the hook").expect("a place");
        }
    }
    alone("a_hook_creates_within_a_create", || {
        for (lanes, pass) in [1, 2, 3].iter().flat_map(|it| (1..20).map(|at| (*it, at))) {
            let pool: &Pool<String> = Box::leak(Box::new(Pool::open(shape(lanes)).unwrap()));
            (2..2 * lanes).for_each(|_| _ = pool.put("x").unwrap());
            WITHIN.set(Some(pool));
            PASS.set(pass);
            HOOK.set(creates);
            let made = pool.put("y");
            HOOK.set(|| ());
            assert!(made.is_ok(), "{lanes}, {pass}: {made:?}");
            let hooked = u32::from(PASS.get() as isize <= 0);
            assert_eq!(pool.len() as u32, 2 * lanes - 1 + hooked);
        }
    });
}

/// The list of a thread's shards grows, and the hook looks for one of them there.
#[test]
fn a_hook_calls_while_a_thread_keeps_shards() {
    alone("a_hook_calls_while_a_thread_keeps_shards", || {
        let pools: Vec<_> = (0..70).map(|_| small()).collect();
        at_once([|| with_hook(|| pools.iter().for_each(use_once))]);
        assert!(HOOKED.load(SeqCst) > 70);
        // As the list grows, the hook's own pool isn't at hand for one of these threads.
        for _ in 0..32 {
            at_once([|| with_hook(|| (0..17).for_each(|_| use_once(&small())))]);
        }
        for pool in &pools {
            assert!(pool.lane().is_ok(), "its shard was left");
        }
    });
}

/// Of two places for each lane.
fn shape(lanes: u32) -> Shape {
    Shape {
        lanes,
        first_page: 2,
        pages: 1,
        ..Shape::default()
    }
}

fn small() -> Pool<String> {
    Pool::open(shape(1)).unwrap()
}

fn use_once(pool: &Pool<String>) {
    let key = pool.put("x").unwrap();
    assert!(pool.clear(key));
}

/// A thread that goes on keeps nothing of pools that have ended, but of the last ones.
fn ends_without_a_rest(name: &str, use_one: impl Fn(Pool<String>)) {
    alone(name, || {
        let rounds = |count: usize| (0..count).for_each(|_| use_one(small()));
        rounds(10);
        let before = BLOCKS.load(SeqCst);
        rounds(500);
        let left = BLOCKS.load(SeqCst).saturating_sub(before);
        assert!(left < 20, "{left} blocks are left");
    });
}

#[test]
fn pools_that_ended_leave_nothing() {
    ends_without_a_rest("pools_that_ended_leave_nothing", |pool| use_once(&pool));
}

#[test]
fn pools_with_a_forgotten_filling_leave_nothing() {
    ends_without_a_rest("pools_with_a_forgotten_filling_leave_nothing", |pool| {
        let lane = pool.lane().expect("nobody has it");
        mem::forget(lane.create().unwrap());
        drop(lane);
        assert_eq!(pool.close().filling, 1);
    });
}

#[test]
fn dropped_pools_with_a_leaked_filling_leave_nothing() {
    ends_without_a_rest(
        "dropped_pools_with_a_leaked_filling_leave_nothing",
        |pool| {
            let lane = pool.lane().expect("nobody has it");
            mem::forget(lane.create().unwrap());
        },
    );
}
