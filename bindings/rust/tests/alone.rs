//! What once crashed or hung the process: each in a process of its own.
mod common;
#[path = "alone/late.rs"]
mod late;
#[path = "alone/payloads.rs"]
mod payloads;

use common::{alone, at_once, limit};
use pardz::{Buffer, Clear, Key, OwnedRef, Pool, Ref, Shape};
use payloads::panics;
use std::cell::{Cell, RefCell};
use std::collections::VecDeque;
use std::panic::{self, catch_unwind, panic_any, AssertUnwindSafe};
use std::sync::atomic::{AtomicUsize, Ordering::SeqCst};
use std::sync::{Arc, Mutex, OnceLock};
use std::{mem, thread};

fn shape(lanes: u32, first_page: u32, pages: u32) -> Shape {
    Shape {
        lanes,
        first_page,
        pages,
        ..Shape::default()
    }
}

/// The panic hook calls the pool, where an object's code panics.
#[test]
fn a_panic_hook_calls_the_pool() {
    #[derive(Default)]
    struct Touchy(bool);
    impl Clear for Touchy {
        fn clear(&mut self) {
            assert!(!self.0, "on purpose");
        }
    }
    fn touchy() -> &'static Pool<Touchy> {
        static TOUCHY: Pool<Touchy> = Pool::new();
        &TOUCHY
    }
    static HOOKED: AtomicUsize = AtomicUsize::new(0);
    alone("a_panic_hook_calls_the_pool", || {
        panic::set_hook(Box::new(|_| {
            let key = touchy().put_with(|_| ()).unwrap();
            assert!(touchy().clear(key));
            HOOKED.fetch_add(1, SeqCst);
        }));
        let put = || touchy().put_with(|it| it.0 = true).unwrap();
        assert!(panics(|| touchy().clear(put())));
        let held = touchy().get(put()).unwrap();
        assert!(touchy().clear(held.key()));
        assert!(panics(|| drop(held)));
        let mut filling = touchy().create().unwrap();
        filling.0 = true;
        assert!(panics(|| drop(filling)));
        assert_eq!(HOOKED.load(SeqCst), 3);
        assert_eq!(touchy().census().filling, 0);
    });
}

/// An owned lane keeps its pool.
#[test]
fn an_owned_lane_keeps_its_pool() {
    let _limit = limit();
    let pool = Arc::new(Pool::<String>::open(shape(1, 4, 1)).unwrap());
    let lane = pool.lane_owned().unwrap();
    let ended = Arc::downgrade(&pool);
    drop(pool);
    assert!(ended.upgrade().is_some(), "the lane has a share of it");
    let key = lane.put("abc").unwrap();
    let text = lane.get(key).unwrap();
    assert!(lane.clear(key));
    assert_eq!(*text, "abc");
    drop(text);
    drop(lane);
    assert!(ended.upgrade().is_none());
}

/// A filling that is forgotten costs its place, and no lane.
#[test]
fn a_forgotten_filling_costs_no_lane() {
    let _limit = limit();
    let pool = Arc::new(Pool::<String>::open(shape(4, 4, 1)).unwrap());
    let forget = |lane: &pardz::Lane<'_, String>| {
        mem::forget(lane.create().unwrap());
        let key = lane.put("x").unwrap();
        mem::forget(lane.get(key).unwrap());
        assert!(lane.clear(key));
    };
    let lanes: Vec<_> = (0..4).map(|_| pool.lane().unwrap()).collect();
    lanes.iter().for_each(forget);
    drop(lanes);
    for _ in 0..8 {
        // A thread keeps such a lane, and leaves it.
        let shared = Arc::clone(&pool);
        thread::spawn(move || assert!(shared.clear(shared.put("y").unwrap())))
            .join()
            .unwrap();
        let lanes: Vec<_> = (0..4).map_while(|_| pool.lane().ok()).collect();
        assert_eq!(lanes.len(), 4);
    }
    let census = pool.census();
    assert_eq!((census.filling, census.marked), (4, 4));
}

/// References and fillings that are forgotten are counted by the close.
#[test]
fn references_of_all_shards() {
    let _limit = limit();
    let pool = Pool::<String>::new();
    let lane = pool.lane().unwrap();
    let keys: Vec<_> = (0..200).map(|_| lane.put("x").unwrap()).collect();
    let held: Vec<_> = keys.iter().map(|key| lane.get(*key).unwrap()).collect();
    assert!(keys.iter().all(|key| lane.clear(*key)));
    let census = pool.census();
    assert_eq!((census.present, census.marked), (0, 200));
    drop(held);
    let keys: Vec<_> = (0..200).map(|_| pool.put("x").unwrap()).collect();
    keys.iter().for_each(|key| mem::forget(lane.get(*key)));
    (0..100).for_each(|_| mem::forget(lane.create().unwrap()));
    assert!(keys.iter().take(150).all(|key| lane.clear(*key)));
    drop(lane);
    let (now, census) = (pool.census(), pool.close());
    assert_eq!(
        (census.present, census.marked, census.filling),
        (50, 150, 100)
    );
    assert_eq!(now, census);
}

/// Keeps what it is told from being optimised away.
#[test]
fn clones_of_many_threads() {
    let _limit = limit();
    let pool = Arc::new(Pool::<String>::new());
    let key = pool.put("abc").unwrap();
    let first = pool.get_owned(key).unwrap();
    assert!(pool.clear(key));
    let kept = Mutex::new(Vec::new());
    at_once((0..4).map(|_| {
        let (first, kept) = (&first, &kept);
        move || {
            for _ in 0..500 {
                let clones = [first.clone(), first.clone()];
                let more = clones[1].clone();
                assert_eq!((&**clones[0], &**more), ("abc", "abc"));
                drop(clones);
                common::lock(kept).push(more);
            }
        }
    }));
    drop(first);
    assert_eq!(pool.census().marked, 1);
    drop(kept);
    assert_eq!(pool.census().marked, 0);
}

/// A buffer that is extended by more than there is memory for ends the process, as a vector does.
#[test]
#[should_panic(expected = "signal: 6")]
fn an_extension_beyond_memory() {
    struct Many;
    impl Iterator for Many {
        type Item = u8;
        fn next(&mut self) -> Option<u8> {
            None
        }
        fn size_hint(&self) -> (usize, Option<usize>) {
            (usize::MAX / 2, None)
        }
    }
    alone("an_extension_beyond_memory", || Buffer::new().extend(Many));
}
