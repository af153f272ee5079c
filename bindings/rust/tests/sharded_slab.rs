//! What programs that were written for sharded-slab's pool lean on. All but `differs` holds of that crate as well.
#![cfg(target_pointer_width = "64")]
mod common;
#[path = "sharded_slab/differs.rs"]
mod differs;
#[path = "sharded_slab/keys.rs"]
mod keys;
#[path = "sharded_slab/owned.rs"]
mod owned;

use common::limit;
use pardz::sharded_slab;
use sharded_slab::pool::{OwnedRef, OwnedRefMut, Ref, RefMut};
use sharded_slab::{Clear, Config, DefaultConfig, Pool};
use std::fmt::Debug;
use std::panic::{catch_unwind, AssertUnwindSafe};
use std::sync::atomic::{AtomicBool, AtomicUsize, Ordering::SeqCst};
use std::sync::mpsc::channel;
use std::sync::{Arc, OnceLock, Weak};
use std::thread::{self, JoinHandle};

/// How often the threads of a test meet anew.
const ROUNDS: usize = 300;

fn texts() -> Arc<Pool<String>> {
    Arc::new(Pool::new())
}

fn put<C: Config>(pool: &Pool<String, C>, text: &str) -> usize {
    pool.create_with(|item| item.push_str(text)).expect("room")
}

/// A thread that gets the key: it finds nothing, or the whole text.
fn reader(pool: &Arc<Pool<String>>, key: usize, text: &'static str) -> JoinHandle<()> {
    let pool = pool.clone();
    thread::spawn(move || {
        if let Some(found) = pool.get(key) {
            assert_eq!(*found, text);
        }
    })
}

fn clearer(pool: &Arc<Pool<String>>, key: usize) -> JoinHandle<bool> {
    let pool = pool.clone();
    thread::spawn(move || pool.clear(key))
}

fn join<A>(threads: impl IntoIterator<Item = JoinHandle<A>>) -> Vec<A> {
    let ended = threads.into_iter().map(JoinHandle::join);
    ended.map(|end| end.expect("no panic")).collect()
}

/// What became of an item.
#[derive(Debug, Default)]
struct Fate {
    cleared: AtomicUsize,
    dropped: AtomicBool,
}

impl Fate {
    fn cleared(&self) -> usize {
        assert!(!self.dropped.load(SeqCst), "an item stays in the pool");
        self.cleared.load(SeqCst)
    }
}

/// An item that tells what becomes of it.
#[derive(Debug, Default)]
struct Item(Arc<Fate>);

impl Clear for Item {
    fn clear(&mut self) {
        self.0.cleared.fetch_add(1, SeqCst);
    }
}

impl Drop for Item {
    fn drop(&mut self) {
        self.0.dropped.store(true, SeqCst);
    }
}

/// A pool with one item.
fn one_item() -> (Arc<Pool<Item>>, usize, Arc<Fate>) {
    let (pool, fate) = (Arc::new(Pool::new()), Arc::new(Fate::default()));
    let item = Item(fate.clone());
    let key = pool.create_with(|new| *new = item).expect("room");
    (pool, key, fate)
}

#[test]
fn a_clear_empties_in_place() {
    let (pool, key, fate) = one_item();
    assert_eq!(fate.cleared(), 0);
    assert!(pool.clear(key));
    assert_eq!(fate.cleared(), 1);
    assert!(pool.get(key).is_none());
    drop(pool);
    assert!(fate.dropped.load(SeqCst));
}

#[test]
fn the_last_reference_empties() {
    let _limit = limit();
    let (pool, key, fate) = one_item();
    let (has, knows) = channel();
    let other = {
        let pool = pool.clone();
        thread::spawn(move || {
            let found = pool.get(key).expect("published");
            has.send(()).expect("the test waits");
            assert_eq!(found.0.cleared(), 0);
        })
    };
    let found = pool.get(key).expect("published");
    knows.recv().expect("the other has it");
    assert!(pool.clear(key));
    assert!(pool.get(key).is_none());
    assert_eq!(fate.cleared(), 0);
    join([other]);
    assert_eq!(fate.cleared(), 0);
    drop(found);
    assert_eq!(fate.cleared(), 1);
}

#[test]
fn one_of_two_clears_does_it() {
    let _limit = limit();
    for _ in 0..ROUNDS {
        let (pool, key, fate) = one_item();
        let other = {
            let pool = pool.clone();
            thread::spawn(move || pool.clear(key))
        };
        let mine = pool.clear(key);
        assert_ne!(mine, join([other])[0]);
        assert!(pool.get(key).is_none());
        assert_eq!(fate.cleared(), 1);
    }
}

#[test]
fn memory_is_used_again() {
    let pool = Pool::new_with_config::<Tiny>();
    let keys = ["a longer text", "foo", "bar"].map(|text| put(&pool, text));
    assert_eq!(
        pool.get(keys[0]).expect("published"),
        "a longer text".to_string()
    );
    assert_eq!(pool.get(keys[2]).expect("published"), "bar".to_string());
    assert!(pool.clear(keys[0]));
    let key = put(&pool, "h");
    assert_ne!(key, keys[0]);
    assert!(pool.get(keys[0]).is_none());
    assert!(pool.get(key).expect("published").capacity() >= 13);
}

#[test]
fn nobody_finds_what_is_being_filled() {
    let _limit = limit();
    let pool = texts();
    for _ in 0..ROUNDS {
        let mut filling = pool.create().expect("room");
        let key = filling.key();
        let early = reader(&pool, key, "Hello world");
        filling.push_str("Hello ");
        assert!(pool.get(key).is_none());
        filling.push_str("world");
        let late = reader(&pool, key, "Hello world");
        drop(filling);
        join([early, late]);
        assert_eq!(pool.get(key).expect("published"), "Hello world".to_string());
        assert!(pool.clear(key));
    }
}

#[test]
fn a_filling_becomes_a_reference() {
    let _limit = limit();
    let pool = texts();
    for _ in 0..ROUNDS {
        let mut filling: RefMut<'_, String> = pool.create().expect("room");
        let key = filling.key();
        let early = reader(&pool, key, "abc");
        filling.push_str("abc");
        let text: Ref<'_, String> = filling.downgrade();
        let late = reader(&pool, key, "abc");
        assert_eq!((text.key(), text.as_str()), (key, "abc"));
        let clear = clearer(&pool, key);
        join([early, late]);
        assert!(join([clear])[0]);
        assert!(pool.get(key).is_none());
        assert_eq!(text, "abc".to_string());
    }
}

#[test]
fn a_reference_is_dropped_while_its_key_is_cleared() {
    let _limit = limit();
    let (pool, other) = (texts(), texts());
    for _ in 0..ROUNDS {
        let mut filling = pool.create().expect("room");
        filling.push_str("abc");
        let text = filling.downgrade();
        let key = text.key();
        let mut owned = other.clone().create_owned().expect("room");
        owned.push_str("def");
        let owned = owned.downgrade();
        let other_key = owned.key();
        let readers = [reader(&pool, key, "abc"), reader(&other, other_key, "def")];
        let clearers = [clearer(&pool, key), clearer(&other, other_key)];
        drop(text);
        assert_eq!(owned, "def".to_string());
        drop(owned);
        join(readers);
        assert_eq!(join(clearers), [true, true]);
        assert!(pool.get(key).is_none() && other.get(other_key).is_none());
    }
}

/// A span with the key of its parent, which its clear lets go of: what tracing's registry does.
#[derive(Default)]
struct Span {
    pool: Weak<Pool<Span>>,
    parent: Option<usize>,
}

impl Clear for Span {
    fn clear(&mut self) {
        let parent = self.parent.take();
        if let (Some(pool), Some(parent)) = (self.pool.upgrade(), parent) {
            assert!(pool.get(parent).is_some());
            assert!(pool.clear(parent));
        }
    }
}

#[test]
fn a_clear_clears_others() {
    let pool = Arc::new(Pool::<Span>::new());
    let mut keys: Vec<usize> = Vec::new();
    for _ in 0..100 {
        let parent = keys.last().copied();
        let span = Span {
            pool: Arc::downgrade(&pool),
            parent,
        };
        keys.push(pool.create_with(|new| *new = span).expect("room"));
    }
    let last = keys[99];
    let reference = pool.get(last).expect("published");
    assert!(pool.clear(last));
    assert!(pool.get(keys[0]).is_some());
    drop(reference);
    assert!(keys.iter().all(|&key| pool.get(key).is_none()));
}

#[test]
fn calls_within_calls() {
    let pool = texts();
    let outer = pool.create_with(|outer| {
        let inner = put(&pool, "inner");
        let text = pool.get(inner).expect("published");
        outer.push_str(&text);
        let mut filling = pool.create().expect("room");
        filling.push_str(&text);
        drop(text);
        assert!(pool.clear(inner));
        assert!(pool.clear(filling.downgrade().key()));
    });
    assert_eq!(
        pool.get(outer.expect("room")).expect("published"),
        "inner".to_string()
    );
}

thread_local! {
    /// Cleared when its thread ends, before or after what the pool keeps for the thread.
    static LATE: OnceLock<Late> = const { OnceLock::new() };
}

struct Late(Arc<Pool<String>>, usize);

impl Drop for Late {
    fn drop(&mut self) {
        assert_eq!(self.0.get(self.1).expect("published"), "kept".to_string());
        assert!(self.0.clear(self.1));
        assert!(self.0.get(self.1).is_none());
    }
}

#[test]
fn calls_while_a_thread_ends() {
    let _limit = limit();
    let pool = texts();
    for _ in 0..50 {
        let (early, late) = (pool.clone(), pool.clone());
        join([
            thread::spawn(move || {
                LATE.with(|cell| {
                    cell.set(Late(early.clone(), put(&early, "kept")))
                        .map_err(|_| ())
                        .expect("unset")
                });
            }),
            thread::spawn(move || {
                LATE.with(|_| ());
                let key = put(&late, "kept");
                LATE.with(|cell| cell.set(Late(late, key)).map_err(|_| ()).expect("unset"));
            }),
        ]);
    }
}

struct Tiny;

impl Config for Tiny {
    const INITIAL_PAGE_SIZE: usize = 4;
}

struct Packed;

impl Config for Packed {
    const INITIAL_PAGE_SIZE: usize = 8;
    const MAX_THREADS: usize = 64;
    const MAX_PAGES: usize = 20;
    const RESERVED_BITS: usize = 10;
}

#[test]
fn a_hundred_thousand_at_once() {
    let pool = Pool::<Vec<usize>>::new();
    let keys: Vec<usize> = (0..100_000)
        .map(|number| pool.create_with(|list| list.push(number)).expect("room"))
        .collect();
    let wrong = keys
        .iter()
        .enumerate()
        .find(|(number, &key)| pool.get(key).is_none_or(|list| **list != [*number]));
    assert_eq!(wrong, None);
    assert!(keys.iter().all(|&key| pool.clear(key)));
    assert!(keys.iter().all(|&key| pool.get(key).is_none()));
}

#[test]
fn more_threads_than_lanes() {
    let _limit = limit();
    let pool = texts();
    let threads = (0..40).map(|number| {
        let pool = pool.clone();
        thread::spawn(move || {
            let text = number.to_string();
            let kept = put(&pool, &text);
            for _ in 0..200 {
                let key = put(&pool, &text);
                assert_eq!(pool.get(key).expect("published"), text);
                assert!(pool.clear(key));
            }
            kept
        })
    });
    let threads: Vec<_> = threads.collect();
    for (number, key) in join(threads).into_iter().enumerate() {
        assert_eq!(pool.get(key).expect("published"), number.to_string());
    }
}

#[test]
fn traits() {
    fn shared<A: Send + Sync + 'static>() {}
    fn shown<A: Debug>() {}
    shared::<Pool<String>>();
    shared::<Pool<String, Packed>>();
    shared::<OwnedRef<String>>();
    shared::<OwnedRefMut<String, Packed>>();
    shown::<Pool<String>>();
    shown::<DefaultConfig>();
    let pool = Arc::new(Pool::<String>::default());
    let mut filling = pool.create().expect("room");
    filling.push('x');
    assert_eq!(format!("{filling:?}"), "\"x\"");
    assert_eq!(filling, "x".to_string());
    let text = filling.downgrade();
    assert_eq!(format!("{text:?}"), "\"x\"");
    let owned = pool.clone().get_owned(text.key()).expect("published");
    assert_eq!(format!("{owned:?}"), "\"x\"");
    assert_eq!(
        format!("{:?}", pool.clone().create_owned().expect("room")),
        "\"\""
    );
}
