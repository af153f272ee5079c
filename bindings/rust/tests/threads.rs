//! Calls of many threads, owned handles, and room that grows.
mod common;
#[path = "threads/ends.rs"]
mod ends;
#[path = "threads/owned.rs"]
mod owned;

use common::{at_once, limit, lock};
use pardz::{Clear, CreateError, Key, OwnedFilling, OwnedRef, Pool, Ref, Shape};
use std::cell::{Cell, RefCell};
use std::panic::{catch_unwind, AssertUnwindSafe};
use std::sync::atomic::{AtomicUsize, Ordering::SeqCst};
use std::sync::{mpsc, Arc, Mutex, OnceLock};
use std::thread;

fn shape(lanes: u32, first_page: u32, pages: u32) -> Shape {
    Shape {
        lanes,
        first_page,
        pages,
        ..Shape::default()
    }
}

/// A number is published, read and cleared. Each is right.
fn use_once(pool: &Pool<Vec<u64>>, number: u64) {
    let key = pool.put_with(|list| list.push(number)).unwrap();
    let list = pool.get(key).expect("published");
    assert_eq!(*list, [number]);
    assert!(pool.clear(key));
    assert_eq!(*list, [number]);
    assert!(pool.get(key).is_none());
    assert!(!pool.clear(key));
}

#[test]
fn threads_that_come_and_go() {
    let _limit = limit();
    let pool = Pool::<Vec<u64>>::new();
    for round in 0..20 {
        let pool = &pool;
        at_once((0..64).map(|thread| {
            move || {
                (0..50).for_each(|number| use_once(pool, round * 10_000 + thread * 100 + number));
            }
        }));
    }
    let census = pool.close();
    assert_eq!((census.present, census.marked, census.filling), (0, 0, 0));
}

#[test]
fn thousands_of_short_threads() {
    let _limit = limit();
    let pool = Arc::new(Pool::<Vec<u64>>::open(shape(1, 1, 1)).unwrap());
    for number in 0..2000 {
        let shared = Arc::clone(&pool);
        thread::spawn(move || use_once(&shared, number))
            .join()
            .unwrap();
    }
    assert_eq!(pool.census().present, 0);
}

/// Threads hand keys around: each reads and clears what others published.
#[test]
fn threads_clear_for_each_other() {
    const THREADS: u64 = 32;
    const ROUNDS: u64 = 300;
    let _limit = limit();
    for pool in [
        Pool::<Vec<u64>>::new(),
        Pool::open(shape(THREADS as u32, 64, 4)).unwrap(),
    ] {
        let lent = Mutex::new(Vec::<(Key, u64)>::new());
        let cleared = AtomicUsize::new(0);
        at_once((0..THREADS).map(|thread| {
            let (pool, lent, cleared) = (&pool, &lent, &cleared);
            move || {
                for round in 0..ROUNDS {
                    let number = thread * ROUNDS + round;
                    let key = pool.put_with(|list| list.push(number)).unwrap();
                    let other = {
                        let mut lent = lock(lent);
                        lent.push((key, number));
                        let at = (number * 7919) as usize % lent.len();
                        lent.swap_remove(at)
                    };
                    let list = pool.get(other.0).expect("it is ours alone to clear");
                    assert_eq!(*list, [other.1]);
                    assert!(pool.clear(other.0));
                    assert_eq!(*list, [other.1]);
                    cleared.fetch_add(1, SeqCst);
                }
            }
        }));
        assert_eq!(cleared.into_inner() as u64, THREADS * ROUNDS);
        let census = pool.close();
        assert_eq!((census.present, census.marked, census.filling), (0, 0, 0));
    }
}

/// So many objects are open at once; all are read back by other threads, and cleared.
fn open_at_once(count: u64) {
    let pool = Pool::<Vec<u64>>::new();
    let publish = |number| pool.put_with(|list| list.push(number)).unwrap();
    let keys: Vec<Key> = (0..count).map(publish).collect();
    let distinct: std::collections::HashSet<_> = keys.iter().collect();
    assert_eq!(distinct.len() as u64, count);
    assert_eq!(u64::from(pool.census().present), count);
    let (pool, keys) = (&pool, &keys);
    at_once((0..4).map(|part| {
        move || {
            for (number, key) in (0..).zip(keys).skip(part).step_by(4) {
                assert_eq!(*pool.get(*key).expect("open"), [number]);
                assert!(pool.clear(*key));
                assert!(pool.get(*key).is_none());
            }
        }
    }));
    assert_eq!(pool.census().present, 0);
    let places = pool.census().free;
    let again: Vec<Key> = (0..count).map(publish).collect();
    assert!(again.iter().all(|key| pool.contains(*key)));
    assert_eq!(pool.census().present as u64, count);
    assert!(pool.census().free <= places, "places are used again");
}

#[test]
fn a_hundred_thousand_are_open() {
    let _limit = limit();
    open_at_once(100_000);
}

#[test]
#[ignore = "ten times as long"]
fn a_million_are_open() {
    open_at_once(1_000_000);
}

#[test]
fn lanes_in_hand_grow_too() {
    let pool = Pool::<Vec<u64>>::new();
    let (lane, other) = (pool.lane().unwrap(), pool.lane().unwrap());
    let keys: Vec<_> = (0..20_000)
        .map(|number| lane.put_with(|list| list.push(number)).unwrap())
        .collect();
    let held: Vec<_> = keys.iter().map(|key| other.get(*key).unwrap()).collect();
    for (number, key) in (0..).zip(&keys) {
        assert_eq!(*other.get(*key).unwrap(), [number]);
        assert_eq!(*pool.get(*key).unwrap(), [number]);
        assert!(if number % 2 == 0 {
            lane.clear(*key)
        } else {
            other.clear(*key)
        });
        assert!(!lane.clear(*key) && lane.get(*key).is_none());
    }
    assert!((0..).zip(&held).all(|(number, list)| **list == [number]));
    let clones = held.clone();
    drop(held);
    assert!((0..).zip(&clones).all(|(number, list)| **list == [number]));
    drop(clones);
    let mut filling = lane.create().unwrap();
    filling.push(1);
    let list = filling.downgrade();
    assert_eq!(*list.clone(), [1]);
    drop(list);
    drop((lane, other));
    assert_eq!(pool.close().present, 1);
}

/// Each of its three shards has two places, and the thread has all of them.
#[test]
fn a_full_pool_that_does_not_grow() {
    let pool = Pool::<String>::open(shape(3, 2, 1)).unwrap();
    assert_eq!(pool.census().unopened, 6);
    let keys: Vec<_> = (0..6).map(|_| pool.put("x").unwrap()).collect();
    assert_eq!(pool.put("y").err(), Some(CreateError::Full));
    assert_eq!(pool.create_owned().err(), Some(CreateError::Full));
    at_once([|| assert_eq!(pool.create().err(), Some(CreateError::NoLane))]);
    for key in &keys {
        assert!(pool.clear(*key));
        assert!(pool.clear(pool.put("y").unwrap()));
    }
    assert_eq!(pool.census().free, 6);
    assert_eq!(pool.close().free, 6);
}

/// If all shards are owned, all calls but a create are as ever.
#[test]
fn all_lanes_in_hand() {
    for count in [1, 2, 7, 64] {
        let pool = Pool::<Vec<u64>>::open(shape(count, 2, 1)).unwrap();
        let lanes: Vec<_> = (0..count).map(|_| pool.lane().unwrap()).collect();
        assert_eq!(pool.lane().err(), Some(CreateError::NoLane));
        assert_eq!(pool.create().err(), Some(CreateError::NoLane));
        assert_eq!(pool.create_owned().err(), Some(CreateError::NoLane));
        for (number, lane) in (0..).zip(&lanes) {
            let key = lane.put_with(|list| list.push(number)).unwrap();
            let (list, owned) = (pool.get(key).unwrap(), pool.get_owned(key).unwrap());
            assert!(pool.clear(key) && lane.get(key).is_none());
            assert_eq!((&*list, &*owned), (&vec![number], &vec![number]));
        }
        drop(lanes);
        use_once(&pool, 5);
        assert_eq!(pool.census(), pool.close());
    }
}

#[test]
fn lanes_come_home_from_threads() {
    let _limit = limit();
    let pool = Arc::new(Pool::<Vec<u64>>::open(shape(4, 4, 1)).unwrap());
    for number in 0..100 {
        let shared = Arc::clone(&pool);
        thread::spawn(move || use_once(&shared, number))
            .join()
            .unwrap();
        let lanes: Vec<_> = (0..4)
            .map(|_| pool.lane().expect("four are home"))
            .collect();
        assert!(pool.lane().is_err());
        drop(lanes);
    }
}

// Owned handles.

fn links() -> &'static Arc<Pool<Link>> {
    static LINKS: OnceLock<Arc<Pool<Link>>> = OnceLock::new();
    LINKS.get_or_init(|| Arc::new(Pool::new()))
}

thread_local! {
    static EMPTIED: Cell<usize> = const { Cell::new(0) };
}

/// Lets go of others when it is emptied.
#[derive(Default)]
struct Link {
    next: Option<Key>,
    held: Option<OwnedRef<Link>>,
}

impl Clear for Link {
    fn clear(&mut self) {
        EMPTIED.set(EMPTIED.get() + 1);
        if let Some(next) = self.next.take() {
            assert!(links().get(next).is_some());
            assert!(links().clear(next));
            let key = links().put_with(|_| ()).unwrap();
            let inner = EMPTIED.get();
            assert!(links().clear(key));
            drop(links().create().unwrap());
            drop(links().create_owned().unwrap());
            EMPTIED.set(inner);
        }
        self.held = None;
    }
}

/// A long chain by keys, and by owned references, on small stacks.
#[test]
fn chains_let_go() {
    let _limit = limit();
    let chain = |by_reference: bool| {
        let count = 2000;
        let mut last = None;
        for _ in 0..count {
            let key = links()
                .put_with(|link| {
                    let before = last.take();
                    if by_reference {
                        link.held = before.map(|key| {
                            let held = links().get_owned(key).unwrap();
                            assert!(links().clear(key));
                            held
                        });
                    } else {
                        link.next = before;
                    }
                })
                .unwrap();
            last = Some(key);
        }
        EMPTIED.set(0);
        let held = links().get(last.unwrap()).unwrap();
        assert!(links().clear(held.key()));
        assert_eq!(EMPTIED.get(), 0);
        drop(held);
        assert!(EMPTIED.get() >= count, "{} of {count}", EMPTIED.get());
    };
    let threads = [(); 20].map(|()| thread::Builder::new().stack_size(256 * 1024));
    let threads = (0..).zip(threads);
    let threads: Vec<_> = threads
        .map(|(number, thread)| thread.spawn(move || chain(number % 2 == 0)).unwrap())
        .collect();
    threads
        .into_iter()
        .for_each(|thread| thread.join().unwrap());
}

thread_local! {
    static LAST: RefCell<Option<Ref<'static, Link>>> = const { RefCell::new(None) };
}

/// References in thread-locals are dropped when the thread has left its shard already.
#[test]
fn a_thread_ends_while_its_references_live() {
    let _limit = limit();
    for _ in 0..100 {
        let key = links().put_with(|_| ()).unwrap();
        thread::spawn(move || {
            LAST.with(|last| *last.borrow_mut() = links().get(key));
            assert!(links().clear(key));
        })
        .join()
        .unwrap();
        assert!(links().get(key).is_none());
    }
}

/// Panics in its clear.
#[derive(Default)]
struct Touchy(bool);

impl Clear for Touchy {
    fn clear(&mut self) {
        assert!(!self.0, "on purpose");
    }
}

#[test]
fn panics_lose_their_object_at_most() {
    let pool = Arc::new(Pool::<Touchy>::new());
    let panics = |run: &mut dyn FnMut()| catch_unwind(AssertUnwindSafe(run)).is_err();
    for own in [true, false] {
        let touchy = || pool.put_with(|touchy| touchy.0 = true).unwrap();
        assert!(panics(&mut || assert!(pool.clear(touchy()))));
        assert!(panics(&mut || {
            let _open = pool.create().unwrap();
            panic!("while a filling is open");
        }));
        assert!(panics(&mut || {
            let mut open = pool.create_owned().unwrap();
            open.0 = true;
        }));
        assert!(panics(&mut || {
            _ = pool.put_with(|_| panic!("in the closure"));
        }));
        let key = touchy();
        let held = pool.get_owned(key).unwrap();
        assert!(pool.clear(key));
        assert!(panics(&mut || {
            // (Its second panic goes no further.)
            let _held = held.clone();
            panic!("while a reference is held");
        }));
        assert!(own || panics(&mut || drop(pool.get_owned(key))) || held.0);
        assert!(panics(&mut {
            let mut held = Some(held);
            move || drop(held.take())
        }));
        let census = pool.census();
        assert_eq!((census.present, census.marked, census.filling), (0, 0, 0));
    }
}
