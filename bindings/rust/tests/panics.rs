//! Panics in an object's code lose that object at most.
mod common;

use common::limit;
use pardz::{Clear, CreateError, Key, Lane, OwnedLane, Pool, Shape};
use std::cell::{OnceCell, RefCell};
use std::panic::{catch_unwind, AssertUnwindSafe};
use std::sync::atomic::{AtomicUsize, Ordering::SeqCst};
use std::sync::Arc;
use std::thread;

fn shape(places: u32) -> Shape {
    Shape {
        lanes: 1,
        first_page: places,
        pages: 1,
        ..Shape::default()
    }
}

/// What is to panic.
#[derive(Clone, Copy, Debug, Default, PartialEq)]
enum When {
    #[default]
    Never,
    Clear,
    Drop,
}

/// An object that is counted, and panics as it is told to.
struct Touchy {
    when: When,
    alive: Option<Arc<AtomicUsize>>,
}

impl Default for Touchy {
    fn default() -> Touchy {
        Touchy {
            when: When::Never,
            alive: None,
        }
    }
}

impl Touchy {
    fn set(&mut self, alive: &Arc<AtomicUsize>, when: When) {
        if self.alive.is_none() {
            alive.fetch_add(1, SeqCst);
            self.alive = Some(Arc::clone(alive));
        }
        self.when = when;
    }
}

impl Clear for Touchy {
    fn clear(&mut self) {
        assert_ne!(self.when, When::Clear, "on purpose");
        self.when = When::Never;
    }
}

impl Drop for Touchy {
    fn drop(&mut self) {
        if let Some(alive) = &self.alive {
            alive.fetch_sub(1, SeqCst);
        }
        if !thread::panicking() {
            assert_ne!(self.when, When::Drop, "on purpose");
        }
    }
}

fn panics<R>(work: impl FnOnce() -> R) {
    assert!(catch_unwind(AssertUnwindSafe(work)).is_err());
}

#[test]
fn in_clear() {
    let alive = Arc::new(AtomicUsize::new(0));
    let pool = Pool::<Touchy>::open(shape(2)).unwrap();
    let lane = pool.lane().unwrap();
    for round in 0..20 {
        let key = lane
            .put_with(|object| object.set(&alive, When::Clear))
            .unwrap();
        assert_eq!(alive.load(SeqCst), 1);
        if round % 2 == 0 {
            panics(|| lane.clear(key));
        } else {
            let reference = lane.get(key).unwrap();
            assert!(lane.clear(key));
            panics(|| drop(reference));
        }
        // The object is gone; its place isn't, and neither is the other's.
        assert_eq!(alive.load(SeqCst), 0);
        assert!(lane.get(key).is_none() && !lane.clear(key));
        let both = [lane.create().unwrap(), lane.create().unwrap()];
        assert_eq!(lane.create().err(), Some(CreateError::Full));
        drop(both);
    }
    drop(lane);
    assert_eq!(pool.close().free, 2);
}

#[test]
fn in_clear_of_a_filling() {
    let alive = Arc::new(AtomicUsize::new(0));
    let pool = Pool::<Touchy>::open(shape(1)).unwrap();
    let lane = pool.lane().unwrap();
    for _ in 0..5 {
        let mut filling = lane.create().unwrap();
        filling.set(&alive, When::Clear);
        panics(|| drop(filling));
        assert_eq!(alive.load(SeqCst), 0);
        assert!(lane.create().is_ok());
    }
    let mut filling = lane.create().unwrap();
    filling.set(&alive, When::Clear);
    std::mem::forget(filling);
    drop(lane);
    assert_eq!(pool.close().filling, 1);
    assert_eq!(alive.load(SeqCst), 0, "the pool drops it");
}

#[test]
fn in_default() {
    static CALLS: AtomicUsize = AtomicUsize::new(0);
    #[derive(Debug)]
    struct Second;
    impl Default for Second {
        fn default() -> Second {
            assert_eq!(CALLS.fetch_add(1, SeqCst) % 2, 1, "on purpose");
            Second
        }
    }
    impl Clear for Second {
        fn clear(&mut self) {}
    }
    let pool = Pool::<Second>::open(shape(4)).unwrap();
    let lane = pool.lane().unwrap();
    for _ in 0..4 {
        panics(|| lane.create().map(|filling| filling.publish()));
        _ = lane.create().unwrap().publish();
    }
    assert_eq!(CALLS.load(SeqCst), 8);
    drop(lane);
    assert_eq!(pool.close().present, 4);
}

/// An owned handle whose object isn't made is no user of its lane, which would keep the pool's memory.
#[test]
fn in_default_of_an_owned_handle() {
    static CALLS: AtomicUsize = AtomicUsize::new(0);
    static ALIVE: AtomicUsize = AtomicUsize::new(0);
    #[derive(Debug)]
    struct Third;
    impl Default for Third {
        fn default() -> Third {
            assert_ne!(CALLS.fetch_add(1, SeqCst), 0, "on purpose");
            ALIVE.fetch_add(1, SeqCst);
            Third
        }
    }
    impl Drop for Third {
        fn drop(&mut self) {
            ALIVE.fetch_sub(1, SeqCst);
        }
    }
    impl Clear for Third {
        fn clear(&mut self) {}
    }
    let pool = Pool::<Third>::open(shape(1)).unwrap();
    panics(|| pool.create_owned().map(|filling| filling.publish()));
    let key = pool.create_owned().unwrap().publish();
    assert!(pool.get(key).is_some());
    assert_eq!((CALLS.load(SeqCst), ALIVE.load(SeqCst)), (2, 1));
    drop(pool);
    assert_eq!(ALIVE.load(SeqCst), 0);
}

#[test]
fn in_a_closure() {
    let pool = Pool::<String>::open(shape(1)).unwrap();
    let lane = pool.lane().unwrap();
    let mut keys = Vec::new();
    for _ in 0..5 {
        panics(|| {
            lane.put_with(|text| {
                text.push_str("half");
                panic!("on purpose")
            })
        });
        let filling = lane.create().unwrap();
        assert!(filling.is_empty() && !keys.contains(&filling.key()));
        keys.push(filling.key());
    }
    drop(lane);
    assert_eq!(pool.close().free, 1);
}

/// A clear that panics while the thread unwinds: of a filling, and of what a reference was the last to hold.
#[test]
fn in_clear_while_unwinding() {
    let alive = Arc::new(AtomicUsize::new(0));
    let pool = Pool::<Touchy>::open(shape(2)).unwrap();
    let lane = pool.lane().unwrap();
    for _ in 0..5 {
        panics(|| {
            lane.put_with(|object| {
                object.set(&alive, When::Clear);
                panic!("on purpose")
            })
        });
        assert_eq!(alive.load(SeqCst), 0);
        let key = lane
            .put_with(|object| object.set(&alive, When::Clear))
            .unwrap();
        panics(|| {
            let _held = lane.get(key).unwrap();
            assert!(lane.clear(key));
            panic!("on purpose")
        });
        assert_eq!(alive.load(SeqCst), 0);
        let both = [lane.create().unwrap(), lane.create().unwrap()];
        drop(both);
    }
    drop(lane);
    assert_eq!(pool.close().free, 2);
}

/// All are dropped at the close, though the drop of one panics.
#[test]
fn in_drop() {
    for close in [true, false] {
        let alive = Arc::new(AtomicUsize::new(0));
        let pool = Pool::<Touchy>::open(Shape {
            lanes: 2,
            ..shape(64)
        })
        .unwrap();
        let lane = pool.lane().unwrap();
        let keys: Vec<Key> = (0..60)
            .map(|number| {
                let when = if number == 53 {
                    When::Drop
                } else {
                    When::Never
                };
                lane.put_with(|object| object.set(&alive, when)).unwrap()
            })
            .collect();
        // Two of them are empty then. And another lane has four.
        assert!(lane.clear(keys[0]) && lane.clear(keys[57]));
        for _ in 0..4 {
            let of_others = pool.put_with(|object| object.set(&alive, When::Never));
            assert!(of_others.is_ok());
        }
        drop(lane);
        assert_eq!(alive.load(SeqCst), 64);
        panics(|| match close {
            true => pool.close().present,
            false => {
                drop(pool);
                0
            }
        });
        assert_eq!(alive.load(SeqCst), 0);
    }
}

thread_local! {
    /// The lane of the thread, by which its nodes let go of others.
    static LANE: OnceCell<OwnedLane<Node>> = const { OnceCell::new() };
    /// The numbers of the nodes that were emptied.
    static EMPTIED: RefCell<Vec<u32>> = const { RefCell::new(Vec::new()) };
}

/// Lets go of those below it when it is emptied; number 1 and number 12 panic then.
#[derive(Default)]
struct Node {
    number: u32,
    below: Vec<Key>,
}

impl Clear for Node {
    fn clear(&mut self) {
        EMPTIED.with_borrow_mut(|emptied| emptied.push(self.number));
        LANE.with(|lane| {
            for key in self.below.drain(..) {
                assert!(lane.get().unwrap().clear(key));
            }
        });
        assert!(!matches!(self.number, 1 | 12), "on purpose");
    }
}

/// Publishes a node of this number, with these below it.
fn publish_node(lane: &Lane<'_, Node>, number: u32, below: &[Key]) -> Key {
    let fill = |node: &mut Node| {
        node.number = number;
        node.below.extend(below);
    };
    lane.put_with(fill).unwrap()
}

/// Where a clear lets go of others and one of them panics, the others are emptied all the same.
#[test]
fn in_a_clear_within_a_clear() {
    let _limit = limit();
    let pool = Arc::new(Pool::<Node>::open(shape(8)).unwrap());
    let lane = pool.lane_owned().unwrap();
    let emptied = thread::spawn(move || {
        LANE.with(|place| assert!(place.set(lane).is_ok()));
        LANE.with(|lane| {
            let lane = lane.get().unwrap();
            let node = |number, below: &[Key]| publish_node(lane.lane(), number, below);
            let leaves = [node(11, &[]), node(12, &[]), node(13, &[])];
            let inner = [node(1, &leaves), node(2, &[])];
            let root = node(0, &inner);
            panics(|| lane.clear(root));
            // It works on.
            let key = node(20, &[]);
            assert!(lane.clear(key));
        });
        EMPTIED.take()
    })
    .join()
    .unwrap();
    let mut sorted = emptied.clone();
    sorted.sort_unstable();
    assert_eq!(sorted, [0, 1, 2, 11, 12, 13, 20], "{emptied:?}");
    assert_eq!(Arc::into_inner(pool).unwrap().close().free, 8);
}

/// A thread that ends in a panic gives back what it had.
#[test]
fn of_a_thread() {
    let _limit = limit();
    let pool = Arc::new(Pool::<String>::open(shape(4)).unwrap());
    for _ in 0..10 {
        let lane = pool.lane_owned().unwrap();
        let ended = thread::spawn(move || {
            let key = lane.put("x").unwrap();
            let _held = lane.get(key).unwrap();
            let _filling = lane.create().unwrap();
            lane.clear(key);
            panic!("on purpose");
        });
        assert!(ended.join().is_err());
    }
    assert_eq!(Arc::into_inner(pool).unwrap().close().free, 4);
}
