//! Objects whose code calls the pool again.
mod common;
#[path = "callbacks/lanes.rs"]
mod lanes;

use common::{limit, lock};
use pardz::{Clear, CreateError, Key, Lane, OwnedLane, Pool, Shape};
use std::cell::{Cell, OnceCell, RefCell};
use std::sync::{Arc, Mutex, Weak};
use std::thread;

fn shape(lanes: u32, first_page: u32, pages: u32) -> Shape {
    Shape {
        lanes,
        first_page,
        pages,
        ..Shape::default()
    }
}

thread_local! {
    /// The lane of the thread, as a program keeps it whose objects call back.
    static LANE: OnceCell<OwnedLane<Link>> = const { OnceCell::new() };
    static EMPTIED: Cell<usize> = const { Cell::new(0) };
}

/// Lets go of the next one when it is emptied.
#[derive(Default)]
struct Link {
    next: Option<Key>,
}

impl Clear for Link {
    fn clear(&mut self) {
        EMPTIED.set(EMPTIED.get() + 1);
        if let Some(next) = self.next.take() {
            LANE.with(|lane| assert!(lane.get().unwrap().clear(next)));
        }
    }
}

/// Publishes a row of links, each of which has the one before. Answers the last.
fn row(lane: &Lane<'_, Link>, count: usize) -> Key {
    let mut last = None;
    for _ in 0..count {
        let mut link = lane.create().unwrap();
        link.next = last;
        last = Some(link.publish());
    }
    last.unwrap()
}

/// A row of all 4,032 places of a lane is let go by one clear, on a small stack.
#[test]
fn a_long_row_lets_go() {
    let _limit = limit();
    let pool = Arc::new(Pool::<Link>::open(shape(1, 64, 6)).unwrap());
    let lane = pool.lane_owned().unwrap();
    thread::Builder::new()
        .stack_size(128 * 1024)
        .spawn(move || {
            LANE.with(|place| assert!(place.set(lane).is_ok()));
            LANE.with(|lane| {
                let lane = lane.get().unwrap();
                for _ in 0..3 {
                    EMPTIED.set(0);
                    let last = row(lane.lane(), 4032);
                    assert_eq!(lane.create().err(), Some(CreateError::Full));
                    assert!(lane.clear(last));
                    assert_eq!(EMPTIED.get(), 4032);
                }
            });
        })
        .unwrap()
        .join()
        .unwrap();
    let census = Arc::into_inner(pool).unwrap().close();
    assert_eq!((census.free, census.present), (4032, 0));
}

/// The same by the drop of the last reference.
#[test]
fn a_row_lets_go_by_a_reference() {
    let _limit = limit();
    let pool = Arc::new(Pool::<Link>::open(shape(1, 8, 1)).unwrap());
    let lane = pool.lane_owned().unwrap();
    thread::spawn(move || {
        LANE.with(|place| assert!(place.set(lane).is_ok()));
        LANE.with(|lane| {
            let lane = lane.get().unwrap();
            let held = lane.get(row(lane.lane(), 8)).unwrap();
            assert!(lane.clear(held.key()));
            assert_eq!(EMPTIED.get(), 0);
            drop(held);
            assert_eq!(EMPTIED.get(), 8);
            // A filling that is dropped lets go too.
            let last = row(lane.lane(), 7);
            lane.create().unwrap().next = Some(last);
            assert_eq!(EMPTIED.get(), 16);
        });
    })
    .join()
    .unwrap();
    assert_eq!(Arc::into_inner(pool).unwrap().close().free, 8);
}

thread_local! {
    static BUSY: OnceCell<OwnedLane<Busy>> = const { OnceCell::new() };
    static TEXTS: OnceCell<OwnedLane<String>> = const { OnceCell::new() };
    static SEEN: RefCell<Vec<String>> = const { RefCell::new(Vec::new()) };
}

/// Makes all calls when it is emptied, to its own pool and to another.
#[derive(Default)]
struct Busy {
    text: Option<Key>,
    depth: usize,
}

impl Clear for Busy {
    fn clear(&mut self) {
        let Some(text) = self.text.take() else { return };
        TEXTS.with(|lane| {
            let lane = lane.get().unwrap();
            let read = lane.get(text).unwrap();
            assert!(lane.clear(text));
            SEEN.with_borrow_mut(|seen| seen.push(read.to_string()));
            drop(read);
            let key = lane.put("again").unwrap();
            assert!(lane.clear(key));
            lane.create().unwrap().push_str("not published");
        });
        BUSY.with(|lane| {
            let lane = lane.get().unwrap();
            let key = lane.put_with(|busy| busy.depth = self.depth).unwrap();
            assert_eq!(lane.get(key).unwrap().depth, self.depth);
            assert!(lane.clear(key));
            assert!(lane.get(key).is_none());
            drop(lane.create().unwrap());
            if self.depth > 0 {
                lane.clear(busy(self.depth - 1));
            }
        });
    }
}

/// A busy object, with a text of its own.
fn busy(depth: usize) -> Key {
    let text = TEXTS.with(|lane| lane.get().unwrap().put(&format!("text {depth}")).unwrap());
    BUSY.with(|lane| {
        let mut busy = lane.get().unwrap().create().unwrap();
        busy.text = Some(text);
        busy.depth = depth;
        busy.publish()
    })
}

#[test]
fn all_calls_within_a_clear() {
    let _limit = limit();
    let pool = Arc::new(Pool::<Busy>::open(shape(1, 4, 1)).unwrap());
    let texts = Arc::new(Pool::<String>::open(shape(1, 4, 1)).unwrap());
    let (lane, text_lane) = (pool.lane_owned().unwrap(), texts.lane_owned().unwrap());
    let seen = thread::spawn(move || {
        BUSY.with(|place| assert!(place.set(lane).is_ok()));
        TEXTS.with(|place| assert!(place.set(text_lane).is_ok()));
        let first = busy(20);
        BUSY.with(|lane| assert!(lane.get().unwrap().clear(first)));
        SEEN.take()
    })
    .join()
    .unwrap();
    let expected: Vec<_> = (0..=20)
        .rev()
        .map(|depth| format!("text {depth}"))
        .collect();
    assert_eq!(seen, expected);
    assert_eq!(Arc::into_inner(pool).unwrap().close().free, 4);
    assert_eq!(Arc::into_inner(texts).unwrap().close().free, 4);
}

thread_local! {
    static MAKER: OnceCell<OwnedLane<Maker>> = const { OnceCell::new() };
    static MAKES: Cell<usize> = const { Cell::new(0) };
}

/// Makes another object when it is made, as long as `MAKES` says so.
struct Maker;

impl Default for Maker {
    fn default() -> Maker {
        if let Some(fewer) = MAKES.get().checked_sub(1) {
            MAKES.set(fewer);
            MAKER.with(|lane| assert!(lane.get().unwrap().put_with(|_| ()).is_ok()));
        }
        Maker
    }
}

impl Clear for Maker {
    fn clear(&mut self) {}
}

#[test]
fn a_default_that_creates() {
    let _limit = limit();
    let pool = Arc::new(Pool::<Maker>::open(shape(1, 16, 1)).unwrap());
    let lane = pool.lane_owned().unwrap();
    thread::spawn(move || {
        MAKER.with(|place| assert!(place.set(lane).is_ok()));
        MAKES.set(10);
        MAKER.with(|lane| _ = lane.get().unwrap().create().unwrap().publish());
        MAKES.set(4);
        MAKER.with(|lane| assert!(lane.get().unwrap().create().is_ok()));
    })
    .join()
    .unwrap();
    let census = Arc::into_inner(pool).unwrap().close();
    assert_eq!((census.present, census.free, census.filling), (15, 1, 0));
}

thread_local! {
    static OTHERS: OnceCell<OwnedLane<Other>> = const { OnceCell::new() };
    static MADE: Cell<usize> = const { Cell::new(0) };
    static MORE: RefCell<Vec<Result<Key, CreateError>>> = const { RefCell::new(Vec::new()) };
}

/// When it is emptied it clears others, and makes as many more as `makes` says.
#[derive(Debug)]
struct Other {
    clears: Vec<Key>,
    makes: usize,
}

impl Default for Other {
    fn default() -> Other {
        MADE.set(MADE.get() + 1);
        Other {
            clears: Vec::new(),
            makes: 0,
        }
    }
}

impl Clear for Other {
    fn clear(&mut self) {
        OTHERS.with(|lane| {
            let lane = lane.get().unwrap();
            assert!(self.clears.drain(..).all(|key| lane.clear(key)));
            let more = (0..self.makes).map(|_| lane.put_with(|_| ()));
            MORE.with_borrow_mut(|all| all.extend(more));
        });
        self.makes = 0;
    }
}

/// On a thread whose lane has so many places.
fn with_others(places: u32, with: impl FnOnce(&OwnedLane<Other>) + Send + 'static) {
    let _limit = limit();
    let pool = Arc::new(Pool::<Other>::open(shape(1, places, 1)).unwrap());
    let lane = pool.lane_owned().unwrap();
    thread::spawn(move || {
        OTHERS.with(|place| assert!(place.set(lane).is_ok()));
        OTHERS.with(|lane| with(lane.get().unwrap()));
    })
    .join()
    .unwrap();
    let census = Arc::into_inner(pool).unwrap().close();
    assert_eq!(census.present + census.free, places);
}

/// What an object clears while it is emptied waits in its place, and is used again there.
#[test]
fn objects_that_wait_are_used_again() {
    with_others(4, |lane| {
        for _ in 0..10 {
            let clears: Vec<_> = (0..3).map(|_| lane.put_with(|_| ()).unwrap()).collect();
            let last = lane.put_with(|other| other.clears = clears).unwrap();
            assert!(lane.clear(last));
        }
        assert_eq!(MADE.get(), 4);
    });
}

/// A place whose object is being emptied is free to be filled behind that: a create in between takes another one, or finds all full.
#[test]
fn a_place_is_free_once_its_object_is_empty() {
    with_others(2, |lane| {
        for _ in 0..5 {
            let key = lane.put_with(|other| other.makes = 3).unwrap();
            assert!(lane.clear(key));
            let more = MORE.take();
            assert!(more[0].is_ok());
            assert_eq!(more[1..], [Err(CreateError::Full); 2]);
            let filling = lane.create().expect("the place is free now");
            assert_eq!(
                (filling.makes, lane.create().err()),
                (0, Some(CreateError::Full))
            );
            drop(filling);
            assert!(lane.clear(more[0].unwrap()));
        }
        assert_eq!(MADE.get(), 2);
    });
}

#[test]
fn closures_that_create() {
    let pool = Pool::<Vec<u64>>::open(shape(1, 4, 1)).unwrap();
    let lane = pool.lane().unwrap();
    let mut inner = None;
    let outer = lane
        .put_with(|list| {
            let key = lane.put_with(|other| other.push(1)).unwrap();
            list.push(u64::from(key));
            inner = Some(key);
        })
        .unwrap();
    assert_eq!(*lane.get(outer).unwrap(), [u64::from(inner.unwrap())]);
    assert_eq!(*lane.get(inner.unwrap()).unwrap(), [1]);
}

/// Calls its pool from its drop.
#[derive(Default)]
struct Last(Option<Arc<Mutex<Vec<usize>>>>, Option<Arc<Pool<String>>>);

impl Clear for Last {
    fn clear(&mut self) {
        *self = Last::default();
    }
}

impl Drop for Last {
    fn drop(&mut self) {
        if let (Some(seen), Some(pool)) = (&self.0, &self.1) {
            let lane = pool.lane().unwrap();
            let key = lane.put("last").unwrap();
            seen.lock().unwrap().push(lane.get(key).unwrap().len());
            assert!(lane.clear(key));
        }
    }
}

#[test]
fn drops_at_the_close_call_another_pool() {
    let texts = Arc::new(Pool::<String>::open(shape(1, 1, 1)).unwrap());
    let seen = Arc::new(Mutex::new(Vec::new()));
    let pool = Pool::<Last>::open(shape(2, 4, 1)).unwrap();
    let (lane, other) = (pool.lane().unwrap(), pool.lane().unwrap());
    for lane in [&lane, &lane, &other] {
        let mut last = lane.create().unwrap();
        last.0 = Some(Arc::clone(&seen));
        last.1 = Some(Arc::clone(&texts));
        _ = last.publish();
    }
    drop((lane, other));
    assert_eq!(pool.close().present, 3);
    assert_eq!(*seen.lock().unwrap(), [4, 4, 4]);
    assert_eq!(Arc::into_inner(texts).unwrap().close().free, 1);
}
