//! Objects of types of one's own.
mod common;

use common::{limit, lock, Gate};
use pardz::{Clear, CreateError, Field, Key, Lane, OpenError, Pool, Shape};
use std::sync::atomic::{AtomicUsize, Ordering::SeqCst};
use std::sync::{mpsc, Arc, Mutex};
use std::thread;

fn shape(lanes: u32) -> Shape {
    Shape {
        lanes,
        first_page: 4,
        pages: 2,
        ..Shape::default()
    }
}

#[derive(Debug, Default)]
struct Span {
    name: String,
    fields: Vec<(&'static str, u64)>,
    events: Mutex<Vec<u64>>,
    clears: u32,
}

impl Clear for Span {
    fn clear(&mut self) {
        self.name.clear();
        self.fields.clear();
        self.events.clear();
        self.clears += 1;
    }
}

#[test]
fn an_object_is_empty_when_its_place_is_given_again() {
    let pool = Pool::<Span>::open(Shape {
        first_page: 1,
        pages: 1,
        ..shape(1)
    })
    .unwrap();
    let lane = pool.lane().unwrap();
    let mut at = None;
    for round in 0..100 {
        let mut span = lane.create().unwrap();
        assert!(
            span.name.is_empty()
                && span.fields.is_empty()
                && span.events.get_mut().unwrap().is_empty()
        );
        assert_eq!(span.clears, round);
        assert!(round == 0 || span.fields.capacity() > 0);
        span.name.push_str("request");
        span.fields.push(("round", u64::from(round)));
        assert_eq!(*at.get_or_insert(span.name.as_ptr()), span.name.as_ptr());
        let span = span.downgrade();
        span.events.lock().unwrap().push(1);
        assert!(lane.clear(span.key()));
        assert_eq!(span.fields, [("round", u64::from(round))]);
        assert_eq!(span.clone().name, "request");
        assert!(format!("{span:?}").contains("request"));
    }
}

#[test]
fn wrong_shapes() {
    assert_eq!(
        Pool::<String>::open(shape(65)).err(),
        Some(OpenError::Shape(Field::Lanes))
    );
    assert_eq!(
        Pool::<String>::open(Shape {
            first_page: 5,
            ..shape(1)
        })
        .err(),
        Some(OpenError::Shape(Field::FirstPage))
    );
}

/// Objects are made at first use, and dropped once, by the close.
#[test]
fn each_object_is_dropped_once() {
    static ALIVE: AtomicUsize = AtomicUsize::new(0);
    struct Counted;
    impl Default for Counted {
        fn default() -> Counted {
            ALIVE.fetch_add(1, SeqCst);
            Counted
        }
    }
    impl Drop for Counted {
        fn drop(&mut self) {
            ALIVE.fetch_sub(1, SeqCst);
        }
    }
    impl Clear for Counted {
        fn clear(&mut self) {}
    }
    let pool = Pool::<Counted>::open(shape(2)).unwrap();
    let lane = pool.lane().unwrap();
    assert_eq!(ALIVE.load(SeqCst), 0);
    let keys: Vec<_> = (0..6).map(|_| lane.create().unwrap().publish()).collect();
    assert_eq!(ALIVE.load(SeqCst), 6);
    keys.into_iter().for_each(|key| assert!(lane.clear(key)));
    assert_eq!(ALIVE.load(SeqCst), 6);
    drop(lane.create().unwrap());
    std::mem::forget(lane.create().unwrap());
    std::mem::forget(lane.create().unwrap().downgrade());
    drop(lane);
    let census = pool.close();
    assert_eq!((census.filling, census.present), (1, 1));
    assert_eq!(ALIVE.load(SeqCst), 0);
}

/// Readers on three threads, one of which clears: all see the whole object.
#[test]
fn readers_beside_a_clear() {
    const ROUNDS: u64 = 500;
    let pool = Pool::<Vec<u64>>::open(shape(4)).unwrap();
    let (gate, key) = (Gate::new(4), Mutex::new(Key::try_from(1).unwrap()));
    let cleared = AtomicUsize::new(0);
    let lanes = [(); 3].map(|()| pool.lane().unwrap());
    let lane = pool.lane().unwrap();
    thread::scope(|scope| {
        let (gate, key, cleared) = (&gate, &key, &cleared);
        for other in lanes {
            scope.spawn(move || {
                let member = gate.enter();
                for round in 0..ROUNDS {
                    member.wait();
                    let key = *lock(key);
                    while let Some(list) = other.get(key) {
                        assert_eq!(*list, vec![round; (round % 50) as usize]);
                        cleared.fetch_add(usize::from(other.clear(key)), SeqCst);
                    }
                    member.wait();
                }
            });
        }
        let member = gate.enter();
        for round in 0..ROUNDS {
            let mut list = lane.create().unwrap();
            assert!(list.is_empty());
            list.extend((0..round % 50).map(|_| round));
            *lock(key) = list.publish();
            member.wait();
            member.wait();
        }
    });
    drop(lane);
    assert_eq!(cleared.load(SeqCst), ROUNDS as usize);
    let census = pool.close();
    assert_eq!(census.free + census.unopened, 48);
}

/// Objects pass from owned lanes to owned lanes; the pool goes with the last of them.
#[test]
fn owned_lanes_pass_objects() {
    let pool = Arc::new(Pool::<String>::open(shape(2)).unwrap());
    let _limit = limit();
    let (to, from) = mpsc::sync_channel(4);
    let (writer, reader) = (pool.lane_owned().unwrap(), pool.lane_owned().unwrap());
    assert!(pool.lane().is_err());
    let writing = thread::spawn(move || {
        for round in 0..1000 {
            let mut text = loop {
                match writer.create() {
                    Ok(text) => break text,
                    Err(CreateError::Full) => thread::yield_now(),
                    Err(error) => panic!("{error}"),
                }
            };
            text.push_str(&format!("text {round}"));
            to.send(text.publish()).unwrap();
        }
    });
    let reading = thread::spawn(move || {
        for (round, key) in from.into_iter().enumerate() {
            let text = reader.get(key).unwrap();
            assert!(reader.clear(key));
            assert_eq!(*text, format!("text {round}"));
        }
    });
    writing.join().unwrap();
    reading.join().unwrap();
    let census = Arc::into_inner(pool).unwrap().close();
    assert_eq!(census.free + census.unopened, 24);
}

thread_local! {
    /// What was emptied on this thread.
    static EMPTIED: std::cell::RefCell<Vec<u64>> = const { std::cell::RefCell::new(Vec::new()) };
}

#[derive(Default)]
struct Told(u64);

impl Clear for Told {
    fn clear(&mut self) {
        EMPTIED.with_borrow_mut(|emptied| emptied.push(self.0));
        self.0 = 0;
    }
}

/// An object is emptied when the last lets go, on its thread, before its call returns.
#[test]
fn the_last_one_empties() {
    let pool = Pool::<Told>::open(shape(2)).unwrap();
    let lane = pool.lane().unwrap();
    let here = || EMPTIED.take();
    let key = lane.put_with(|told| told.0 = 1).unwrap();
    assert!(lane.clear(key));
    assert_eq!(here(), [1]);
    let told = lane.put_with(|told| told.0 = 2).unwrap();
    let (first, second) = (lane.get(told).unwrap(), lane.get(told).unwrap());
    assert!(lane.clear(told) && here().is_empty());
    drop(first);
    assert!(here().is_empty() && second.0 == 2);
    drop(second);
    assert_eq!(here(), [2]);
    let mut filling = lane.create().unwrap();
    filling.0 = 3;
    drop(filling);
    assert_eq!(here(), [3]);
    let mut filling = lane.create().unwrap();
    filling.0 = 4;
    std::mem::forget(filling);
    assert!(here().is_empty());
    let told = lane.put_with(|told| told.0 = 5).unwrap();
    let held = lane.get(told).unwrap();
    let _limit = limit();
    let other = pool.lane().unwrap();
    thread::scope(|scope| {
        scope.spawn(move || {
            let also = other.get(told).unwrap();
            assert!(other.clear(told));
            drop(also);
            assert!(EMPTIED.take().is_empty());
        });
    });
    assert!(here().is_empty());
    drop(held);
    assert_eq!(here(), [5]);
}

/// How many objects each thread publishes.
const ROUNDS: u64 = 3000;

/// Publishes objects, each in the place of one that is cleared while it is held. Answers what this thread emptied.
fn publish_and_clear(lane: &Lane<Told>, number: u64, keys: &[Mutex<Option<Key>>]) -> Vec<u64> {
    for round in 0..ROUNDS {
        let mut told = lane.create().unwrap();
        told.0 = round * 4 + number;
        let told = told.downgrade();
        let place = &keys[(round % 4) as usize];
        let other = lock(place).replace(told.key());
        let Some(other) = other else { continue };
        let held = lane.get(other);
        assert!(held.is_some() && lane.clear(other));
        drop(told);
        drop(held);
    }
    EMPTIED.take()
}

/// However many hold and clear at once, each object is emptied once.
#[test]
fn each_is_emptied_once() {
    let pool = Pool::<Told>::open(shape(4)).unwrap();
    let keys: Vec<Mutex<Option<Key>>> = (0..4).map(|_| Mutex::default()).collect();
    let _limit = limit();
    let lanes = [(); 4].map(|()| pool.lane().unwrap());
    let mut emptied: Vec<u64> = thread::scope(|scope| {
        let mut number = 0;
        let threads = lanes.map(|lane| {
            number += 1;
            let keys = &keys;
            scope.spawn(move || publish_and_clear(&lane, number, keys))
        });
        threads
            .into_iter()
            .flat_map(|thread| thread.join().unwrap())
            .collect()
    });
    let lane = pool.lane().unwrap();
    for key in keys {
        assert!(lane.clear(key.into_inner().unwrap().unwrap()));
    }
    emptied.extend(EMPTIED.take());
    emptied.sort_unstable();
    let all: Vec<u64> = (1..=4 * ROUNDS).collect();
    assert_eq!(emptied, all);
}
