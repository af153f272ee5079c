//! Types of all kinds, and what is leaked.
mod common;

use common::limit;
use pardz::{Buffer, Clear, CreateError, Key, Pool, Ref, Shape};
use std::borrow::Borrow;
use std::hash::{DefaultHasher, Hash, Hasher};
use std::mem::{align_of_val, forget, size_of, size_of_val};
use std::sync::atomic::{AtomicUsize, Ordering::SeqCst};
use std::sync::{Arc, Mutex};
use std::thread;

fn shape(lanes: u32, places: u32) -> Shape {
    Shape {
        lanes,
        first_page: places,
        pages: 1,
        ..Shape::default()
    }
}

#[test]
fn a_type_without_bytes() {
    static MADE: AtomicUsize = AtomicUsize::new(0);
    static CLEARED: AtomicUsize = AtomicUsize::new(0);
    static DROPPED: AtomicUsize = AtomicUsize::new(0);
    struct Nothing;
    impl Default for Nothing {
        fn default() -> Nothing {
            MADE.fetch_add(1, SeqCst);
            Nothing
        }
    }
    impl Clear for Nothing {
        fn clear(&mut self) {
            CLEARED.fetch_add(1, SeqCst);
        }
    }
    impl Drop for Nothing {
        fn drop(&mut self) {
            DROPPED.fetch_add(1, SeqCst);
        }
    }
    let pool = Pool::<Nothing>::open(shape(2, 4)).unwrap();
    let (lane, other) = (pool.lane().unwrap(), pool.lane().unwrap());
    for _ in 0..10 {
        let keys: Vec<Key> = (0..4).map(|_| lane.put_with(|_| ()).unwrap()).collect();
        for key in keys {
            let held = other.get(key).unwrap();
            assert_eq!(size_of_val(&*held), 0);
            assert!(lane.clear(key));
        }
    }
    drop((lane, other));
    assert_eq!(pool.close().free, 4);
    assert_eq!(MADE.load(SeqCst), DROPPED.load(SeqCst));
    assert!(MADE.load(SeqCst) <= 5);
    assert_eq!(CLEARED.load(SeqCst), 40);
}

/// One byte, aligned to a kilobyte.
#[repr(align(1024))]
#[derive(Default)]
struct Aligned(u8);

impl Clear for Aligned {
    fn clear(&mut self) {
        self.0 = 0;
    }
}

/// Eighty thousand bytes.
struct Large([u64; 10_000]);

impl Default for Large {
    fn default() -> Large {
        Large([0; 10_000])
    }
}

impl Clear for Large {
    fn clear(&mut self) {
        self.0.fill(0);
    }
}

#[test]
fn aligned_and_large() {
    let (aligned, large) = (
        Pool::<Aligned>::open(shape(1, 8)).unwrap(),
        Pool::<Large>::open(shape(1, 2)).unwrap(),
    );
    let (lane, large_lane) = (aligned.lane().unwrap(), large.lane().unwrap());
    let keys: Vec<Key> = (0..8)
        .map(|number| lane.put_with(|object| object.0 = number).unwrap())
        .collect();
    for (number, key) in keys.into_iter().enumerate() {
        let object = lane.get(key).unwrap();
        assert_eq!(align_of_val(&*object), 1024);
        assert_eq!(std::ptr::from_ref(&*object) as usize % 1024, 0);
        assert_eq!(object.0, number as u8);
    }
    for round in 0..10 {
        let key = large_lane.put_with(|object| object.0.fill(round)).unwrap();
        assert!(large_lane
            .get(key)
            .unwrap()
            .0
            .iter()
            .all(|item| *item == round));
        assert!(large_lane.clear(key));
    }
}

/// Objects that borrow, from what outlives the pool.
#[test]
fn borrowed_contents() {
    let _limit = limit();
    let text = String::from("one two three");
    let pool = Pool::<Vec<&str>>::open(shape(2, 4)).unwrap();
    let lane = pool.lane().unwrap();
    let key = lane
        .put_with(|words| words.extend(text.split(' ')))
        .unwrap();
    thread::scope(|scope| {
        let other = pool.lane().unwrap();
        scope.spawn(move || assert_eq!(*other.get(key).unwrap(), ["one", "two", "three"]));
    });
    assert!(lane.clear(key));
}

/// A type that neither crosses nor is shared: on one thread all is the same.
#[test]
fn of_one_thread() {
    #[derive(Default)]
    struct Local(Option<std::rc::Rc<std::cell::Cell<u8>>>);
    impl Clear for Local {
        fn clear(&mut self) {
            self.0 = None;
        }
    }
    let count = std::rc::Rc::new(std::cell::Cell::new(0));
    let pool = Pool::<Local>::open(shape(1, 1)).unwrap();
    let lane = pool.lane().unwrap();
    for _ in 0..5 {
        let mut local = lane.create().unwrap();
        local.0 = Some(std::rc::Rc::clone(&count));
        let local = local.downgrade();
        let cell = local.0.as_ref().unwrap();
        cell.set(cell.get() + 1);
        assert!(lane.clear(local.key()));
    }
    assert_eq!((count.get(), std::rc::Rc::strong_count(&count)), (5, 1));
}

#[test]
fn references_compare_by_their_objects() {
    let pool = Pool::<String>::open(shape(1, 4)).unwrap();
    let lane = pool.lane().unwrap();
    let text = |text: &str| lane.get(lane.put(text).unwrap()).unwrap();
    let (a, same, b) = (text("a"), text("a"), text("b"));
    assert!(a == same && a != b && a < b);
    assert!(a.cmp(&b).is_lt() && b.cmp(&a).is_gt() && a.cmp(&same).is_eq());
    let hash = |text: &dyn Fn(&mut DefaultHasher)| {
        let mut hasher = DefaultHasher::new();
        text(&mut hasher);
        hasher.finish()
    };
    assert_eq!(
        hash(&|hasher| same.hash(hasher)),
        hash(&|hasher| "a".hash(hasher))
    );
    let borrowed: &String = same.borrow();
    assert_eq!((borrowed.as_str(), same.to_string()), ("a", "a".into()));
}

/// By the pool, or by a `Lane`.
#[test]
fn a_put_is_a_copy() {
    let (bytes, texts, lists) = (
        Pool::<Buffer>::new(),
        Pool::<String>::new(),
        Pool::<Vec<u16>>::new(),
    );
    for _ in 0..3 {
        let keys = [
            bytes.put(b"abc").unwrap(),
            bytes.lane().unwrap().put(b"abc").unwrap(),
        ];
        assert!(keys
            .iter()
            .all(|key| bytes.get(*key).unwrap()[..] == *b"abc" && bytes.clear(*key)));
        let keys = [
            texts.put("abc").unwrap(),
            texts.lane().unwrap().put("abc").unwrap(),
        ];
        assert!(keys
            .iter()
            .all(|key| *texts.get(*key).unwrap() == "abc" && texts.clear(*key)));
        let keys = [
            lists.put(&[1, 2]).unwrap(),
            lists.lane().unwrap().put(&[1, 2]).unwrap(),
        ];
        assert!(keys
            .iter()
            .all(|key| *lists.get(*key).unwrap() == [1, 2] && lists.clear(*key)));
    }
}

/// A place whose reference was leaked isn't used again, and its object is dropped at the close.
#[test]
fn what_is_leaked() {
    #[derive(Default)]
    struct Counted(Option<Arc<()>>);
    impl Clear for Counted {
        fn clear(&mut self) {
            self.0 = None;
        }
    }
    let alive = Arc::new(());
    let pool = Pool::<Counted>::open(Shape {
        tag: 255,
        ..shape(2, 4)
    })
    .unwrap();
    let (lane, other) = (pool.lane().unwrap(), pool.lane().unwrap());
    let fill = |object: &mut Counted| object.0 = Some(Arc::clone(&alive));
    let marked = lane.put_with(fill).unwrap();
    let present = lane.put_with(fill).unwrap();
    forget(other.get(marked).unwrap());
    forget(other.get(present).unwrap());
    forget(lane.get(present).unwrap());
    assert!(lane.clear(marked));
    forget(lane.create().unwrap());
    forget(lane.create().unwrap());
    assert_eq!(lane.create().err(), Some(CreateError::Full));
    forget(other);
    assert_eq!(Arc::strong_count(&alive), 3);
    // (The shard of the lane that was forgotten is nobody else's.)
    drop(lane);
    let lane = pool.lane().unwrap();
    assert!(lane.get(present).is_some());
    assert!(pool.lane().is_err());
    drop(lane);
    let now = pool.census();
    let census = pool.close();
    assert_eq!(now, census);
    assert_eq!((census.marked, census.present, census.filling), (1, 1, 2));
    assert_eq!(Arc::strong_count(&alive), 1);
}

/// They keep the pool's memory for ever, and so its objects. What they have is in the count, and their keys do as they did.
#[test]
fn what_forgotten_owned_handles_leave() {
    #[derive(Default)]
    struct Counted(Option<Arc<()>>);
    impl Clear for Counted {
        fn clear(&mut self) {
            self.0 = None;
        }
    }
    let alive = Arc::new(());
    let pool = Pool::<Counted>::open(shape(1, 4)).unwrap();
    let fill = |object: &mut Counted| object.0 = Some(Arc::clone(&alive));
    let marked = pool.put_with(fill).unwrap();
    let present = pool.put_with(fill).unwrap();
    forget(pool.get_owned(marked).unwrap());
    forget(pool.get_owned(present).unwrap());
    assert!(pool.clear(marked) && !pool.clear(marked));
    let mut filling = pool.create_owned().unwrap();
    fill(&mut filling);
    forget(filling);
    forget(pool.create_owned().unwrap().downgrade());
    assert_eq!(pool.create().err(), Some(CreateError::Full));
    assert!(pool.get(marked).is_none() && pool.get(present).is_some());
    assert_eq!((pool.len(), pool.keys().next()), (2, Some(present)));
    let census = pool.census();
    assert_eq!((census.marked, census.present, census.filling), (1, 2, 1));
    assert_eq!(pool.close(), census);
    assert_eq!(Arc::strong_count(&alive), 4);
}

/// The objects of places that are retired stay there, and are dropped once.
#[test]
fn the_last_generation() {
    let alive = Arc::new(Mutex::new(0));
    #[derive(Default)]
    struct Counted(Option<Arc<Mutex<i32>>>);
    impl Clear for Counted {
        fn clear(&mut self) {}
    }
    impl Drop for Counted {
        fn drop(&mut self) {
            if let Some(alive) = &self.0 {
                *alive.lock().unwrap() -= 1;
            }
        }
    }
    let pool = Pool::<Counted>::open(Shape {
        last_generation: 3,
        ..shape(2, 4)
    })
    .unwrap();
    let (lane, other) = (pool.lane().unwrap(), pool.lane().unwrap());
    for number in 0..12 {
        let key = lane
            .put_with(|object| {
                if object.0.is_none() {
                    *alive.lock().unwrap() += 1;
                    object.0 = Some(Arc::clone(&alive));
                }
            })
            .unwrap();
        assert!([&lane, &other][number % 2].clear(key));
    }
    assert_eq!(lane.create().err(), Some(CreateError::Full));
    assert!(*alive.lock().unwrap() <= 4);
    drop((lane, other));
    let now = pool.census();
    let census = pool.close();
    assert_eq!(now, census);
    assert_eq!((census.retired, census.unopened), (4, 4));
    assert_eq!(*alive.lock().unwrap(), 0);
}

#[test]
fn sizes() {
    assert_eq!(size_of::<Option<Key>>(), 8);
    assert_eq!(size_of::<Option<Ref<String>>>(), size_of::<Ref<String>>());
}
