//! What the crate's rule rules out, each once a fault of a pool with few lanes: lost places, `Full` while a place is free, a process that
//! ends, places that are opened without need.
mod common;

use common::{at_once, limit, Gate};
use pardz::{Clear, CreateError, Field, Key, Limits, OpenError, Pool, Shape};
use std::cell::Cell;
use std::panic::{catch_unwind, AssertUnwindSafe};
use std::sync::atomic::{AtomicBool, AtomicUsize, Ordering::SeqCst};
use std::sync::{mpsc, Arc};
use std::{mem, thread};

fn shape(lanes: u32, first_page: u32, pages: u32) -> Shape {
    Shape {
        lanes,
        first_page,
        pages,
        ..Shape::default()
    }
}

fn panics<R>(work: impl FnOnce() -> R) -> bool {
    catch_unwind(AssertUnwindSafe(|| mem::forget(work()))).is_err()
}

thread_local! {
    /// How many more are to be made within each other, the last of which panics. Below 0 none is.
    static DEPTH: Cell<i32> = const { Cell::new(-1) };
}

struct Nested;

fn nested() -> &'static Pool<Nested> {
    static NESTED: Pool<Nested> = Pool::new();
    &NESTED
}

impl Default for Nested {
    fn default() -> Nested {
        match DEPTH.get() {
            0 => panic!("on purpose"),
            1.. => {
                DEPTH.set(DEPTH.get() - 1);
                drop(nested().create());
            }
            _ => {}
        }
        Nested
    }
}

impl Clear for Nested {
    fn clear(&mut self) {}
}

/// `T::default` that panics on several threads at once, each ten deep: no place is lost.
#[test]
fn panics_of_nested_defaults_lose_no_place() {
    let _limit = limit();
    for _ in 0..20 {
        at_once([(); 4].map(|()| {
            || {
                DEPTH.set(10);
                assert!(panics(|| nested().create()));
                DEPTH.set(-1);
            }
        }));
    }
    let census = nested().census();
    assert_eq!((census.filling, census.retired), (0, 0));
    // A page for each thread that had a shard while all others were had too.
    assert!(matches!(census.free, 64 | 128 | 192 | 256), "{census:?}");
}

/// A clear that answered true gave the place back: the same thread's create finds it, whatever others do.
#[test]
fn a_create_behind_a_clear_finds_the_place() {
    let _limit = limit();
    let pool = Pool::<String>::open(shape(2, 1, 1)).unwrap();
    let gate = Gate::new(2);
    at_once([(); 2].map(|()| {
        || {
            let member = gate.enter();
            let mut key = pool.put("x").unwrap();
            member.wait();
            for _ in 0..20_000 {
                assert!(pool.clear(key));
                key = pool.put("y").unwrap();
            }
        }
    }));
}

/// A place that another thread gave back, in a call that ended, is found too.
#[test]
fn a_create_behind_a_clear_elsewhere_finds_the_place() {
    let _limit = limit();
    let pool = Pool::<String>::open(shape(1, 2, 1)).unwrap();
    let (to, keys) = mpsc::channel::<Key>();
    let (cleared, goes_on) = mpsc::channel();
    thread::scope(|scope| {
        let pool = &pool;
        scope.spawn(move || {
            for key in keys {
                assert!(pool.clear(key));
                cleared.send(()).unwrap();
            }
        });
        for round in 0..5000 {
            let pair = [pool.put("x").unwrap(), pool.put("y").unwrap()];
            assert_eq!(pool.create().err(), Some(CreateError::Full), "{round}");
            for key in pair {
                to.send(key).unwrap();
                goes_on.recv().unwrap();
            }
        }
        drop(to);
    });
}

/// While owned handles are had, and made, all places of the thread's shards are there for creates of each kind.
#[test]
fn owned_handles_take_no_room_from_creates() {
    let pool = Pool::<String>::open(shape(1, 4, 1)).unwrap();
    let owned = pool.get_owned(pool.put("x").unwrap()).unwrap();
    let more = [pool.create_owned().unwrap(), pool.create_owned().unwrap()];
    let last = pool.create().unwrap();
    assert_eq!(pool.create_owned().err(), Some(CreateError::Full));
    assert_eq!(pool.create().err(), Some(CreateError::Full));
    drop(more);
    let both = [pool.create_owned(), pool.create_owned()];
    assert!(both.iter().all(Result::is_ok));
    drop((owned, last, both));
    assert_eq!(pool.close().free + 1, 4);
}

/// Two objects whose drops panic, and their pool: the first panic is handed on, and all are dropped; while the thread unwinds, none is.
#[test]
fn drops_that_panic_end_no_process() {
    static DROPPED: AtomicUsize = AtomicUsize::new(0);
    #[derive(Default)]
    struct Bad(bool);
    impl Clear for Bad {
        fn clear(&mut self) {}
    }
    impl Drop for Bad {
        fn drop(&mut self) {
            if self.0 {
                DROPPED.fetch_add(1, SeqCst);
                panic!("in a drop");
            }
        }
    }
    let filled = || {
        let pool = Pool::<Bad>::new();
        let keys = [(); 3].map(|()| pool.put_with(|bad| bad.0 = true).unwrap());
        (pool, keys)
    };
    let (pool, _) = filled();
    assert!(panics(|| drop(pool)));
    assert_eq!(DROPPED.swap(0, SeqCst), 3);
    let (pool, keys) = filled();
    let held = pool.get_owned(keys[0]).unwrap();
    drop(pool);
    assert!(panics(|| drop(held)), "the last handle drops them");
    assert_eq!(DROPPED.swap(0, SeqCst), 3);
    let caught = catch_unwind(|| {
        let (_pool, _) = filled();
        panic!("first");
    });
    assert_eq!(caught.unwrap_err().downcast_ref(), Some(&"first"));
    assert_eq!(DROPPED.load(SeqCst), 3);
}

/// An object whose `clear` panics, and its drop as well.
#[test]
fn a_clear_and_a_drop_that_panic_end_no_process() {
    static PANICS: AtomicBool = AtomicBool::new(true);
    #[derive(Default)]
    struct Worst;
    impl Clear for Worst {
        fn clear(&mut self) {
            panic!("in a clear");
        }
    }
    impl Drop for Worst {
        fn drop(&mut self) {
            assert!(!PANICS.load(SeqCst), "in a drop");
        }
    }
    let pool = Pool::<Worst>::open(shape(1, 1, 1)).unwrap();
    for _ in 0..3 {
        let key = pool.create().unwrap().publish();
        assert!(panics(|| pool.clear(key)));
        assert!(panics(|| drop(pool.create())));
    }
    assert_eq!(pool.census().free, 1);
    PANICS.store(false, SeqCst);
}

/// A dropped filling is emptied once, and its key never resolves, though others guess it.
#[test]
fn a_dropped_filling_is_emptied_once() {
    let _limit = limit();
    #[derive(Default)]
    struct Once(Arc<AtomicUsize>);
    impl Clear for Once {
        fn clear(&mut self) {
            self.0.fetch_add(1, SeqCst);
            self.0 = Arc::default();
        }
    }
    let (pool, is_done) = (
        Pool::<Once>::open(shape(1, 1, 1)).unwrap(),
        AtomicBool::new(false),
    );
    let guess = |generation: u64| Key::try_from(generation << 24).unwrap();
    thread::scope(|scope| {
        scope.spawn(|| {
            for generation in (1..=20_000).cycle() {
                assert!(pool.get(guess(generation)).is_none());
                assert!(!pool.clear(guess(generation)));
                if is_done.load(SeqCst) {
                    return;
                }
            }
        });
        for generation in 1..=20_000 {
            let mut filling = pool.create().unwrap();
            assert_eq!(filling.key(), guess(generation));
            let clears = Arc::clone(&filling.0);
            filling.0 = Arc::clone(&clears);
            drop(filling);
            assert_eq!(clears.load(SeqCst), 1);
        }
        is_done.store(true, SeqCst);
    });
    assert_eq!(pool.census().free, 1);
}

/// Records of 100 threads that another thread clears, at most 1,100 in flight: at most twice as many places are opened, and a page for each
/// thread.
#[test]
fn a_server_opens_as_many_places_as_it_needs() {
    const THREADS: usize = 100;
    const EACH: usize = 11;
    let _limit = limit();
    let pool = Pool::<String>::new();
    let pool = &pool;
    thread::scope(|scope| {
        let (to, records) = mpsc::channel::<(Key, mpsc::SyncSender<()>)>();
        scope.spawn(move || {
            for (key, room) in records {
                assert!(pool.clear(key));
                _ = room.send(());
            }
        });
        for _ in 0..THREADS {
            let to = to.clone();
            scope.spawn(move || {
                let (room, has_room) = mpsc::sync_channel(EACH);
                for number in 0..500 {
                    if number >= EACH {
                        has_room.recv().unwrap();
                    }
                    to.send((pool.put("a record").unwrap(), room.clone()))
                        .unwrap();
                }
            });
        }
    });
    let opened = pool.census().total() - pool.census().unopened;
    let most = 2 * THREADS * EACH + THREADS * 64;
    assert!(
        opened as usize <= most,
        "{opened} places are opened, not {most}"
    );
}

/// Within its most places a pool makes no shard in vain, and finds what others gave back.
#[test]
fn a_pool_of_few_places_makes_few_shards() {
    let pool: Pool<String> = Limits::new().places(64).open().unwrap();
    assert!(
        (0..2).all(|_| pool.reserve(64).is_ok()),
        "as many as it has"
    );
    let keys: Vec<Key> = (0..64).map(|_| pool.put("x").unwrap()).collect();
    for _ in 0..100 {
        assert_eq!(pool.create().err(), Some(CreateError::Full));
        assert_eq!(pool.reserve(1).err(), Some(CreateError::Full));
    }
    assert_eq!(pool.census().total(), 44_992, "one shard");
    at_once([|| {
        assert_eq!(pool.create().err(), Some(CreateError::Full));
        assert!(keys.iter().all(|key| pool.clear(*key)));
    }]);
    assert_eq!((0..).map_while(|_| pool.put("y").ok()).count(), 64);
    let limits = Limits::new().first_tag(254);
    let wrong = limits.first_tag(256).open::<String>().err();
    assert_eq!(wrong, Some(OpenError::Shape(Field::Tag)));
    let wrong = limits.tags(0).open::<String>().err();
    assert_eq!(wrong, Some(OpenError::Shape(Field::Tag)));
    assert!(limits.tags(1).open::<String>().is_ok());
    let wrong = limits.places(0).open::<String>().err();
    assert_eq!(wrong, Some(OpenError::Shape(Field::Places)));
    assert!(limits.open::<String>().unwrap().create().unwrap().key() > keys[0]);
}

/// A thousand threads that come and go use few shards.
#[test]
fn threads_that_come_and_go_use_the_same_shards() {
    let _limit = limit();
    let pool = Pool::<String>::new();
    for _ in 0..100 {
        at_once([(); 10].map(|()| {
            || {
                let key = pool.put("x").unwrap();
                assert!(pool.clear(key));
            }
        }));
    }
    let census = pool.census();
    assert!(census.free <= 10 * 64, "{census:?}");
}

/// A pool that a thread has a shard of, and that is gone when the thread exits or creates elsewhere.
#[test]
fn pools_end_before_threads_that_have_shards() {
    let _limit = limit();
    let gate = Gate::new(2);
    let (to, pools) = mpsc::channel::<Arc<Pool<String>>>();
    thread::scope(|scope| {
        let gate = &gate;
        scope.spawn(move || {
            let member = gate.enter();
            for pool in pools {
                _ = pool.put("x").unwrap();
                drop(pool);
                member.wait();
            }
        });
        let member = gate.enter();
        for _ in 0..200 {
            let pool = Arc::new(Pool::new());
            to.send(Arc::clone(&pool)).unwrap();
            member.wait();
            assert_eq!(Arc::into_inner(pool).unwrap().close().present, 1);
        }
        drop(to);
    });
}
