//! Threads that leave shards, exit, and end beside the pool.
use super::*;

#[test]
fn threads_leave_their_shards() {
    let pool = Limits::new().shards(2).open::<String>().unwrap();
    let mut keys = vec![];
    for i in 0..100 {
        let key = thread::scope(|scope| scope.spawn(|| put(&pool, &i.to_string())).join().unwrap());
        keys.push(key);
    }
    for (i, &key) in keys.iter().enumerate() {
        assert_eq!(*pool.get(key).unwrap(), i.to_string());
        assert!(pool.clear(key));
    }
    let (one, _two) = (pool.lane().unwrap(), pool.lane().unwrap());
    assert_eq!(pool.lane().err(), Some(CreateError::NoLane));
    assert_eq!(pool.create().err(), Some(CreateError::NoLane));
    drop(one.create().unwrap());
    drop(one);
    drop(pool.create().unwrap());
}

#[test]
fn a_thread_that_exits_calls_still() {
    static POOL: Mutex<Option<Arc<Pool<String>>>> = Mutex::new(None);
    struct Late(Key);
    impl Drop for Late {
        fn drop(&mut self) {
            let pool = POOL.lock().unwrap().clone().unwrap();
            assert!(pool.clear(self.0));
            let key = put(&pool, "late");
            assert_eq!(*pool.get(key).unwrap(), "late");
            assert!(pool.clear(key));
            drop(pool.create().unwrap());
        }
    }
    thread_local!(static LATE: RefCell<Vec<Late>> = const { RefCell::new(vec![]) });
    let pool = Arc::new(Pool::new());
    *POOL.lock().unwrap() = Some(pool.clone());
    for _ in 0..10 {
        let pool = pool.clone();
        thread::spawn(move || {
            // Whichever of the two thread-locals is destroyed first.
            LATE.with(|late| late.borrow_mut().push(Late(put(&pool, "x"))));
        })
        .join()
        .unwrap();
    }
    *POOL.lock().unwrap() = None;
    assert!(pool.lane().is_ok());
}

/// A thread that gave its shard back doesn't use it, though it calls still.
#[test]
fn a_thread_that_exits_has_no_shard() {
    static POOL: Mutex<Option<Arc<Pool<String>>>> = Mutex::new(None);
    static CALLED: AtomicUsize = AtomicUsize::new(0);
    struct Late;
    impl Drop for Late {
        fn drop(&mut self) {
            let pool = POOL.lock().unwrap().clone().unwrap();
            let barriers = (Barrier::new(2), Barrier::new(2));
            thread::scope(|scope| {
                let (pool, has_it, is_done) = (&pool, &barriers.0, &barriers.1);
                scope.spawn(move || {
                    let _lane = pool.lane().unwrap();
                    has_it.wait();
                    is_done.wait();
                });
                has_it.wait();
                let refused = pool.create().err();
                is_done.wait();
                CALLED.fetch_add((refused == Some(CreateError::NoLane)).into(), Relaxed);
            });
        }
    }
    thread_local!(static LATE: RefCell<Option<Late>> = const { RefCell::new(None) });
    let pool = Arc::new(Limits::new().shards(1).open().unwrap());
    *POOL.lock().unwrap() = Some(pool.clone());
    thread::spawn(move || {
        // (What was first used last is destroyed first.)
        LATE.with(|late| *late.borrow_mut() = Some(Late));
        _ = put(&pool, "x");
    })
    .join()
    .unwrap();
    assert_eq!(CALLED.load(Relaxed), 1);
}

#[test]
fn handles_outlive_the_pool_and_go_anywhere() {
    static DROPPED: AtomicUsize = AtomicUsize::new(0);
    #[derive(Default)]
    struct Noted(u32);
    impl Drop for Noted {
        fn drop(&mut self) {
            DROPPED.fetch_add(1, Relaxed);
        }
    }
    impl Clear for Noted {
        fn clear(&mut self) {
            self.0 = 0;
        }
    }
    let pool = Pool::<Noted>::new();
    let key = pool.put_with(|it| it.0 = 5).unwrap();
    let held: OwnedRef<Noted> = pool.get_owned(key).unwrap();
    let mut filling = pool.create_owned().unwrap();
    drop(pool);
    assert_eq!(DROPPED.load(Relaxed), 0);
    filling.0 = 6;
    let other = thread::spawn(move || {
        let six = filling.downgrade();
        (six.clone(), six)
    });
    let (six, again) = other.join().unwrap();
    thread::spawn(move || assert_eq!((six.0, held.0), (6, 5)))
        .join()
        .unwrap();
    assert_eq!(DROPPED.load(Relaxed), 0);
    drop(again);
    assert_eq!(DROPPED.load(Relaxed), 2);
}

/// Threads come, make some objects, and exit at once with others; each object is there as long as it isn't cleared.
#[test]
fn threads_come_and_go() {
    let pool = Limits::new().shards(16).open::<String>().unwrap();
    let keys = Mutex::new(Vec::<(Key, String)>::new());
    for round in 0..40 {
        thread::scope(|scope| {
            for number in 0..8 {
                let (pool, keys) = (&pool, &keys);
                scope.spawn(move || {
                    for i in 0..50 {
                        let text = format!("{round} {number} {i}");
                        let key = put(pool, &text);
                        keys.lock().unwrap().push((key, text));
                        let other = match keys.lock().unwrap() {
                            mut all if i % 3 != 0 => {
                                let at = (i * 7919 + number) % all.len();
                                all.swap_remove(at)
                            }
                            _ => continue,
                        };
                        assert_eq!(*pool.get(other.0).unwrap(), other.1);
                        assert!(pool.clear(other.0));
                    }
                });
            }
        });
    }
    for (key, text) in keys.into_inner().unwrap() {
        assert_eq!(*pool.get(key).unwrap(), text);
    }
}

static LIVE: AtomicUsize = AtomicUsize::new(0);

/// Counts in `LIVE`.
struct Counted(u8);

impl Default for Counted {
    fn default() -> Counted {
        LIVE.fetch_add(1, Relaxed);
        Counted(7)
    }
}

impl Drop for Counted {
    fn drop(&mut self) {
        LIVE.fetch_sub(1, Relaxed);
    }
}

impl Clear for Counted {
    fn clear(&mut self) {}
}

/// Objects that three threads published.
fn put_by_three(pool: &Pool<Counted>) -> Vec<Key> {
    let put = || [(); 5].map(|()| pool.put_with(|_| {}).unwrap());
    thread::scope(|scope| {
        let threads = [(); 3].map(|()| scope.spawn(put));
        let keys = threads.into_iter().flat_map(|it| it.join().unwrap());
        keys.collect()
    })
}

/// Owned handles end on many threads while the pool is dropped: its memory goes once, with the last of them.
#[test]
fn a_pool_ends_beside_its_handles() {
    for round in 0..300 {
        let pool = Pool::<Counted>::new();
        let keys = put_by_three(&pool);
        let handles = keys.iter().map(|&key| pool.get_owned(key).unwrap());
        let handles: Vec<OwnedRef<Counted>> = handles.collect();
        let filling = pool.create_owned().unwrap();
        keys.iter()
            .step_by(2)
            .for_each(|&key| assert!(pool.clear(key)));
        let ends = [0, 1, 2].map(|first| {
            let some = handles.iter().skip(first).step_by(1 + round % 3);
            let some: Vec<_> = some.cloned().collect();
            thread::spawn(move || some.iter().for_each(|it| assert_eq!(it.0, 7)))
        });
        drop(handles);
        if round % 2 == 0 {
            drop(pool);
            drop(filling);
        } else {
            let late = thread::spawn(move || drop(filling));
            drop(pool);
            late.join().unwrap();
        }
        ends.into_iter().for_each(|it| it.join().unwrap());
        assert_eq!(LIVE.load(Relaxed), 0);
    }
}

#[test]
fn two_hundred_threads() {
    let pool = Pool::<String>::new();
    thread::scope(|scope| {
        for number in 0..200 {
            let pool = &pool;
            scope.spawn(move || {
                for i in 0..200 {
                    let text = format!("{number} {i}");
                    let key = put(pool, &text);
                    assert_eq!(*pool.get(key).unwrap(), text);
                    assert!(pool.clear(key));
                }
            });
        }
    });
}
