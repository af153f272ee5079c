//! Calls and drops while a thread ends.
use super::*;

fn two_pools() -> &'static [Pool<String>; 2] {
    static POOLS: OnceLock<[Pool<String>; 2]> = OnceLock::new();
    POOLS.get_or_init(|| [(); 2].map(|()| Pool::open(shape(4, 32, 2)).unwrap()))
}

/// Text of this pool and thread goes in, is seen by all, and out.
fn use_both(thread: usize, round: usize) {
    let text = |pool| format!("{thread} {round} {pool}");
    let keys = [0, 1].map(|pool| two_pools()[pool].put(&text(pool)).unwrap());
    let held = [1, 0].map(|pool| two_pools()[pool].get(keys[pool]).unwrap());
    for pool in [0, 1, 0, 1] {
        assert_eq!(*two_pools()[pool].get(keys[pool]).unwrap(), text(pool));
    }
    assert!((0..2).all(|pool| two_pools()[pool].clear(keys[pool])));
    assert_eq!((&**held[0], &**held[1]), (&*text(1), &*text(0)));
    drop(held);
    assert!((0..2).all(|pool| two_pools()[pool].get(keys[pool]).is_none()));
}

/// Calls both pools when its thread ends, with references and fillings of before.
struct Late {
    thread: Cell<usize>,
    held: RefCell<Vec<Ref<'static, String>>>,
    filling: RefCell<Vec<pardz::Filling<'static, String>>>,
}

impl Drop for Late {
    fn drop(&mut self) {
        let thread = self.thread.get();
        (0..10).for_each(|round| use_both(thread, round));
        let held = self.held.take();
        for (number, reference) in held.iter().enumerate() {
            assert_eq!(**reference, format!("late {thread} {number}"));
            let pool = &two_pools()[number % 2];
            assert!(pool.clear(reference.key()));
            assert_eq!(**reference.clone(), **reference);
        }
        drop(held);
        for filling in self.filling.take() {
            let reference = filling.downgrade();
            assert_eq!(*reference, format!("filled {thread}"));
            // (Both pools have the same keys.)
            assert!(two_pools()[thread % 2].clear(reference.key()));
        }
        (0..10).for_each(|round| use_both(thread, round));
    }
}

thread_local! {
    static EARLY: Late = const { Late { thread: Cell::new(0), held: RefCell::new(vec![]), filling: RefCell::new(vec![]) } };
    static LATER: Late = const { Late { thread: Cell::new(0), held: RefCell::new(vec![]), filling: RefCell::new(vec![]) } };
}

/// Threads that end call two pools before and after their own thread-locals and the crate's are gone, while others take up the lanes
/// that they left.
#[test]
fn two_pools_while_threads_end() {
    alone("late::two_pools_while_threads_end", || {
        // (Here, where a thread sanitizer sees that the threads find them made.)
        assert_eq!(two_pools().len(), 2);
        for round in 0..150 {
            at_once((0..4).map(|number| {
                move || {
                    let thread = round * 4 + number;
                    // (The crate's thread-locals begin with the first call: those of before outlive them.)
                    EARLY.with(|late| late.thread.set(thread));
                    if number != 3 {
                        use_both(thread, round);
                    }
                    LATER.with(|late| late.thread.set(thread));
                    for late in [&EARLY, &LATER].into_iter().skip(number % 2) {
                        late.with(|late| {
                            let mut held = late.held.borrow_mut();
                            for number in 0..4 {
                                let pool = &two_pools()[number % 2];
                                let text = format!("late {thread} {number}");
                                let key = pool.put(&text).unwrap();
                                held.push(pool.get(key).unwrap());
                            }
                            let mut filling = two_pools()[number % 2].create().unwrap();
                            filling.push_str(&format!("filled {thread}"));
                            late.filling.borrow_mut().push(filling);
                        });
                    }
                    (0..20).for_each(|round| use_both(thread, round));
                }
            }));
        }
        for pool in two_pools() {
            let census = pool.census();
            assert_eq!((census.present, census.marked, census.filling), (0, 0, 0));
            let lanes: Vec<_> = (0..).map_while(|_| pool.lane().ok()).collect();
            assert_eq!(lanes.len(), 4, "all shards were left");
        }
    });
}

/// 1 while an object waits in its `clear`, until another number is stored.
static SLOW: AtomicUsize = AtomicUsize::new(0);

/// Takes its time to be emptied, where it is to.
#[derive(Default)]
struct Slow {
    waits: bool,
    bytes: Vec<u8>,
}

impl Clear for Slow {
    fn clear(&mut self) {
        if mem::take(&mut self.waits) {
            SLOW.store(1, SeqCst);
            while SLOW.load(SeqCst) == 1 {
                thread::yield_now();
            }
        }
        self.bytes.clear();
    }
}

fn slow() -> &'static Pool<Slow> {
    static POOL: OnceLock<Pool<Slow>> = OnceLock::new();
    POOL.get_or_init(|| Pool::open(shape(1, 8, 1)).unwrap())
}

thread_local! {
    static HELD: RefCell<Option<Ref<'static, Slow>>> = const { RefCell::new(None) };
}

/// A reference is let go of while its thread ends, and `clear` takes its time: others that take up the thread's shard meanwhile don't
/// meet it, and its place comes back.
#[test]
fn a_late_clear_meets_nobody() {
    alone("late::a_late_clear_meets_nobody", || {
        let ending = thread::spawn(|| {
            HELD.with_borrow_mut(|held| {
                let key = slow().put_with(|slow| slow.waits = true).unwrap();
                *held = slow().get(key);
                assert!(slow().clear(key));
            });
        });
        while SLOW.load(SeqCst) != 1 {
            thread::yield_now();
        }
        // (The one shard is left before or behind it.)
        let others: Vec<_> = (0..7).map_while(|_| slow().create().ok()).collect();
        assert!(slow().create().is_err());
        SLOW.store(2, SeqCst);
        ending.join().unwrap();
        let more: Vec<_> = (0..8).map_while(|_| slow().create().ok()).collect();
        assert_eq!(others.len() + more.len(), 8);
    });
}
