//! Pools that end while threads have shards of them, and several pools.
use crate::world::{look, published, settled, shape, Scenario, Tracked, World};
use explorer::{AtomicU32, Mutex, Ordering};
use pardz::{Key, Pool};

pub fn all() -> Vec<Scenario> {
    vec![
        Scenario::new("ends-while-had", ended, [Ended::make, Ended::end], drop),
        Scenario::new(
            "ends-while-two-have",
            ended,
            [Ended::make, Ended::make, Ended::end_second],
            drop,
        )
        .bounded(1),
        Scenario::new(
            "ends-while-held",
            ended,
            [Ended::hold, Ended::hold, Ended::end_second],
            drop,
        )
        .bounded(2),
        Scenario::new(
            "two-pools",
            two_pools,
            [|t| t.make(0), |t| t.make(1)],
            TwoPools::settle,
        )
        .bounded(3),
        Scenario::new(
            "next-pool",
            ended,
            [Ended::make_then_in_next, Ended::end],
            drop,
        ),
    ]
}

/// A pool that one thread ends, when others have called it.
struct Ended {
    pool: Mutex<Option<Pool<Tracked>>>,
    /// How many threads are done with the pool.
    done: AtomicU32,
}

fn ended() -> Ended {
    let pool = Pool::open(shape(2, 2, 1)).expect("a shape");
    Ended {
        pool: Mutex::new(Some(pool)),
        done: AtomicU32::new(0),
    }
}

impl Ended {
    /// The pool, for as long as the thread isn't done.
    fn borrowed(&self) -> &Pool<Tracked> {
        let pool = self.pool.lock().expect("no panic");
        let pool: *const Pool<Tracked> = pool.as_ref().expect("it isn't ended yet");
        // SAFETY: whoever ends it waits for those that call it.
        unsafe { &*pool }
    }

    /// Has a shard, until the thread exits: before or after the pool ends.
    fn make(&self) {
        let pool = self.borrowed();
        let key = pool.put_with(|object| object.set(3)).expect("a place");
        look(&pool.get(key).expect("published"), 3);
        self.done.fetch_add(1, Ordering::Release);
    }

    /// Has an owned handle, of a stripe of its own, which ends before the pool or behind it.
    fn hold(&self) {
        let pool = self.borrowed();
        let object = pool.create_owned().map(|mut filling| {
            filling.set(5);
            filling.downgrade()
        });
        self.done.fetch_add(1, Ordering::Release);
        look(&object.expect("a place"), 5);
    }

    fn end(&self) {
        self.end_behind(1);
    }

    fn end_second(&self) {
        self.end_behind(2);
    }

    fn end_behind(&self, count: u32) {
        while self.done.load(Ordering::Acquire) < count {
            explorer::spin_loop();
        }
        let pool = self.pool.lock().expect("no panic").take();
        drop(pool);
    }

    /// Its shard of a pool that may be gone isn't one of the next.
    fn make_then_in_next(&self) {
        self.make();
        let next = Pool::<Tracked>::open(shape(1, 1, 1)).expect("a shape");
        let key = next.put_with(|object| object.set(4)).expect("a place");
        look(&next.get(key).expect("published"), 4);
        assert!(next.clear(key));
    }
}

/// Two pools of the same shape.
struct TwoPools([World; 2]);

fn two_pools() -> TwoPools {
    TwoPools([(); 2].map(|()| published(shape(1, 1, 1), 1)))
}

impl TwoPools {
    /// Clears an object of each, and uses its place again.
    fn make(&self, first: usize) {
        for at in [first, 1 - first] {
            let world = &self.0[at];
            world.clear_at(0);
            let made: Option<Key> = world.make(7).ok();
            if let Some(key) = made {
                assert!(world.look(key, 7), "a key of this pool");
            }
        }
    }

    fn settle(self) {
        self.0.into_iter().for_each(settled);
    }
}
