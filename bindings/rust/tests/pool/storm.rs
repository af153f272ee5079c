//! Threads that create, get and clear the same objects at once.
use super::*;

/// An object that says whose key it has.
#[derive(Default)]
struct Cell {
    key: AtomicU64,
    clears: u64,
}

static CLEARS: AtomicU64 = AtomicU64::new(0);

impl Clear for Cell {
    fn clear(&mut self) {
        assert_ne!(std::mem::take(self.key.get_mut()), 0);
        self.clears += 1;
        CLEARS.fetch_add(1, Relaxed);
    }
}

/// What the threads of a storm share: a pool, keys that were published last, how many objects were made and how many clears won.
struct Storm {
    pool: Pool<Cell>,
    keys: [AtomicU64; 32],
    made: AtomicU64,
    won: AtomicU64,
}

impl Storm {
    /// One call, at random, by a thread that holds these.
    fn call(&self, random: u64, held: &mut Vec<OwnedRef<Cell>>) {
        let slot = &self.keys[random as usize % 32];
        let seen = Key::try_from(slot.load(Acquire)).ok();
        match random >> 32 & 7 {
            0 | 1 => {
                let filling = self.pool.create().unwrap();
                assert_eq!(filling.key.load(Relaxed), 0);
                filling.key.store(filling.key().into(), Relaxed);
                self.made.fetch_add(1, Relaxed);
                slot.store(filling.publish().into(), Release);
            }
            2 | 3 => {
                let clears = seen.is_some_and(|key| self.pool.clear(key));
                self.won.fetch_add(clears.into(), Relaxed);
            }
            4 => {
                held.extend(seen.and_then(|key| self.pool.get_owned(key)));
                if held.len() > 10 {
                    held.swap_remove(random as usize % 10);
                }
            }
            _ => {
                if let Some(it) = seen.and_then(|key| self.pool.get(key)) {
                    assert_eq!(it.key.load(Relaxed), u64::from(it.key()));
                }
            }
        }
        for it in held {
            assert_eq!(it.key.load(Relaxed), u64::from(it.key()));
        }
    }

    /// Many calls of one thread.
    fn calls(&self, number: u64) {
        let mut random = 0x9e3779b97f4a7c15 ^ (number + 1) << 20;
        let mut held = vec![];
        for _ in 0..30_000 {
            random ^= random << 13;
            random ^= random >> 7;
            random ^= random << 17;
            self.call(random, &mut held);
        }
    }
}

/// Threads create, look up, hold and clear each other's objects; each object says whose key it has.
#[test]
fn a_storm() {
    let storm = Storm {
        pool: Pool::new(),
        keys: [const { AtomicU64::new(0) }; 32],
        made: AtomicU64::new(0),
        won: AtomicU64::new(0),
    };
    for _round in 0..8 {
        thread::scope(|scope| {
            for number in 0..6 {
                let storm = &storm;
                scope.spawn(move || storm.calls(number));
            }
        });
    }
    let (won, made) = (storm.won.into_inner(), storm.made.into_inner());
    assert_eq!(CLEARS.load(Relaxed), won);
    assert!(won > 1000 && won <= made);
}

/// All clear one key while others get it: one of them wins, and the object is emptied once.
#[test]
fn one_wins() {
    #[derive(Default)]
    struct Once(#[allow(dead_code)] AtomicU64);
    static CLEARS: AtomicU64 = AtomicU64::new(0);
    impl Clear for Once {
        fn clear(&mut self) {
            CLEARS.fetch_add(1, Relaxed);
        }
    }
    let pool = Pool::<Once>::new();
    let (current, won) = (AtomicU64::new(0), AtomicU64::new(0));
    let barrier = Barrier::new(4);
    const ROUNDS: u64 = 3_000;
    thread::scope(|scope| {
        for number in 0..4 {
            let (pool, current, won, barrier) = (&pool, &current, &won, &barrier);
            scope.spawn(move || {
                for _ in 0..ROUNDS {
                    if number == 0 {
                        current.store(pool.create().unwrap().publish().into(), Relaxed);
                    }
                    barrier.wait();
                    let key = Key::try_from(current.load(Relaxed)).unwrap();
                    if number % 2 == 0 {
                        won.fetch_add(pool.clear(key).into(), Relaxed);
                    } else {
                        for _ in 0..20 {
                            drop(pool.get(key));
                        }
                        won.fetch_add(pool.clear(key).into(), Relaxed);
                    }
                    barrier.wait();
                }
            });
        }
    });
    assert_eq!((won.load(Relaxed), CLEARS.load(Relaxed)), (ROUNDS, ROUNDS));
}

/// What one thread frees another one's creates find, with no place lost: the pool has one shard each.
#[test]
fn returned_places_are_found() {
    let pool = Limits::new().shards(2).open::<String>().unwrap();
    let (to, from) = mpsc::sync_channel::<Key>(30_000);
    thread::scope(|scope| {
        let pool = &pool;
        scope.spawn(move || {
            let mut places = HashMap::<u64, u32>::new();
            for i in 0..300_000u32 {
                let key = put(pool, "some text");
                places
                    .entry(u64::from(key) & 0xff_ffff)
                    .and_modify(|n| *n += 1)
                    .or_insert(i);
                to.send(key).unwrap();
            }
            assert!(places.len() <= 44_992);
        });
        scope.spawn(move || {
            let mut some = vec![];
            for key in from {
                some.push(key);
                if some.len() == 1000 {
                    some.drain(..)
                        .rev()
                        .for_each(|key| assert!(pool.clear(key)));
                }
            }
        });
    });
}

/// While the owner creates, others free its places, in the same groups at once: each of the one shard's places is found again at the end.
#[test]
fn no_place_is_lost() {
    const PLACES: usize = 44_992;
    let pool = Limits::new().shards(1).open::<u8Cell>().unwrap();
    for live in [64, 640, PLACES] {
        thread::scope(|scope| {
            let pool = &pool;
            let (to, from): (Vec<_>, Vec<_>) =
                (0..3).map(|_| mpsc::sync_channel::<Key>(live)).unzip();
            for from in from {
                scope.spawn(move || from.iter().for_each(|key| assert!(pool.clear(key))));
            }
            for i in 0..200_000 {
                match pool.create() {
                    Ok(filling) if i % 50 == 0 => drop(filling),
                    Ok(filling) => to[i % 3].send(filling.publish()).unwrap(),
                    Err(error) => assert_eq!(error, CreateError::Full),
                }
            }
        });
        let keys: Vec<Key> = (0..PLACES)
            .map(|_| pool.create().unwrap().publish())
            .collect();
        assert_eq!(pool.create().err(), Some(CreateError::Full));
        thread::scope(|scope| {
            scope.spawn(|| {
                keys.iter()
                    .step_by(2)
                    .for_each(|&key| assert!(pool.clear(key)))
            });
        });
        keys.iter()
            .skip(1)
            .step_by(2)
            .for_each(|&key| assert!(pool.clear(key)));
    }
}
