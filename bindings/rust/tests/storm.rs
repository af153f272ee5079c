//! Threads that create, get, hold, clear and drop at random, with atomic words alone between them: so a thread sanitizer sees all that
//! orders them. Each object says whose key it has.
use pardz::{Clear, Key, Limits, OwnedRef, Pool};
use std::sync::atomic::{AtomicU64, Ordering::Relaxed};
use std::thread;

#[derive(Default)]
struct Noted {
    key: u64,
    text: Vec<u8>,
}

impl Clear for Noted {
    fn clear(&mut self) {
        assert_ne!(self.key, 0, "it is emptied once");
        self.key = 0;
        self.text.clear();
    }
}

fn fill(noted: &mut Noted, key: u64) {
    assert_eq!((noted.key, noted.text.len()), (0, 0), "it is empty");
    noted.key = key;
    noted.text.extend_from_slice(b"some");
}

fn look(noted: &Noted, key: Key) {
    assert_eq!((noted.key, &noted.text[..]), (u64::from(key), &b"some"[..]));
}

static KEYS: [AtomicU64; 16] = [const { AtomicU64::new(0) }; 16];

/// (Relaxed: what matters the pool itself must order.)
fn run(pool: &Pool<Noted>, number: u64, calls: u64) {
    let mut random = 0x9e37_79b9_7f4a_7c15 ^ (number + 1) << 20;
    let mut held: Vec<OwnedRef<Noted>> = vec![];
    for _ in 0..calls {
        random ^= random << 13;
        random ^= random >> 7;
        random ^= random << 17;
        let place = &KEYS[random as usize % 16];
        let seen = Key::try_from(place.load(Relaxed)).ok();
        match (random >> 32 & 7, seen) {
            (0 | 1, _) => create(pool, place, random >> 40 & 1 == 0),
            (2 | 3, Some(key)) => _ = pool.clear(key),
            (4, Some(key)) => held.extend(pool.get_owned(key)),
            (5, Some(key)) => held.extend(pool.get(key).map(|it| it.clone().into_owned())),
            (_, Some(key)) => {
                if let Some(it) = pool.get(key) {
                    look(&it, key);
                }
            }
            (_, None) => {}
        }
        held.iter().for_each(|it| look(it, it.key()));
        if held.len() > 6 {
            held.swap_remove(random as usize % 6);
        }
    }
}

fn create(pool: &Pool<Noted>, place: &AtomicU64, drops_one: bool) {
    if drops_one {
        let mut filling = pool.create().expect("a place");
        fill(&mut filling, 1);
    }
    let mut filling = pool.create().expect("a place");
    let key = filling.key().into();
    fill(&mut filling, key);
    place.store(filling.publish().into(), Relaxed);
}

#[test]
fn a_storm() {
    for round in 0..12u64 {
        let last = if round % 2 == 0 { u32::MAX } else { 50 };
        let pool: &Pool<Noted> = Box::leak(Box::new(
            Limits::new()
                .shards(6)
                .last_generation(last)
                .open()
                .unwrap(),
        ));
        KEYS.iter().for_each(|key| key.store(0, Relaxed));
        for part in 0..2 {
            let threads: Vec<_> = (0..5)
                .map(|number| thread::spawn(move || run(pool, number + 10 * round + part, 4000)))
                .collect();
            threads.into_iter().for_each(|it| it.join().unwrap());
        }
    }
}

/// Owned handles that end anywhere after the pool.
#[test]
fn handles_end_beside_their_pool() {
    for _ in 0..200 {
        let pool = Pool::<Noted>::new();
        let keys: Vec<Key> = (0..8)
            .map(|_| pool.put_with(|it| fill(it, 1)).unwrap())
            .collect();
        let handles: Vec<Vec<_>> = (0..4)
            .map(|_| {
                keys.iter()
                    .map(|&key| pool.get_owned(key).unwrap())
                    .collect()
            })
            .collect();
        keys[..4].iter().for_each(|&key| assert!(pool.clear(key)));
        let ends = |handles: Vec<OwnedRef<Noted>>| {
            for it in handles {
                assert_eq!(it.text.len(), 4);
                drop(it.clone());
            }
        };
        let threads: Vec<_> = handles
            .into_iter()
            .map(|handles| thread::spawn(move || ends(handles)))
            .collect();
        drop(pool);
        threads.into_iter().for_each(|it| it.join().unwrap());
    }
}
