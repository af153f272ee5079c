//! What other threads do meanwhile.
use super::*;
use std::sync::mpsc::{Receiver, SyncSender};

/// In each round a key is there, which another thread clears as this one gets it and reads.
fn reads_beside_a_clear(lane: &Lane, gate: &Gate, key: &Mutex<Key>, rounds: usize) {
    let member = gate.enter();
    for round in 0..rounds {
        member.wait();
        let key = *key.lock().unwrap();
        let first = lane.get(key).expect("it isn't cleared yet");
        // In every second round it is the readers that let go last.
        let held = (round % 2 == 0).then_some(first);
        member.wait();
        while let Some(bytes) = lane.get(key) {
            assert_eq!(&bytes[..], [round as u8; 64]);
            member.go_on();
        }
        assert!(!lane.clear(key));
        if let Some(bytes) = held {
            assert_eq!(&bytes[..], [round as u8; 64]);
        }
        member.wait();
    }
}

/// Three threads get and read as one clears: each sees all of the bytes, or nothing.
#[test]
fn a_get_beside_a_clear() {
    const ROUNDS: usize = 500;
    let pool = Pool::<Buffer>::open(shape(4)).unwrap();
    let (gate, key) = (Gate::new(4), Mutex::new(Key::try_from(1).unwrap()));
    let lanes = [(); 3].map(|()| pool.lane().unwrap());
    let lane = pool.lane().unwrap();
    thread::scope(|scope| {
        let (gate, key) = (&gate, &key);
        for other in lanes {
            scope.spawn(move || reads_beside_a_clear(&other, gate, key, ROUNDS));
        }
        let member = gate.enter();
        for round in 0..ROUNDS {
            *key.lock().unwrap() = put(&lane, &[round as u8; 64]);
            member.wait();
            member.wait();
            assert!(lane.clear(*key.lock().unwrap()));
            member.wait();
        }
    });
    drop(lane);
    let census = pool.close();
    assert_eq!(census.free + census.unopened, 48);
}

#[test]
fn of_clears_at_once_one_says_yes() {
    const ROUNDS: usize = 500;
    let pool = Pool::<Buffer>::open(shape(4)).unwrap();
    let lane = pool.lane().unwrap();
    let keys: Vec<_> = (0..12).map(|_| put(&lane, b"x")).collect();
    drop(lane);
    let (gate, keys) = (Gate::new(4), RwLock::new(keys));
    let lanes = [(); 4].map(|()| pool.lane().unwrap());
    let cleared: usize = thread::scope(|scope| {
        let threads = lanes.map(|lane| {
            let (gate, keys) = (&gate, &keys);
            scope.spawn(move || {
                let member = gate.enter();
                let mut cleared = 0;
                for _ in 0..ROUNDS {
                    member.wait();
                    cleared += keys
                        .read()
                        .unwrap()
                        .iter()
                        .filter(|key| lane.clear(**key))
                        .count();
                    if member.wait() {
                        for key in keys.write().unwrap().iter_mut() {
                            *key = put(&lane, b"x");
                        }
                    }
                }
                cleared
            })
        });
        threads
            .into_iter()
            .map(|thread| thread.join().unwrap())
            .sum()
    });
    assert_eq!(cleared, ROUNDS * 12);
}

/// While another thread has a reference a cleared buffer stays, and its place isn't used again.
#[test]
fn a_clear_while_another_thread_holds() {
    let pool = Pool::<Buffer>::open(single(2)).unwrap();
    let lane = pool.lane().unwrap();
    let _limit = limit();
    let key = put(&lane, b"held");
    let (held, hold) = mpsc::channel();
    let other = pool.lane().unwrap();
    thread::scope(|scope| {
        // (Dropped here where this thread panics, so that the other one doesn't wait.)
        let (let_go, go) = mpsc::channel();
        scope.spawn(move || {
            let bytes = other.get(key).unwrap();
            held.send(()).unwrap();
            go.recv().unwrap();
            assert_eq!(&bytes[..], b"held");
            drop(bytes);
            held.send(()).unwrap();
        });
        hold.recv().unwrap();
        assert!(lane.clear(key));
        assert!(lane.get(key).is_none());
        assert_eq!(lane.create().err(), Some(CreateError::Full));
        let_go.send(()).unwrap();
        hold.recv().unwrap();
        assert_ne!(put(&lane, b"again"), key);
    });
}

/// A filling becomes a reference as another thread clears its key.
#[test]
fn a_downgrade_beside_a_clear() {
    const ROUNDS: usize = 500;
    let pool = Pool::<Buffer>::open(shape(2)).unwrap();
    let (gate, key) = (Gate::new(2), Mutex::new(Key::try_from(1).unwrap()));
    let (lane, other) = (pool.lane().unwrap(), pool.lane().unwrap());
    thread::scope(|scope| {
        let (gate, key) = (&gate, &key);
        scope.spawn(move || {
            let member = gate.enter();
            for _ in 0..ROUNDS {
                member.wait();
                let key = *key.lock().unwrap();
                while !other.clear(key) {
                    member.go_on();
                    thread::yield_now();
                }
                member.wait();
            }
        });
        let member = gate.enter();
        for round in 0..ROUNDS {
            let mut filling = lane.create().unwrap();
            filling.append(&[round as u8; 30]).unwrap();
            *key.lock().unwrap() = filling.key();
            member.wait();
            let bytes = filling.downgrade();
            member.wait();
            assert_eq!(&bytes[..], [round as u8; 30]);
            assert!(lane.get(bytes.key()).is_none());
        }
    });
    drop(lane);
    let census = pool.close();
    assert_eq!((census.present, census.marked, census.filling), (0, 0, 0));
}

/// A clear on another lane gives the place back to the shard that it is of, and to no other.
#[test]
fn a_clear_elsewhere_gives_the_place_back() {
    let pool = Pool::<Buffer>::open(single(3)).unwrap();
    let (lane, mut away, mut third) = (
        pool.lane().unwrap(),
        pool.lane().unwrap(),
        pool.lane().unwrap(),
    );
    let _limit = limit();
    let mut keys = vec![put(&lane, b"first")];
    for round in 1..100 {
        assert_eq!(lane.create().err(), Some(CreateError::Full));
        let last = keys[round - 1];
        away = thread::scope(|scope| {
            let clear = move || {
                assert!(away.clear(last));
                away
            };
            scope.spawn(clear).join().unwrap()
        });
        std::mem::swap(&mut away, &mut third);
        keys.push(put(&lane, b"again"));
        assert!(away.get(last).is_none());
    }
    assert_eq!(lane.create().err(), Some(CreateError::Full));
    let place = |key: Key| u64::from(key) & 0xff_ffff;
    assert!(keys.iter().all(|key| place(*key) == place(keys[0])));
    assert_ne!(place(away.create().unwrap().key()), place(keys[0]));
}

/// Fills and passes on, and reads and clears what comes. Answers how many it read.
fn passes_on(lane: &Lane, to: SyncSender<Key>, from: Receiver<Key>, rounds: u64) -> u64 {
    let mut read = 0;
    for _ in 0..rounds {
        if let Ok(mut filling) = lane.create() {
            let number = u64::from(filling.key());
            let fill = vec![(number >> 24) as u8; (number >> 24) as usize % 90];
            filling.append(&fill).unwrap();
            filling.append(&number.to_le_bytes()).unwrap();
            let key = filling.publish();
            if to.try_send(key).is_err() {
                assert!(lane.clear(key));
            }
        }
        while let Ok(key) = from.try_recv() {
            read += check(lane, key);
        }
    }
    drop(to);
    while let Ok(key) = from.recv() {
        read += check(lane, key);
    }
    read
}

/// Four threads fill, pass on, read and clear; what a key's bytes are is told by the key.
#[test]
fn four_threads_pass_keys_round() {
    const ROUNDS: u64 = 10_000;
    let pool = Pool::<Buffer>::open(Shape {
        first_page: 32,
        ..shape(4)
    })
    .unwrap();
    let (mut to, from): (Vec<_>, Vec<_>) = (0..4).map(|_| mpsc::sync_channel::<Key>(16)).unzip();
    to.rotate_left(1);
    let _limit = limit();
    let lanes = [(); 4].map(|()| pool.lane().unwrap());
    let read: u64 = thread::scope(|scope| {
        let parts = to.into_iter().zip(from).zip(lanes);
        let threads: Vec<_> = parts
            .map(|((to, from), lane)| scope.spawn(move || passes_on(&lane, to, from, ROUNDS)))
            .collect();
        let read = threads.into_iter().map(|thread| thread.join().unwrap());
        read.sum()
    });
    let census = pool.close();
    assert_eq!(census.free + census.unopened, 4 * 96);
    assert!(read > 0);
}

fn check(lane: &Lane, key: Key) -> u64 {
    let bytes = lane.get(key).unwrap();
    assert!(lane.clear(key));
    let number = u64::from(key);
    let (fill, tail) = bytes.split_at(bytes.len() - 8);
    assert_eq!(tail, number.to_le_bytes());
    assert_eq!(
        fill,
        vec![(number >> 24) as u8; (number >> 24) as usize % 90]
    );
    1
}

#[test]
fn no_two_threads_have_one_lane() {
    let pool = Pool::<Buffer>::open(shape(4)).unwrap();
    let is_taken: [AtomicBool; 4] = std::array::from_fn(|_| AtomicBool::new(false));
    let start = Gate::new(6);
    thread::scope(|scope| {
        for _ in 0..6 {
            scope.spawn(|| {
                start.enter().wait();
                for _ in 0..20_000 {
                    let Ok(lane) = pool.lane() else { continue };
                    let key = u64::from(lane.create().unwrap().key());
                    let is_taken = &is_taken[(key >> 16 & 0xff) as usize];
                    assert!(!is_taken.swap(true, SeqCst));
                    is_taken.store(false, SeqCst);
                }
            });
        }
    });
}
