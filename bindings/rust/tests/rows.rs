//! A worked row as calls of two threads: each has a key of its own in a word that the other reads.
mod common;

use common::limit;
use pardz::{Buffer, Key, Lane, Pool, Ref, Shape};
use std::sync::atomic::{AtomicU64, Ordering::SeqCst};
use std::thread;

const ROUNDS: u32 = 10_000;

/// What is read under a key is that key's bytes, the lowest first.
fn shows_its_key(reference: &Ref<'_>, key: Key) {
    assert_eq!(reference[..], u64::from(key).to_le_bytes());
}

/// A key of the lane's own, from its create to the release of its last reference.
fn use_own(lane: &Lane, word: &AtomicU64) {
    let mut filling = lane.create().unwrap();
    let number = u64::from(filling.key());
    filling.append(&number.to_le_bytes()).unwrap();
    let key = filling.publish();
    word.store(number, SeqCst);
    let reference = lane.get(key).expect("a key that is published");
    shows_its_key(&reference, key);
    assert!(lane.clear(key));
    assert!(lane.get(key).is_none(), "{key} is found behind its clear");
}

/// The other lane's key is read, where it is found.
fn use_other(lane: &Lane, word: &AtomicU64) {
    let Ok(key) = Key::try_from(word.load(SeqCst)) else {
        return;
    };
    if let Some(reference) = lane.get(key) {
        shows_its_key(&reference, key);
    }
}

#[test]
fn two_threads_read_each_others_keys() {
    let pool = Pool::<Buffer>::open(Shape {
        lanes: 2,
        first_page: 64,
        pages: 6,
        ..Shape::default()
    })
    .unwrap();
    let words = [AtomicU64::new(0), AtomicU64::new(0)];
    let _limit = limit();
    thread::scope(|scope| {
        let threads = [0, 1].map(|number| {
            let (lane, words) = (pool.lane().unwrap(), &words);
            scope.spawn(move || {
                for _ in 0..ROUNDS {
                    use_own(&lane, &words[number]);
                    use_other(&lane, &words[1 - number]);
                }
            })
        });
        for it in threads {
            it.join().unwrap();
        }
    });
    let census = pool.close();
    assert_eq!(
        (
            census.filling,
            census.present,
            census.marked,
            census.retired
        ),
        (0, 0, 0, 0)
    );
    assert_eq!(census.free + census.unopened, 8_064);
}
