//! Pools by the wide limits: 64 lanes, and sixteen pages, of which each has twice the places of the one before, up to 4,096.
mod common;

use common::{at_once, limit, lock};
use pardz::{Clear, CreateError, Field, Key, Lane, OpenError, Pool, Shape};
use std::sync::Mutex;

const MOST_LANES: u32 = 64;

/// 64, 128 .. 2,048, and ten pages of 4,096.
const PLACES_OF_A_LANE: u32 = 44_992;

/// All 64 lanes have 2.9 million places. Without optimization a pool of four serves.
const LANES: u32 = if cfg!(debug_assertions) {
    4
} else {
    MOST_LANES
};

#[derive(Debug, Default)]
struct Number(u64);

impl Clear for Number {
    fn clear(&mut self) {
        self.0 = 0;
    }
}

fn shape(lanes: u32, first_page: u32, pages: u32) -> Shape {
    Shape {
        lanes,
        first_page,
        pages,
        ..Shape::default()
    }
}

fn opened(lanes: u32, first_page: u32, pages: u32) -> Pool<Number> {
    Pool::open(shape(lanes, first_page, pages)).expect("a pool")
}

fn put(lane: &Lane<Number>, number: u64) -> Key {
    let key = lane.put_with(|object| object.0 = number);
    key.expect("a place")
}

/// The places of a lane, by their number in each key: shard, page and slot.
fn place(key: Key) -> u64 {
    u64::from(key) & 0xff_ffff
}

#[test]
fn the_limits_of_a_shape() {
    for (wrong, field) in [
        (shape(65, 64, 1), Field::Lanes),
        (shape(1, 64, 17), Field::Pages),
        (shape(1, 128, 1), Field::FirstPage),
    ] {
        let refused = Pool::<Number>::open(wrong).err();
        assert_eq!(refused, Some(OpenError::Shape(field)), "{wrong:?}");
    }
    let default = Pool::<Number>::open(Shape::default()).expect("a pool");
    assert_eq!(default.close().unopened, 4 * (32 + 64 + 128));
    for (first_page, places) in [(64, PLACES_OF_A_LANE), (1, 4095 + 4 * 4096)] {
        let pool = opened(1, first_page, 16);
        assert_eq!(pool.census().unopened, places);
        let closed = pool.close();
        assert_eq!((closed.unopened, closed.free), (places, 0));
    }
}

/// Each place of a lane is given once, page by page; what is counted of it is what a close counts.
#[test]
fn each_page_of_a_lane() {
    let pool = opened(1, 64, 16);
    let lane = pool.lane().unwrap();
    let pages = (0..16).map(|page| (page, (64 << page).min(4096)));
    let places = pages.flat_map(|(page, size)| (0..size).map(move |slot| page << 12 | slot));
    let mut count = 0;
    for expected in places {
        assert_eq!(place(put(&lane, expected)), expected);
        count += 1;
        if count % 9001 == 0 {
            assert_eq!(pool.census().present, count);
        }
    }
    assert_eq!(count, PLACES_OF_A_LANE);
    assert_eq!(lane.create().err(), Some(CreateError::Full));
    drop(lane);
    let counted = pool.census();
    assert_eq!((counted.present, counted.unopened), (count, 0));
    assert_eq!(pool.close(), counted);
}

/// Finds a key whose object has the number of its place, and clears it.
fn take_and_clear(lane: &Lane<Number>, key: Key) {
    let object = lane.get(key).expect("published");
    assert_eq!(object.0, place(key));
    assert!(lane.clear(key), "by one thread alone");
    assert!(lane.get(key).is_none());
    assert_eq!(object.0, place(key), "as long as there is a reference");
}

/// Each of 64 threads has a lane, and finds and clears what others published.
#[test]
fn sixty_four_threads_have_lanes() {
    const ROUNDS: u64 = 100;
    let _limit = limit();
    // (Of each lane 64 objects may be passed, and each other thread may have one.)
    let pool = opened(MOST_LANES, 64, 2);
    let passed: Vec<_> = (0..MOST_LANES).map(|_| Mutex::new(None::<Key>)).collect();
    let lanes: Vec<_> = (0..).map_while(|_| pool.lane().ok()).collect();
    at_once((0..).zip(lanes).map(|(number, lane)| {
        let passed = &passed;
        move || {
            for round in 0..ROUNDS {
                let mut filling = lane.create().expect("a place");
                filling.0 = place(filling.key());
                let key = filling.publish();
                let to = (number + round) % u64::from(MOST_LANES);
                let before = lock(&passed[to as usize]).replace(key);
                before
                    .into_iter()
                    .for_each(|key| take_and_clear(&lane, key));
            }
        }
    }));
    let lane = pool.lane().expect("all came home");
    for left in passed {
        take_and_clear(
            &lane,
            left.into_inner().unwrap().expect("each was passed one"),
        );
    }
    drop(lane);
    let closed = pool.close();
    assert_eq!((closed.present, closed.marked, closed.filling), (0, 0, 0));
    assert_eq!(closed.free + closed.unopened, MOST_LANES * (64 + 128));
}

/// Shards beyond the first 64 have the next tag: what they have is walked over and counted too.
#[test]
fn shards_of_two_tags() {
    let pool = Pool::<Number>::new();
    let lanes = (0..=MOST_LANES).map(|_| pool.lane().expect("memory"));
    let lanes: Vec<Lane<Number>> = lanes.collect();
    let keys: Vec<Key> = lanes.iter().map(|lane| put(lane, 1)).collect();
    assert_eq!(u64::from(*keys.last().expect("65 keys")) >> 56, 1);
    // (A walk that stays at one place has no end.)
    let walked: Vec<Key> = pool.keys().take(keys.len() + 1).collect();
    assert_eq!(walked, keys);
    assert_eq!(pool.len(), keys.len());
    drop(lanes);
    assert_eq!(pool.close().present, MOST_LANES + 1);
}

/// Fills all places of these lanes. Each object has the number of its place.
fn fill(lanes: &[Lane<Number>]) -> Vec<Key> {
    let mut keys = Vec::new();
    for lane in lanes {
        for _ in 0..PLACES_OF_A_LANE {
            let mut filling = lane.create().expect("a place");
            filling.0 = place(filling.key());
            keys.push(filling.publish());
        }
        assert_eq!(lane.create().err(), Some(CreateError::Full));
    }
    keys
}

/// Finds and clears all, by one lane.
fn empty(lane: &Lane<Number>, keys: &[Key]) {
    for key in keys {
        assert_eq!(lane.get(*key).expect("published").0, place(*key));
        assert!(lane.clear(*key));
    }
}

/// The widest pool is filled and emptied by so many threads: each clears what the next one published.
fn fill_and_empty(threads: usize) {
    let _limit = limit();
    let pool = opened(LANES, 64, 16);
    let of_each = LANES as usize / threads;
    let share = |_| {
        (0..of_each)
            .map_while(|_| pool.lane().ok())
            .collect::<Vec<_>>()
    };
    let shares: Vec<_> = (0..threads).map(share).collect();
    let filled = at_once(
        shares
            .into_iter()
            .map(|lanes| move || (fill(&lanes), lanes)),
    );
    let (mut keys, mut shares): (Vec<_>, Vec<_>) = filled.into_iter().unzip();
    let all = LANES * PLACES_OF_A_LANE;
    let census = pool.census();
    assert_eq!((census.present, census.free + census.unopened), (all, 0));
    keys.rotate_left(1);
    at_once(keys.iter().zip(&mut shares).map(|(keys, lanes)| {
        let lane = lanes.last_mut().expect("each has one");
        move || empty(lane, keys)
    }));
    assert_eq!(pool.census().free, all);
    // Each place is given once more, of those that came back too.
    for lane in shares.iter().flatten() {
        (0..100).for_each(|number| _ = put(lane, number));
    }
    drop(shares);
    let closed = pool.close();
    assert_eq!(
        (closed.present, closed.free),
        (100 * LANES, all - 100 * LANES)
    );
}

#[test]
fn all_places_by_one_thread() {
    fill_and_empty(1);
}

#[test]
fn all_places_by_four_threads() {
    fill_and_empty(4);
}
