//! Each request for memory is refused in turn: the call answers it, what was there before is there still, and in the end no memory
//! is lost.
#[path = "refused/heap.rs"]
mod heap;

use heap::{again, takes_none, tried, BLOCKS, GRANTED, REFUSED, REQUESTS};
use pardz::{Buffer, Census, Clear, CreateError, Key, Lane, MemoryRefused, Pool, Ref, Shape};
use std::alloc::{GlobalAlloc, Layout, System};
use std::cell::Cell;
use std::panic::{self, AssertUnwindSafe};

const SHAPE: Shape = Shape {
    lanes: 3,
    first_page: 2,
    pages: 2,
    last_generation: u32::MAX,
    tag: 5,
};

/// How many requests a run makes, of which the one behind so many granted ones is refused. None where it has no more than those. At most
/// so many blocks are left then.
fn run(granted: u32, scenario: fn(), left: isize) -> Option<u32> {
    GRANTED.set(granted);
    REFUSED.set(0);
    REQUESTS.set(0);
    let blocks = BLOCKS.get();
    scenario();
    GRANTED.set(u32::MAX);
    assert!(
        BLOCKS.get() <= blocks + left,
        "behind {granted} granted requests: memory is lost"
    );
    (REFUSED.get() == 1).then(|| REQUESTS.get())
}

/// Refuses each request of a scenario in turn.
fn refuse_each(scenario: fn(), least: u32) {
    let mut granted = 0;
    while run(granted, scenario, 0).is_some() {
        granted += 1;
    }
    assert!(granted >= least, "only {granted} requests were refused");
}

/// Contents that another lane reads, under their keys.
fn reads<'p>(lane: &Lane<'p>, key: Key, content: &[u8]) -> Ref<'p> {
    let reference = takes_none(|| lane.get(key)).expect("it is published");
    assert_eq!(reference[..], *content);
    reference
}

/// Each place of a lane has a buffer once, of both pages; another lane reads it, as it is cleared.
fn each_place(one: &Lane, other: &Lane) {
    let mut keys = [None; 6];
    for (number, key) in keys.iter_mut().enumerate() {
        let content = [number as u8; 40];
        let mut filling = again(CreateError::Memory, || one.create());
        again(MemoryRefused, || filling.append(&content[..3]));
        assert_eq!(filling[..], content[..3]);
        again(MemoryRefused, || filling.append(&content[3..]));
        assert_eq!(filling[..], content);
        *key = Some(takes_none(|| filling.publish()));
    }
    for (number, key) in keys.iter().flatten().enumerate() {
        let reference = reads(other, *key, &[number as u8; 40]);
        assert!(takes_none(|| one.clear(*key)));
        assert!(takes_none(|| one.get(*key)).is_none());
        assert_eq!(reference[..], [number as u8; 40]);
        takes_none(|| drop(reference));
    }
}

fn buffers() {
    let pool = takes_none(|| Pool::<Buffer>::open(SHAPE)).expect("a right shape");
    let one = again(CreateError::Memory, || pool.lane());
    let other = again(CreateError::Memory, || pool.lane());
    each_place(&one, &other);
    // Once more, in the rooms of the first, by a copy of the content.
    let key = again(CreateError::Memory, || one.put(&[9; 40]));
    let left = again(CreateError::Memory, || one.create());
    takes_none(|| std::mem::forget(left));
    drop(again(CreateError::Memory, || one.create()));
    let mut held = again(CreateError::Memory, || one.create());
    again(MemoryRefused, || held.append(&[8; 90]));
    let held = takes_none(|| held.downgrade());
    assert!(takes_none(|| other.clear(key)));
    assert_eq!(held[..], [8; 90]);
    takes_none(|| drop(held));
    drop((one, other));
    let census = takes_none(|| pool.close());
    let Census {
        free,
        unopened,
        filling,
        present,
        marked,
        retired,
    } = census;
    assert_eq!(free + unopened + filling + present + marked + retired, 18);
    let others = (unopened, filling, present, marked, retired);
    assert_eq!(others, (12, 1, 1, 0, 0));
}

fn texts() {
    let pool = Pool::<String>::new();
    let lane = again(CreateError::Memory, || pool.lane());
    for text in ["short", "a text that is longer", "x", "y"] {
        let key = again(CreateError::Memory, || lane.put(text));
        assert_eq!(*takes_none(|| lane.get(key)).expect("published"), text);
    }
    drop(lane);
    assert_eq!(takes_none(|| pool.close()).present, 4);
}

/// An object without memory of its own.
#[derive(Default)]
struct Point([u64; 24]);

impl pardz::Clear for Point {
    fn clear(&mut self) {
        self.0 = [0; 24];
    }
}

fn objects() {
    let pool = Pool::<Point>::open(SHAPE).expect("a right shape");
    let lane = again(CreateError::Memory, || pool.lane());
    for number in 1..7 {
        let key = again(CreateError::Memory, || {
            lane.put_with(|point| point.0[7] = number)
        });
        assert_eq!(
            takes_none(|| lane.get(key)).expect("published").0[7],
            number
        );
        if number > 3 {
            assert!(takes_none(|| lane.clear(key)));
        }
    }
    drop(lane);
    assert_eq!(takes_none(|| pool.close()).present, 3);
}

/// Calls of a thread, from its first on. (Where the list of its shards finds no memory, it has a shard for the one call, which succeeds.)
fn calls() {
    fn create(pool: &Pool<Point>, number: u64) -> Key {
        let put = || pool.put_with(|point| point.0[7] = number);
        match tried(put) {
            Err(error) => {
                assert_eq!((error, REFUSED.get()), (CreateError::Memory, 1));
                put().expect("the same call once more")
            }
            Ok(key) => key,
        }
    }
    let pool = Pool::<Point>::new();
    let keys = [1, 2, 3, 4].map(|number| create(&pool, number));
    let mut filling = again(CreateError::Memory, || pool.create_owned());
    filling.0[7] = 5;
    let key = takes_none(|| filling.publish());
    for (number, key) in (1..).zip(keys.into_iter().chain([key])) {
        let (point, owned) = (pool.get(key), takes_none(|| pool.get_owned(key)));
        let clones = takes_none(|| (point.clone(), owned.clone()));
        assert!(takes_none(|| pool.clear(key)));
        assert_eq!(clones.0.expect("published").0[7], number);
        assert_eq!(clones.1.expect("published").0[7], number);
        takes_none(|| drop((point, owned)));
    }
    assert_eq!(takes_none(|| pool.close()).present, 0);
}

/// Objects that wait to be emptied, where the list of them finds no memory: they are emptied at once.
fn chains() {
    let pool: &Pool<Chained> = Box::leak(Box::new(Pool::new()));
    let (lane, mut next) = (pool.lane().expect("memory"), None);
    for _ in 0..20 {
        let fill = |it: &mut Chained| it.0 = Some((pool, next.take()));
        next = Some(lane.put_with(fill).expect("a place"));
    }
    drop(lane);
    assert!(tried(|| pool.clear(next.expect("20"))));
    assert_eq!(pool.len(), 0);
    // SAFETY: it was leaked above, and nobody borrows it any more.
    drop(unsafe { Box::from_raw(std::ptr::from_ref(pool).cast_mut()) });
}

/// Clears the next of a chain as it is cleared.
#[derive(Default)]
struct Chained(Option<(&'static Pool<Chained>, Option<Key>)>);

impl Clear for Chained {
    fn clear(&mut self) {
        if let Some((pool, Some(next))) = self.0.take() {
            assert!(pool.clear(next));
        }
    }
}

/// A buffer that is cleared keeps its memory.
#[test]
fn a_cleared_buffer_takes_no_memory() {
    let mut buffer = Buffer::new();
    buffer.append(&[1; 4096]).expect("memory for the bytes");
    takes_none(|| buffer.clear());
    assert_eq!(buffer.len(), 0);
    assert!(buffer.capacity() >= 4096);
    takes_none(|| buffer.append(&[2; 4096])).expect("the room of the first");
    assert_eq!(buffer[..], [2; 4096]);
}

/// A place keeps the memory of its object.
#[test]
fn the_next_filling_of_a_place_takes_no_memory() {
    let shape = Shape {
        lanes: 1,
        first_page: 1,
        pages: 1,
        tag: 0,
        ..SHAPE
    };
    let pool = Pool::<Buffer>::open(shape).expect("memory for a pool");
    let lane = pool.lane().expect("a lane");
    let mut filling = lane.create().expect("a place");
    filling.append(&[1; 4096]).expect("memory for the bytes");
    assert!(lane.clear(filling.publish()));
    let mut filling = takes_none(|| lane.create()).expect("the same place");
    assert!(filling.is_empty());
    takes_none(|| filling.append(&[2; 4096])).expect("the room of the first");
}

/// A thousand objects ask for memory for their pages alone, and nothing where room was reserved.
#[test]
fn objects_stand_side_by_side() {
    let pool = Pool::<Point>::new();
    let lane = pool.lane().expect("memory");
    let before = REQUESTS.get();
    let put = || lane.create().expect("a place").publish();
    let keys: Vec<Key> = (0..1000).map(|_| tried(put)).collect();
    assert_eq!(REQUESTS.get() - before, 5, "64 + 128 + 256 + 512 + 1024");
    assert!(keys.iter().all(|key| takes_none(|| lane.clear(*key))));
    let again: Vec<Key> = keys.iter().map(|_| takes_none(put)).collect();
    assert_eq!(again.len(), 1000);
    let pool = Pool::<Point>::new();
    pool.reserve(1000).expect("memory");
    let put = |_| takes_none(|| pool.put_with(|_| ()).expect("a place"));
    let keys: Vec<Key> = (0..1000).map(put).collect();
    assert!(keys.iter().all(|key| pool.clear(*key)));
    takes_none(|| pool.reserve(1000)).expect("they are free again");
    let lane = pool.lane().expect("memory");
    lane.reserve(500).expect("memory");
    let put = |_| takes_none(|| lane.put_with(|_| ()).expect("a place"));
    assert_eq!((0..500).map(put).collect::<Vec<Key>>().len(), 500);
}

/// An object that can't be emptied.
#[derive(Default)]
struct Stuck;

impl Clear for Stuck {
    fn clear(&mut self) {
        panic::panic_any(());
    }
}

/// An object that is dropped as its `clear` panicked leaves its memory to the next one.
#[test]
fn a_block_whose_object_was_dropped_has_the_next() {
    let shape = Shape {
        first_page: 64,
        pages: 1,
        ..SHAPE
    };
    let pool = Pool::<Stuck>::open(shape).expect("memory for a pool");
    let lane = pool.lane().expect("a lane");
    let lose = |count: u32| {
        let blocks = BLOCKS.get();
        for _ in 0..count {
            // (More than the first chunk of a lane has blocks for.)
            let keys = [(); 40].map(|()| lane.create().expect("a place").publish());
            for key in keys {
                let cleared = panic::catch_unwind(AssertUnwindSafe(|| lane.clear(key)));
                assert!(cleared.is_err());
            }
        }
        BLOCKS.get() - blocks
    };
    lose(1);
    assert_eq!(lose(200), 0, "more memory was asked for");
}

/// The text of a leaked filling is dropped at the close.
#[test]
fn a_leaked_text_is_dropped() {
    let blocks = BLOCKS.get();
    let pool = Pool::<String>::open(SHAPE).expect("memory for a pool");
    let lane = pool.lane().expect("a lane");
    for text in ["published", "leaked"] {
        let mut filling = lane.create().expect("a place");
        filling.push_str(text);
        if text == "leaked" {
            std::mem::forget(filling);
        } else {
            _ = filling.publish();
        }
    }
    drop(lane);
    assert_eq!(pool.close().filling, 1);
    assert_eq!(BLOCKS.get(), blocks);
}

/// The thread keeps three blocks until it ends: the list of its shards, a share of the pool's registry, and what std has of its exit.
#[test]
fn each_request_of_calls_is_refused() {
    let tried = (0..).take_while(|granted| {
        let granted = *granted;
        let run = std::thread::spawn(move || run(granted, calls, 3));
        run.join().expect("no panic").is_some()
    });
    assert!(tried.count() >= 6);
}

#[test]
fn each_request_of_chains_is_refused() {
    refuse_each(chains, 1);
}

/// A thread whose list of shards finds no memory leaves its shard behind each create.
#[test]
fn a_shard_that_cannot_be_kept_is_left() {
    let shape = Shape { lanes: 1, ..SHAPE };
    let pool = Pool::<Buffer>::open(shape).expect("a right shape");
    drop(pool.lane().expect("memory"));
    let calls = || {
        GRANTED.set(0);
        assert!(tried(|| pool.create()).is_ok());
        REFUSED.get()
    };
    let refused = std::thread::scope(|scope| scope.spawn(calls).join());
    assert_eq!(refused.expect("no panic"), 1);
    assert!(pool.lane().is_ok(), "the thread has kept none");
}

#[test]
fn each_request_of_buffers_is_refused() {
    refuse_each(buffers, 10);
}

#[test]
fn each_request_of_texts_is_refused() {
    refuse_each(texts, 6);
}

#[test]
fn each_request_of_objects_is_refused() {
    refuse_each(objects, 5);
}

/// A buffer that is emptied is used again, with its memory.
#[test]
fn an_owned_cycle_takes_no_memory() {
    let pool = Pool::<Buffer>::new();
    let cycle = |is_read: bool| {
        let mut filling = pool.create_owned().expect("a place");
        filling.append(&[7; 64]).expect("memory for the bytes");
        let key = filling.publish();
        let reader = is_read.then(|| pool.get_owned(key).expect("published"));
        assert!(pool.clear(key));
        drop(reader);
    };
    cycle(true);
    takes_none(|| cycle(true));
    takes_none(|| cycle(false));
    takes_none(|| cycle(true));
}

/// A buffer that another lane clears comes home to the lane that made it, with its memory: also where that lane reads it last.
#[test]
fn what_another_lane_clears_comes_home() {
    let shape = Shape {
        lanes: 2,
        ..Shape::default()
    };
    let pool = Pool::<Buffer>::open(shape).expect("memory for a pool");
    let (maker, other) = (
        pool.lane().expect("a lane"),
        pool.lane().expect("a second lane"),
    );
    let cycle = |is_read: bool| {
        let key = maker.put_with(|buffer| buffer.append(&[7; 64]).expect("memory for the bytes"));
        let key = key.expect("a place");
        let reader = is_read.then(|| other.get(key).expect("published"));
        assert!(other.clear(key));
        drop(reader);
    };
    let rounds = || (0..200).for_each(|round| cycle(round % 2 == 0));
    rounds();
    takes_none(rounds);
}
