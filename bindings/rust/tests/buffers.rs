//! Buffers: what calls answer, and what other threads can do meanwhile.
#[path = "buffers/beside.rs"]
mod beside;
mod common;
#[path = "buffers/counts.rs"]
mod counts;

use common::{limit, Gate};
use pardz::{Buffer, CreateError, Field, GetError, Key, Lane, OpenError, Pool, Shape};
use std::io::{self, Read, Write};
use std::sync::atomic::{AtomicBool, Ordering::SeqCst};
use std::sync::{mpsc, Arc, Mutex, RwLock};
use std::thread;

/// Lanes of 12 places each.
fn shape(lanes: u32) -> Shape {
    Shape {
        lanes,
        first_page: 4,
        pages: 2,
        ..Shape::default()
    }
}

/// Lanes of one place each.
fn single(lanes: u32) -> Shape {
    Shape {
        lanes,
        first_page: 1,
        pages: 1,
        ..Shape::default()
    }
}

fn put(lane: &Lane, bytes: &[u8]) -> Key {
    let mut filling = lane.create().unwrap();
    filling.append(bytes).unwrap();
    filling.publish()
}

#[test]
fn wrong_shapes() {
    type Change = fn(&mut Shape);
    let changes: [(Change, Field); 9] = [
        (|shape| shape.lanes = 0, Field::Lanes),
        (|shape| shape.lanes = 65, Field::Lanes),
        (|shape| shape.lanes = u32::MAX, Field::Lanes),
        (|shape| shape.first_page = 3, Field::FirstPage),
        (|shape| shape.first_page = 128, Field::FirstPage),
        (|shape| shape.pages = 0, Field::Pages),
        (|shape| shape.pages = 17, Field::Pages),
        (|shape| shape.last_generation = 0, Field::LastGeneration),
        (|shape| shape.tag = 256, Field::Tag),
    ];
    for (change, field) in changes {
        let mut wrong = Shape::default();
        change(&mut wrong);
        let opened = Pool::<Buffer>::open(wrong);
        assert_eq!(opened.err(), Some(OpenError::Shape(field)), "{wrong:?}");
    }
    let largest = Shape {
        lanes: 16,
        first_page: 64,
        pages: 6,
        ..Shape::default()
    };
    assert_eq!(
        Pool::<Buffer>::open(largest).unwrap().close().unopened,
        64_512
    );
}

#[test]
fn lanes_are_taken_and_come_home() {
    let pool = Arc::new(Pool::<Buffer>::open(shape(3)).unwrap());
    let first = pool.lane().unwrap();
    let second = pool.lane_owned().unwrap();
    let third = pool.lane().unwrap();
    let shard = |key: Key| u64::from(key) >> 16 & 0xff;
    assert_eq!(shard(first.create().unwrap().key()), 0);
    assert_eq!(shard(second.create().unwrap().key()), 1);
    assert_eq!(shard(third.create().unwrap().key()), 2);
    assert!(pool.lane().is_err() && pool.lane_owned().is_err());
    drop(second);
    let again = pool.lane().unwrap();
    assert_eq!(shard(again.create().unwrap().key()), 1);
    drop((first, third, again));
    assert_eq!(Arc::into_inner(pool).unwrap().close().free, 12);
}

#[test]
fn a_lane_that_panicked_comes_home() {
    let pool = Arc::new(Pool::<Buffer>::open(shape(1)).unwrap());
    let lane = pool.lane_owned().unwrap();
    let _limit = limit();
    let ended = thread::spawn(move || {
        let _filling = lane.create().unwrap();
        panic!("on purpose");
    });
    assert!(ended.join().is_err());
    assert!(pool.lane().is_ok());
    let census = Arc::into_inner(pool).unwrap().close();
    assert_eq!((census.filling, census.free), (0, 4));
}

#[test]
fn a_buffer_is_filled_in_all_ways() {
    let pool = Pool::<Buffer>::open(shape(1)).unwrap();
    let lane = pool.lane().unwrap();
    let mut filling = lane.create().unwrap();
    assert!(filling.is_empty());
    filling.append(b"").unwrap();
    write!(filling, "{}", 12).unwrap();
    filling.append(b"34").unwrap();
    assert_eq!(&filling[..], b"1234");
    let room = filling.room(6).unwrap();
    assert_eq!(room, [0; 6]);
    room[..3].copy_from_slice(b"567");
    assert_eq!(&filling[..], b"1234");
    filling.wrote(2);
    assert_eq!(&filling[..], b"123456");
    let room = filling.room(4).unwrap();
    assert_eq!(room, [0; 4]);
    room[0] = b'x';
    filling.append(b"7").unwrap();
    assert_eq!(filling.read_from(&mut &b"8901"[..], 2).unwrap(), 2);
    assert!(filling.room(0).unwrap().is_empty());
    filling.wrote(0);
    filling.room(100).unwrap()[0] = b'x';
    filling.extend(*b"0a");
    filling.extend(b"b");
    std::fmt::Write::write_char(&mut filling, 'é').unwrap();
    filling.truncate(11);
    filling.truncate(100);
    filling.flush().unwrap();
    let bytes = filling.downgrade();
    assert_eq!(&bytes[..], b"1234567890a");
    let slice: &[u8] = bytes.as_ref();
    assert_eq!(slice.len(), 11);
    assert!(*bytes == *b"1234567890a" && *bytes != b"1"[..]);
    assert_eq!(format!("{:?}", *bytes), r#""1234567890a""#);
}

/// Generic code writes to a filling itself.
#[test]
fn a_filling_is_a_writer() {
    fn to_io(mut to: impl Write) {
        to.write_all(b"ab").unwrap();
        assert_eq!(to.write(b"c").unwrap(), 1);
        let rows = [io::IoSlice::new(b"d"), io::IoSlice::new(b"e")];
        assert!(to.write_vectored(&rows).unwrap() > 0);
        to.flush().unwrap();
    }
    fn to_fmt(mut to: impl std::fmt::Write) {
        write!(to, "{}", 1).unwrap();
        to.write_char('x').unwrap();
    }
    fn extended(mut to: impl Extend<u8>) {
        to.extend([7, 8]);
    }
    let pool = Pool::<Buffer>::open(shape(1)).unwrap();
    let lane = pool.lane().unwrap();
    let mut filling = lane.create().unwrap();
    to_io(&mut filling);
    to_fmt(&mut filling);
    assert!(filling.starts_with(b"abcd") && filling.ends_with(b"1x"));
    extended(lane.create().unwrap());
    let texts = Pool::<String>::open(shape(1)).unwrap();
    let lane = texts.lane().unwrap();
    let mut text = lane.create().unwrap();
    to_fmt(&mut text);
    text.extend(["y", "z"]);
    text.truncate(3);
    assert_eq!(*text, "1xy");
    let text = text.downgrade();
    let part: &str = text.as_ref();
    assert_eq!((part, text.to_string().as_str()), ("1xy", "1xy"));
}

#[test]
#[should_panic(expected = "9 bytes of a room of 8")]
fn more_than_the_room() {
    let pool = Pool::<Buffer>::open(shape(1)).unwrap();
    let lane = pool.lane().unwrap();
    let mut filling = lane.create().unwrap();
    filling.room(8).unwrap();
    filling.wrote(9);
}

#[test]
#[should_panic(expected = "1 bytes of a room of 0")]
fn a_room_that_an_append_ended() {
    let pool = Pool::<Buffer>::open(shape(1)).unwrap();
    let lane = pool.lane().unwrap();
    let mut filling = lane.create().unwrap();
    filling.room(8).unwrap();
    filling.append(b"x").unwrap();
    filling.wrote(1);
}

/// A reader that lies, and one that calls the lane meanwhile.
#[test]
fn readers_of_all_kinds() {
    struct Liar;
    impl Read for Liar {
        fn read(&mut self, to: &mut [u8]) -> io::Result<usize> {
            Ok(to.len() + 1)
        }
    }
    struct Caller<'l>(&'l Lane<'l>, Vec<Key>);
    impl Read for Caller<'_> {
        fn read(&mut self, to: &mut [u8]) -> io::Result<usize> {
            for _ in 0..8 {
                self.1.push(put(self.0, &[7; 200]));
            }
            to.fill(9);
            self.1.drain(..).for_each(|key| assert!(self.0.clear(key)));
            Ok(to.len())
        }
    }
    let pool = Pool::<Buffer>::open(shape(1)).unwrap();
    let lane = pool.lane().unwrap();
    let mut filling = lane.create().unwrap();
    assert_eq!(
        filling
            .read_from(&mut Caller(&lane, Vec::new()), 50)
            .unwrap(),
        50
    );
    assert_eq!(&filling[..], [9; 50]);
    assert!(filling
        .read_from(&mut io::empty(), 50)
        .is_ok_and(|count| count == 0));
    let lied = std::panic::catch_unwind(std::panic::AssertUnwindSafe(|| {
        filling.read_from(&mut Liar, 50)
    }));
    assert!(lied.is_err());
    assert_eq!(&filling[..], [9; 50]);
}

#[test]
fn a_filling_is_not_found() {
    let pool = Pool::<Buffer>::open(shape(2)).unwrap();
    let (lane, other) = (pool.lane().unwrap(), pool.lane().unwrap());
    let mut filling = lane.create().unwrap();
    filling.append(b"not yet").unwrap();
    let key = filling.key();
    for lane in [&lane, &other] {
        assert!(lane.get(key).is_none());
        assert!(!lane.clear(key));
    }
    assert_eq!(filling.publish(), key);
    assert_eq!(&other.get(key).unwrap()[..], b"not yet");
    for left in [false, true] {
        let filling = lane.create().unwrap();
        let key = filling.key();
        if left {
            std::mem::forget(filling);
        } else {
            drop(filling);
        }
        assert!(other.get(key).is_none() && !other.clear(key));
    }
}

/// As many fillings as the lane has places.
#[test]
fn many_fillings_at_once() {
    let pool = Pool::<Buffer>::open(Shape {
        first_page: 32,
        ..shape(1)
    })
    .unwrap();
    let lane = pool.lane().unwrap();
    let mut fillings: Vec<_> = (0..96).map(|_| lane.create().unwrap()).collect();
    assert_eq!(lane.create().err(), Some(CreateError::Full));
    for (number, filling) in fillings.iter_mut().enumerate() {
        filling.append(&[number as u8; 100]).unwrap();
    }
    for (number, filling) in fillings.into_iter().enumerate().rev() {
        assert_eq!(&filling[..], [number as u8; 100]);
        assert_eq!(&filling.downgrade()[..], [number as u8; 100]);
    }
}

#[test]
fn several_references_at_once() {
    let pool = Pool::<Buffer>::open(shape(2)).unwrap();
    let (lane, other) = (pool.lane().unwrap(), pool.lane().unwrap());
    let keys: Vec<_> = (0..5).map(|number| put(&lane, &[number; 40])).collect();
    let references: Vec<_> = keys
        .iter()
        .chain(&keys)
        .map(|key| other.get(*key).unwrap())
        .collect();
    let more: Vec<_> = references.to_vec();
    for (first, second) in references[..5].iter().zip(&references[5..]) {
        assert_eq!(first.as_ptr(), second.as_ptr());
    }
    assert!(keys.iter().all(|key| lane.clear(*key)));
    let late = references[0].try_clone().unwrap();
    drop(more);
    assert_eq!(late[..], [0; 40]);
    drop(late);
    let mut copied = lane.create().unwrap();
    for (number, bytes) in references.iter().enumerate() {
        assert_eq!(&bytes[..], [(number % 5) as u8; 40]);
        copied.append(bytes).unwrap();
    }
    assert_eq!(copied.len(), 400);
    drop(copied);
    drop(references);
    drop((lane, other));
    let census = pool.close();
    assert_eq!(
        (census.free, census.unopened, census.present, census.filling),
        (12, 12, 0, 0)
    );
}

/// That of a downgrade is the first of them. Beyond the most, nothing but a further one is refused, and the first that ends makes room.
#[test]
#[should_panic(expected = "268,435,456 references")]
#[ignore = "it takes a second where it is optimized, and half a minute else"]
fn too_many_references() {
    let pool = Pool::<Buffer>::open(shape(1)).unwrap();
    let first = pool.create().unwrap().downgrade();
    let key = first.key();
    for _ in 2..1 << 28 {
        std::mem::forget(pool.get(key).expect("published"));
    }
    let last = first.try_clone().expect("there is room for one");
    assert_eq!(first.try_clone().err(), Some(GetError::References));
    assert_eq!(pool.try_get_owned(key).err(), Some(GetError::References));
    drop(last);
    std::mem::forget(pool.try_get(key).expect("there is room again"));
    assert!(pool.contains(key));
    _ = pool.get(key);
}

#[test]
fn an_empty_buffer() {
    let pool = Pool::<Buffer>::open(shape(1)).unwrap();
    let lane = pool.lane().unwrap();
    let first = lane.create().unwrap().downgrade();
    assert_eq!(&first[..], b"");
    assert_eq!(&lane.get(first.key()).unwrap()[..], b"");
}

#[test]
fn wrong_keys_find_nothing() {
    let pool = Pool::<Buffer>::open(Shape { tag: 5, ..shape(2) }).unwrap();
    let other = Pool::<Buffer>::open(Shape { tag: 6, ..shape(2) }).unwrap();
    let (lane, stranger) = (pool.lane().unwrap(), other.lane().unwrap());
    let key = put(&lane, b"here");
    assert!(stranger.get(key).is_none() && !stranger.clear(key));
    let wrong = (0..64)
        .map(|bit| u64::from(key) ^ 1 << bit)
        .chain([1, u64::MAX]);
    for number in wrong {
        let key = Key::try_from(number).unwrap();
        assert!(lane.get(key).is_none() && !lane.clear(key));
    }
    assert!(lane.clear(key));
}

#[test]
fn reuse_keeps_the_memory() {
    let pool = Pool::<Buffer>::open(single(1)).unwrap();
    let lane = pool.lane().unwrap();
    let first = put(&lane, &[1; 1000]);
    let at = lane.get(first).unwrap().as_ptr();
    assert!(lane.clear(first));
    let mut again = lane.create().unwrap();
    assert!(again.is_empty());
    again.append(&[2; 1000]).unwrap();
    let second = again.publish();
    assert_ne!(first, second);
    assert!(lane.get(first).is_none());
    assert_eq!(lane.get(second).unwrap().as_ptr(), at);
}
