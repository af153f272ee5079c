//! Objects that are used again, by all ways to call; a filling that is forgotten.
use pardz::{Buffer, Clear, Pool, Shape};
use std::mem;
use std::sync::atomic::{AtomicUsize, Ordering::SeqCst};
use std::thread;

fn shape(lanes: u32, first_page: u32) -> Shape {
    Shape {
        lanes,
        first_page,
        pages: 1,
        ..Shape::default()
    }
}

/// An object that says how many were made, of those with the same number.
#[derive(Debug)]
struct Made<const N: usize>(u64);

static MADE: [AtomicUsize; 4] = [const { AtomicUsize::new(0) }; 4];

impl<const N: usize> Default for Made<N> {
    fn default() -> Self {
        MADE[N].fetch_add(1, SeqCst);
        Made(0)
    }
}

impl<const N: usize> Clear for Made<N> {
    fn clear(&mut self) {
        self.0 = 0;
    }
}

fn fill<const N: usize>(object: &mut Made<N>) {
    assert_eq!(object.0, 0);
    object.0 = 7;
}

#[test]
fn objects_are_used_again() {
    let pool = Pool::<Made<0>>::open(shape(1, 4)).unwrap();
    let lane = pool.lane().unwrap();
    for _ in 0..50 {
        assert!(lane.clear(lane.put_with(fill).unwrap()));
    }
    drop(lane);
    for _ in 0..50 {
        assert!(pool.clear(pool.put_with(fill).unwrap()));
    }
    assert_eq!(MADE[0].load(SeqCst), 1);
}

/// An object stays in its place, whoever empties it, and is used there again.
#[test]
fn objects_stay_in_their_places() {
    let pool = Pool::<Made<2>>::open(shape(2, 4)).unwrap();
    let (lane, other) = (pool.lane().unwrap(), pool.lane().unwrap());
    for _ in 0..50 {
        assert!(other.clear(lane.put_with(fill).unwrap()));
        let key = lane.put_with(fill).unwrap();
        thread::scope(|scope| {
            scope.spawn(|| assert!(pool.clear(key)));
        });
    }
    assert!(MADE[2].load(SeqCst) <= 4);
}

#[test]
fn a_forgotten_object_keeps_its_place() {
    let pool = Pool::<Made<3>>::open(shape(1, 2)).unwrap();
    let lane = pool.lane().unwrap();
    let mut filling = lane.create().unwrap();
    fill(&mut filling);
    mem::forget(filling);
    assert!(lane.clear(lane.put_with(fill).unwrap()));
    assert_eq!(MADE[3].load(SeqCst), 2);
    drop(lane);
    assert_eq!(pool.close().filling, 1);
}

/// By a clear, or by the drop of the last reference.
#[test]
fn an_owned_buffer_is_empty_when_it_is_handed_out() {
    let pool = Pool::<Buffer>::new();
    for round in 0..200 {
        let mut filling = pool.create_owned().unwrap();
        assert!(filling.is_empty());
        filling.append(&[7; 64]).unwrap();
        let key = filling.publish();
        let reader = (round % 2 == 0).then(|| pool.get_owned(key).unwrap());
        assert!(pool.clear(key));
        assert!(reader.map_or(true, |bytes| *bytes == [7; 64]));
        assert!(pool.get(key).is_none());
    }
    let census = pool.close();
    assert_eq!((census.present, census.marked, census.filling), (0, 0, 0));
}
