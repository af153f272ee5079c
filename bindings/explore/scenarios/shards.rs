//! Who owns a shard: threads from their first create until they exit, and `Lane`s; shards that are full, and those that a pool opens.
use crate::world::{
    key_of, look, number_of, published, release, settled, shape, unopened, Scenario, Tracked, World,
};
use explorer::{call, Mutex};
use pardz::{CreateError, Filling, Key, Lane, Limits, OwnedLane, Pool};
use std::sync::Arc;

pub fn all() -> Vec<Scenario> {
    let one = || published(shape(1, 1, 1), 1);
    let one_of_two = || published(shape(1, 2, 1), 1);
    let mut all = vec![
        Scenario::new(
            "first-creates",
            || published(shape(2, 1, 1), 0),
            [make_and_clear; 3],
            settled,
        )
        .bounded(2),
        Scenario::new(
            "one-shard",
            || published(shape(1, 1, 1), 0),
            [make_and_clear; 2],
            settled,
        ),
        Scenario::new(
            "hand-over",
            one_of_two,
            [make_and_tell, clear_what_is_told, make_once],
            settled,
        )
        .bounded(3),
        Scenario::new(
            "hand-over-full",
            one,
            [clear_and_make, clear_and_make],
            settled,
        ),
        Scenario::new(
            "exit-and-return",
            || published(shape(1, 1, 1), 0),
            [make_and_tell, clear_what_is_told, make_once],
            settled,
        )
        .bounded(3),
        Scenario::new(
            "left-and-told",
            one,
            [make_if_told, |w| clear_and_tell(w, 0)],
            settled,
        ),
        Scenario::new(
            "left-two-and-told",
            two_left,
            [make_if_told, |w| clear_and_tell(w, 1)],
            settled,
        ),
        Scenario::new(
            "further",
            || published(shape(2, 1, 1), 0),
            [make_two, make_once],
            settled,
        ),
        Scenario::new(
            "further-told",
            || published(shape(2, 1, 1), 0),
            [make_two_and_again, clear_first_and_tell],
            settled,
        ),
        Scenario::new(
            "for-each-other",
            || published(shape(2, 1, 1), 0),
            [|w| clear_each_other(w, 0), |w| clear_each_other(w, 1)],
            settled,
        ),
        Scenario::new(
            "opened-at-once",
            || unopened(shape(2, 1, 1)),
            [make_once, make_once, guess],
            settled,
        )
        .bounded(2),
        Scenario::new(
            "second-page",
            || published(shape(1, 1, 2), 1),
            [make_once, guess_second_page, guess],
            settled,
        ),
        Scenario::new(
            "census",
            || published(shape(1, 2, 1), 1),
            [count, clear_and_make],
            settled,
        ),
        Scenario::new(
            "keys",
            || published(shape(1, 2, 1), 1),
            [walk, clear_and_make],
            settled,
        ),
        Scenario::new(
            "reserve",
            || published(shape(1, 1, 2), 1),
            [reserve_and_make, |w| w.clear_at(0)],
            settled,
        ),
        Scenario::new(
            "reserve-returned",
            || published(shape(1, 2, 1), 1),
            [reserve_if_told, |w| clear_and_tell(w, 0)],
            settled,
        ),
    ];
    all.extend([
        Scenario::new(
            "lanes",
            || published(shape(2, 1, 1), 0),
            [by_lane, by_lane, make_once],
            settled,
        )
        .bounded(2),
        Scenario::new("lane-full", one, [by_lane, |w| w.clear_at(0)], settled),
        Scenario::new(
            "lane-moves",
            moved,
            [
                Moved::make_and_clear,
                Moved::make_and_clear,
                Moved::clear_first,
            ],
            Moved::settle,
        ),
        Scenario::new(
            "lane-and-thread",
            || Moved {
                world: published(shape(2, 2, 1), 0),
                lane: Mutex::new(None),
            },
            [Moved::hand_on_and_clear, Moved::make_and_clear],
            Moved::end,
        ),
        Scenario::new(
            "lane-beside-thread",
            || published(shape(2, 1, 1), 0),
            [by_lane, make_and_clear],
            settled,
        ),
        Scenario::new(
            "second-segment",
            many_lanes,
            [ManyLanes::make, ManyLanes::make],
            drop,
        ),
        Scenario::new(
            "places-within-limits",
            few_places,
            [FewPlaces::open_too_many, FewPlaces::open_one],
            drop,
        ),
    ]);
    all
}

fn make_once(world: &World) {
    let _ = world.make(7);
}

/// Whoever has a shard finds a place in it that he gives back.
fn make_and_clear(world: &World) {
    match world.make(1) {
        Ok(key) => {
            assert!(world.look(key, 1) && world.clear(key));
            let again = world.make(2).expect("a place that this thread gave back");
            assert!(world.clear(again));
        }
        Err(error) => assert_eq!(error, CreateError::NoLane),
    }
}

/// What is published stays when the thread exits.
fn make_and_tell(world: &World) {
    if let Ok(key) = world.make(7) {
        world.tell(0, key);
    }
}

fn clear_what_is_told(world: &World) {
    if let Some(key) = world.told(0) {
        assert!(world.look(key, 7) && world.clear(key));
    }
}

fn clear_and_make(world: &World) {
    world.clear_at(0);
    let _ = world.make(7);
}

fn clear_and_tell(world: &World, index: usize) {
    world.clear_at(index);
    world.tell(0, world.keys[index]);
}

/// Nobody owns the shard, of which a place is free from when it is told on.
fn make_if_told(world: &World) {
    let is_told = world.told(0).is_some();
    let made = world.make(7);
    assert!(
        made.is_ok() || !is_told,
        "{made:?} though a place came back"
    );
}

/// Two shards that nobody owns are full: the first one stands behind the other one where they are looked for.
fn two_left() -> World {
    let world = published(shape(2, 1, 1), 2);
    assert_ne!(u64::from(world.keys[0]), u64::from(world.keys[1]));
    world
}

/// A full shard is joined by a further one.
fn make_two(world: &World) {
    for number in 1..3 {
        let made = world.make(number);
        assert_ne!(made, Err(CreateError::NoLane), "a thread has a shard");
    }
}

/// Two shards have a place each, of which the first one is given back.
fn make_two_and_again(world: &World) {
    let [first, _] = [1, 2].map(|number| world.make(number).expect("a place"));
    world.tell(0, first);
    let is_told = world.told(1).is_some();
    let made = world.make(3);
    assert!(
        made.is_ok() || !is_told,
        "{made:?} though a place came back"
    );
}

fn clear_first_and_tell(world: &World) {
    let key = world.wait_for(0);
    assert!(world.clear(key));
    world.tell(1, key);
}

/// Threads with shards give places of each other's back.
fn clear_each_other(world: &World, own: usize) {
    if let Ok(key) = world.make(7) {
        world.tell(own, key);
    }
    if let Some(other) = world.told(1 - own) {
        assert!(world.clear(other));
    }
    let _ = world.make(7);
}

/// A thread without a shard gives a place back, of whichever shard it is.
fn guess(world: &World) {
    if let Some(object) = world.get(key_of(1, 0)) {
        assert!([7, number_of(0)].contains(&object.get()));
        world.clear(key_of(1, 0));
        release(Some(object));
    }
}

/// A place of the second page of the first shard.
fn guess_second_page(world: &World) {
    world.look(key_of(1, 1 << 12), 7);
}

/// The places of a census add up.
fn count(world: &World) {
    let census = call("census", || world.pool.census());
    assert_eq!(census.total(), 2);
    assert!(census.present <= 2 && census.retired == 0);
}

/// A walk finds keys that are there, or were.
fn walk(world: &World) {
    for key in world.pool.keys() {
        assert!([world.keys[0], key_of(1, 1), key_of(2, 0)].contains(&key));
        if let Some(object) = world.get(key) {
            assert!([7, number_of(0)].contains(&object.get()));
            release(Some(object));
        }
    }
}

/// After a reserve a create opens no page.
fn reserve_and_make(world: &World) {
    call("reserve", || world.pool.reserve(2)).expect("two places");
    let before = world.pool.census().unopened;
    let _ = world.make(2).expect("a reserved place");
    let _ = world.make(3).expect("a reserved place");
    assert_eq!((before, world.pool.census().unopened), (0, 0));
}

/// What others gave back is reserved too.
fn reserve_if_told(world: &World) {
    let is_told = world.told(0).is_some();
    let reserved = world.pool.reserve(2);
    assert!(
        reserved.is_ok() || !is_told,
        "{reserved:?} though a place came back"
    );
    if reserved.is_ok() {
        for number in 2..4 {
            let _ = world.make(number).expect("a reserved place");
        }
    }
}

fn by_lane(world: &World) {
    let Ok(lane) = call("lane", || world.pool.lane()) else {
        return;
    };
    if let Ok(mut filling) = call("create by a lane", || lane.create()) {
        assert_eq!(filling.get(), 0, "an object isn't empty");
        filling.set(8);
        let key = filling.publish();
        world.note();
        let object = lane.get(key).expect("published");
        assert!(world.count(call("clear by a lane", || lane.clear(key))));
        look(&object, 8);
        drop(object);
        assert!(lane.create().is_ok(), "a place that this lane gave back");
    }
    call("drop of a lane", || drop(lane));
}

/// A `Lane`, which two threads have one after the other, or neither at once.
struct Moved {
    world: World,
    lane: Mutex<Option<OwnedLane<Tracked>>>,
}

fn moved() -> Moved {
    let world = published(shape(1, 2, 1), 1);
    let lane = Mutex::new(world.pool.lane_owned().ok());
    Moved { world, lane }
}

impl Moved {
    fn make_and_clear(&self) {
        let Some(lane) = self.lane.lock().expect("no panic").take() else {
            return;
        };
        let mut filling = lane.create().expect("a place");
        assert_eq!(filling.get(), 0, "an object isn't empty");
        filling.set(9);
        let key = filling.publish();
        self.world.note();
        assert!(self.world.count(lane.clear(key)));
        *self.lane.lock().expect("no panic") = Some(lane);
    }

    fn clear_first(&self) {
        self.world.clear_at(0);
    }

    /// Whoever hands a lane on has its shard no more.
    fn hand_on_and_clear(&self) {
        let lane = self.world.pool.lane_owned().expect("a shard");
        let key = lane.create().expect("a place").publish();
        self.world.note();
        *self.lane.lock().expect("no panic") = Some(lane);
        assert!(self.world.clear(key));
    }

    fn end(self) {
        drop(self.lane);
        self.world.settle();
    }

    fn settle(self) {
        drop(self.lane);
        assert!(self.world.settle() >= 1);
    }
}

/// A pool of which each shard of the first segment is had.
struct ManyLanes {
    pool: &'static Pool<Tracked>,
    lanes: Vec<Lane<'static, Tracked>>,
}

fn many_lanes() -> ManyLanes {
    let pool = Limits::new().first_page(1).open::<Tracked>();
    let pool: &'static Pool<Tracked> = Box::leak(Box::new(pool.expect("limits")));
    let lanes = (0..64).map(|_| pool.lane().expect("a shard"));
    ManyLanes {
        lanes: lanes.collect(),
        pool,
    }
}

// SAFETY: the threads leave the lanes alone.
unsafe impl Sync for ManyLanes {}

impl ManyLanes {
    /// A key of the second segment is found.
    fn make(&self) {
        let key = self
            .pool
            .put_with(|object| object.set(5))
            .expect("a further segment");
        assert_eq!(u64::from(key) >> 56, 1, "its tag");
        look(&self.pool.get(key).expect("published"), 5);
    }
}

impl Drop for ManyLanes {
    fn drop(&mut self) {
        self.lanes.clear();
        // SAFETY: it came from a box, and nobody has it any more.
        drop(unsafe { Box::from_raw(std::ptr::from_ref(self.pool).cast_mut()) });
    }
}

/// A pool of four places at most, and two lanes, of which the first one has three of them.
struct FewPlaces {
    lanes: [Mutex<Option<OwnedLane<Tracked>>>; 2],
}

fn few_places() -> FewPlaces {
    let limits = Limits::new().shards(2).first_page(1).places(4);
    let pool: Arc<Pool<Tracked>> = Arc::new(limits.open().expect("limits"));
    let lanes = [(); 2].map(|()| pool.lane_owned().expect("a shard"));
    for _ in 0..3 {
        let _ = lanes[0].create().expect("a place").publish();
    }
    FewPlaces {
        lanes: lanes.map(|lane| Mutex::new(Some(lane))),
    }
}

impl FewPlaces {
    fn create(&self, lane: usize) -> Result<Key, CreateError> {
        // (It stays had: a lane that came home would be joined by the other one.)
        let had = self.lanes[lane].lock().expect("no panic").take();
        let had = had.expect("one thread has it");
        let made = had.create().map(Filling::publish);
        *self.lanes[lane].lock().expect("no panic") = Some(had);
        made
    }

    /// Its third page would have four.
    fn open_too_many(&self) {
        assert_eq!(self.create(0), Err(CreateError::Full));
    }

    /// A page with the last one is within the limit.
    fn open_one(&self) {
        assert!(self.create(1).is_ok(), "a place within the limit");
    }
}
