//! What scenarios share: an object whose accesses are looked at, a pool with what its threads did, and what a scenario is.
use explorer::{call, reads, spin_loop, writes, AtomicU64, Extent, Ordering, Plan, Report, Work};
use pardz::{Census, Clear, CreateError, Filling, Key, OwnedRef, Pool, Ref, Shape};
use std::collections::HashSet;
use std::iter;
use std::sync::atomic::{AtomicUsize, Ordering::SeqCst};
use std::sync::Arc;

/// How many objects there are.
static ALIVE: AtomicUsize = AtomicUsize::new(0);
/// How many were emptied since the schedule began.
static EMPTIED: AtomicUsize = AtomicUsize::new(0);

/// An object whose reads and writes the explorer looks at.
#[derive(Debug)]
pub struct Tracked {
    number: u64,
    /// Not 0, as memory that nobody has filled is.
    mark: u64,
}

impl Default for Tracked {
    fn default() -> Tracked {
        ALIVE.fetch_add(1, SeqCst);
        Tracked { number: 0, mark: 1 }
    }
}

impl Tracked {
    pub fn set(&mut self, number: u64) {
        writes(self, "an object");
        self.number = number;
    }

    pub fn get(&self) -> u64 {
        reads(self, "an object");
        assert_eq!(self.mark, 1, "what is read is no object");
        self.number
    }
}

impl Clear for Tracked {
    fn clear(&mut self) {
        self.set(0);
        EMPTIED.fetch_add(1, SeqCst);
    }
}

impl Drop for Tracked {
    fn drop(&mut self) {
        writes(self, "an object that is dropped");
        assert_eq!(self.mark, 1, "what is dropped is no object");
        ALIVE.fetch_sub(1, SeqCst);
    }
}

/// How many objects there are.
pub fn alive() -> usize {
    ALIVE.load(SeqCst)
}

pub fn emptied() -> usize {
    EMPTIED.load(SeqCst)
}

/// How far a scenario is run.
#[derive(Clone, Copy, Default)]
pub struct Within {
    /// So many schedules at most.
    pub most: Option<u64>,
    /// So many looks of each may find an old value.
    pub old_looks: usize,
}

/// A scenario, and which of its schedules are run.
pub struct Scenario {
    pub name: &'static str,
    pub extent: Extent,
    /// Whether memory is left that is of no object, as a payload that the crate forgets.
    forgets: bool,
    run: Box<dyn Fn(Plan<'_>) -> Report>,
}

impl Scenario {
    /// `set_up` gives what the works share; each is done by a thread of its own, and `finish` looks at what is left. No object is to be alive
    /// then.
    pub fn new<W: Send + Sync + 'static, const N: usize>(
        name: &'static str,
        set_up: fn() -> W,
        works: [Work<W>; N],
        finish: fn(W),
    ) -> Scenario {
        let begin = move || {
            EMPTIED.store(0, SeqCst);
            set_up()
        };
        let run = move |plan: Plan<'_>| {
            let end = |world| {
                finish(world);
                assert_eq!(ALIVE.swap(0, SeqCst), 0, "objects are left");
            };
            explorer::explore(plan, begin, &works, end)
        };
        Scenario {
            name,
            extent: Extent::All,
            forgets: false,
            run: Box::new(run),
        }
    }

    /// With so many preemptions at most, where all schedules are too many.
    pub fn bounded(self, preemptions: u32) -> Scenario {
        let extent = Extent::Preemptions(preemptions);
        Scenario { extent, ..self }
    }

    /// The crate forgets a payload, or a thread a filling.
    pub fn forgetting(self) -> Scenario {
        Scenario {
            forgets: true,
            ..self
        }
    }

    pub fn explore(&self, within: Within) -> Report {
        let plan = Plan {
            name: self.name,
            extent: self.extent,
            forgets: self.forgets,
            most: within.most,
            old_looks: within.old_looks,
        };
        (self.run)(plan)
    }
}

/// A pool, and what the threads did.
pub struct World {
    pub pool: Arc<Pool<Tracked>>,
    shape: Shape,
    /// The keys that were published before the threads began.
    pub keys: Vec<Key>,
    /// What threads tell each other.
    told: [AtomicU64; 2],
    made: AtomicUsize,
    cleared: AtomicUsize,
}

pub fn shape(lanes: u32, first_page: u32, pages: u32) -> Shape {
    Shape {
        lanes,
        first_page,
        pages,
        ..Shape::default()
    }
}

/// How many places the shards of a shape have.
fn places(shape: Shape) -> usize {
    let of_a_shard = (shape.first_page << shape.pages) - shape.first_page;
    (shape.lanes * of_a_shard) as usize
}

/// The number of the object that stands under `keys[index]`.
pub fn number_of(index: usize) -> u64 {
    100 + index as u64
}

/// A pool with so many objects, in a shard that nobody has.
pub fn published(shape: Shape, count: usize) -> World {
    let pool = Pool::<Tracked>::open(shape).expect("a shape");
    let lane = pool.lane().expect("a shard");
    let publish = |index| {
        let mut filling = lane.create().expect("a place");
        filling.set(number_of(index));
        filling.publish()
    };
    let keys: Vec<Key> = (0..count).map(publish).collect();
    let distinct: HashSet<&Key> = keys.iter().collect();
    assert_eq!(distinct.len(), count, "a key comes again");
    if count == places(shape) {
        // (So the shard knows that it is full.)
        assert_eq!(lane.create().err(), Some(CreateError::Full));
    }
    drop(lane);
    World::of(pool, shape, keys)
}

/// A pool without memory yet.
pub fn unopened(shape: Shape) -> World {
    World::of(Pool::open(shape).expect("a shape"), shape, Vec::new())
}

impl World {
    fn of(pool: Pool<Tracked>, shape: Shape, keys: Vec<Key>) -> World {
        World {
            pool: Arc::new(pool),
            shape,
            keys,
            told: Default::default(),
            made: AtomicUsize::new(0),
            cleared: AtomicUsize::new(0),
        }
    }
}

/// A reference finds the object of this number.
pub fn look(object: &Tracked, number: u64) {
    assert_eq!(object.get(), number, "another object");
}

impl World {
    /// The world, for what a thread leaves to its end: it goes when its threads have ended.
    pub fn lasting(&self) -> &'static World {
        // SAFETY: the world is dropped behind the last thread's end, and nothing that a thread has outlives that.
        unsafe { &*std::ptr::from_ref(self) }
    }

    /// Counts a clear that said yes.
    pub fn count(&self, cleared: bool) -> bool {
        self.cleared.fetch_add(usize::from(cleared), SeqCst);
        cleared
    }

    /// Counts an object that a thread published.
    pub fn note(&self) {
        self.made.fetch_add(1, SeqCst);
    }

    pub fn cleared(&self) -> usize {
        self.cleared.load(SeqCst)
    }

    /// Tells whoever waits for it.
    pub fn tell(&self, word: usize, key: Key) {
        self.told[word].store(key.into(), Ordering::Release);
    }

    /// The key that another thread tells.
    pub fn wait_for(&self, word: usize) -> Key {
        loop {
            match self.told(word) {
                Some(key) => return key,
                None => spin_loop(),
            }
        }
    }

    /// The key that another thread has told, if it has.
    pub fn told(&self, word: usize) -> Option<Key> {
        Key::try_from(self.told[word].load(Ordering::Acquire)).ok()
    }

    pub fn get(&self, key: Key) -> Option<Ref<'_, Tracked>> {
        call("get", || self.pool.get(key))
    }

    /// A get finds the object of this number, or none.
    pub fn look(&self, key: Key, number: u64) -> bool {
        let found = self.get(key);
        if let Some(object) = &found {
            look(object, number);
        }
        let is_found = found.is_some();
        release(found);
        is_found
    }

    /// The same by an owned handle.
    pub fn look_owned(&self, key: Key, number: u64) {
        if let Some(object) = call("get_owned", || self.pool.get_owned(key)) {
            look(&object, number);
            release_owned(object);
        }
    }

    /// A get of one of the first keys.
    pub fn look_at(&self, index: usize) -> bool {
        self.look(self.keys[index], number_of(index))
    }

    /// Clears a key, which is found no more if this call says so.
    pub fn clear(&self, key: Key) -> bool {
        let cleared = call("clear", || self.pool.clear(key));
        assert!(
            !cleared || !self.pool.contains(key),
            "a cleared key is found"
        );
        self.count(cleared)
    }

    /// Clears one of the first keys, which is found no more, whoever cleared it.
    pub fn clear_at(&self, index: usize) {
        self.clear(self.keys[index]);
        assert!(
            !self.pool.contains(self.keys[index]),
            "a cleared key is found"
        );
    }

    /// An object, which was empty, and gets this number.
    pub fn create(&self, number: u64) -> Result<Filling<'_, Tracked>, CreateError> {
        let mut filling = call("create", || self.pool.create())?;
        assert_eq!(filling.get(), 0, "an object isn't empty");
        filling.set(number);
        Ok(filling)
    }

    /// Publishes an object.
    pub fn make(&self, number: u64) -> Result<Key, CreateError> {
        Ok(self.publish(self.create(number)?))
    }

    pub fn publish(&self, filling: Filling<'_, Tracked>) -> Key {
        let key = call("publish", || filling.publish());
        self.note();
        key
    }

    /// Closes the pool.
    pub fn close(self) -> Census {
        Arc::into_inner(self.pool).expect("ours").close()
    }

    /// Looks at what is left: what was published and not cleared, and room for all else. Answers how many clears said yes.
    pub fn settle(self) -> usize {
        let (more, shards) = fill_all(&self.pool, &self.keys);
        assert_eq!(shards, self.shape.lanes as usize, "a shard is lost");
        let (cleared, made) = (self.cleared(), self.made.load(SeqCst));
        let present = more + self.keys.len() + made - cleared;
        let shape = self.shape;
        if shape.last_generation == u32::MAX {
            assert_eq!(present, places(shape), "a place is lost");
        }
        let census = self.close();
        let found = (census.present as usize, census.marked, census.filling);
        assert_eq!(found, (present, 0, 0), "the census");
        cleared
    }
}

/// Publishes an object in each place that is free, by lanes that take each shard; and has the place used once more. (What a thread keeps lasts
/// longer than the schedule.) Answers how many there are, and how many shards.
fn fill_all(pool: &Pool<Tracked>, before: &[Key]) -> (usize, usize) {
    let lanes: Vec<_> = iter::from_fn(|| pool.lane().ok()).collect();
    let mut more = 0;
    for lane in &lanes {
        while let Ok(filling) = lane.create() {
            let key = filling.publish();
            assert!(!before.contains(&key), "a key comes again");
            assert!(lane.clear(key), "the key of another place");
            let mut filling = lane.create().expect("a place that is used again");
            assert_eq!(filling.get(), 0, "an object isn't empty");
            filling.set(1);
            let key = filling.publish();
            look(&pool.get(key).expect("published"), 1);
            more += 1;
        }
    }
    (more, lanes.len())
}

/// Ends a reference, if there is one.
pub fn release(object: Option<Ref<'_, Tracked>>) {
    if let Some(object) = object {
        call("release", || drop(object));
    }
}

pub fn release_owned(object: OwnedRef<Tracked>) {
    call("release of an owned", || drop(object));
}

/// The key of a place of the first page of the first shard, in this generation.
pub fn key_of(generation: u64, slot: u64) -> Key {
    Key::try_from((generation << 24) + slot).expect("a key")
}

/// Nothing is lost.
pub fn settled(world: World) {
    world.settle();
}

/// Of one key, which one clear hid.
pub fn cleared_once(world: World) {
    assert_eq!(
        (emptied(), alive()),
        (1, 1),
        "the object is emptied once, and stays"
    );
    assert_eq!(world.settle(), 1);
}
