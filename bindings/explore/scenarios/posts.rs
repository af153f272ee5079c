//! The C library's posts, of which one call at a time has each, its owned references, and its calls by any thread.
use crate::c_library::{
    look, wait, Answer, CFilling, CPool, CRef, Lent, OwnedSlot, BUSY, EMPTIED, ENDED, GONE,
    NO_FILLING, NO_REFERENCE,
};
use crate::world::Scenario;
use explorer::{AtomicU32, Ordering};
use std::cell::UnsafeCell;
use std::ptr;
use std::sync::atomic::Ordering::Relaxed;

/// A pool, and what threads have of it.
struct Posts {
    pool: CPool,
    /// How many places it has.
    places: u32,
    /// Another slot of it, of the first thread.
    other: CPool,
    keys: Vec<u64>,
    lents: Vec<Lent>,
    owned: Vec<OwnedSlot>,
    /// Two references to the first key.
    refs: Vec<CRef>,
    /// What a thread hands on, and whether it has.
    filling: (UnsafeCell<CFilling>, AtomicU32),
    /// Slots that one thread fills, and then says so.
    handed: [(UnsafeCell<Option<OwnedSlot>>, AtomicU32); 2],
    /// How many clears said yes, and how many threads are done.
    cleared: AtomicU32,
    done: AtomicU32,
}

// SAFETY: as of `CPool`.
unsafe impl Sync for Posts {}
// SAFETY: as of `CPool`.
unsafe impl Send for Posts {}

/// What is published first under each key, and then.
const TEXTS: [&str; 2] = ["first", "second"];
const LATER: &str = "later";

impl Posts {
    /// A pool of so many lanes with so many places each, and so many keys, put by the first lane.
    fn of(lanes: u32, places: u32, keys: usize) -> Posts {
        let world = Posts::unattached();
        world.pool.attach(lanes, places);
        let keys = TEXTS[..keys].iter().map(|text| world.pool.put(0, text));
        Posts {
            keys: keys.map(|key| key.expect("a place")).collect(),
            places: lanes * places,
            ..world
        }
    }

    /// One that a thread is to attach.
    fn unattached() -> Posts {
        Posts {
            pool: CPool::empty(),
            places: 0,
            other: CPool::empty(),
            keys: Vec::new(),
            lents: Vec::new(),
            owned: Vec::new(),
            refs: Vec::new(),
            filling: (UnsafeCell::new(CFilling::NONE), AtomicU32::new(0)),
            handed: [(); 2].map(|()| (UnsafeCell::new(None), AtomicU32::new(0))),
            cleared: AtomicU32::new(0),
            done: AtomicU32::new(0),
        }
    }

    /// A pool of objects, with one, and a reference to it.
    fn of_objects() -> Posts {
        let mut world = Posts::unattached();
        world.pool.grow_of(TEXTS[0].len());
        world.keys = vec![world.pool.any_put(TEXTS[0]).expect("a place")];
        world.refs = vec![world.pool.any_get(world.keys[0]).expect("it is published")];
        world
    }

    /// The same, with another slot for the first thread.
    fn shared(self) -> Posts {
        self.pool.share(&self.other);
        self
    }

    /// The same, with a reference to each key by this lane; `clear` says whether each is cleared then.
    fn lent(mut self, lane: u32, clear: bool) -> Posts {
        let lents = self.keys.iter().map(|key| self.pool.get(lane, *key));
        self.lents = lents.map(|lent| lent.expect("a reference")).collect();
        self.cleared_if(clear)
    }

    /// The same, with an owned reference to each key, by the first lane.
    fn owned(mut self, clear: bool) -> Posts {
        let owned = self.keys.iter().map(|key| self.pool.own(0, *key));
        self.owned = owned.map(|owned| owned.expect("a reference")).collect();
        self.cleared_if(clear)
    }

    /// The same, with two references to the first key, of no lane.
    fn referred(mut self) -> Posts {
        let found = (0..2).map(|_| self.pool.any_get(self.keys[0]));
        self.refs = found.map(|found| found.expect("it is published")).collect();
        self
    }

    /// The same, with what a release by mistake would tell of the first owned reference.
    fn lent_of_owned(mut self) -> Posts {
        self.lents.push(Lent {
            at: ptr::null(),
            len: 0,
            key: self.keys[0],
            lane: 0,
        });
        self
    }

    /// The same, with an owned reference to the first key, by no lane.
    fn owning(mut self) -> Posts {
        let owned = self.pool.any_own(&self.refs[0]);
        self.owned = vec![owned.expect("few references")];
        self
    }

    fn cleared_if(self, clear: bool) -> Posts {
        for key in self.keys.iter().filter(|_| clear) {
            assert_eq!(self.pool.clear(0, *key), Ok(()));
        }
        self
    }

    /// The same, with one more slot for the first owned reference.
    fn again(mut self) -> Posts {
        self.owned.push(self.owned[0].again());
        self
    }

    fn count_clear(&self, cleared: Answer) {
        match cleared {
            Ok(()) => drop(self.cleared.fetch_add(1, Ordering::Relaxed)),
            Err(code) => assert!(code == GONE || code == BUSY, "a clear answers {code}"),
        }
    }

    /// Closes the pool, in which all places are free but so many that are present.
    fn settle(self, present: u32) {
        let counted = self.pool.census();
        let census = self.pool.detach().expect("nobody calls");
        assert_eq!(counted, census, "what is counted before a detach");
        let others = (census.filling, census.marked, census.retired);
        assert_eq!((census.present, others), (present, (0, 0, 0)));
    }
}

pub fn all() -> Vec<Scenario> {
    let one_lane = || Posts::of(1, 2, 1);
    let one_owned = || Posts::of(1, 2, 1).owned(true);
    vec![
        // One lane, and each thread waits for it.
        Scenario::new("post-cycle", || Posts::of(1, 2, 0), [cycle; 2], free).bounded(3),
        Scenario::new("post-cycle-two", || Posts::of(2, 2, 0), [cycle; 2], free).bounded(3),
        Scenario::new(
            "post-three",
            || Posts::of(2, 2, 0),
            [cycle_from_one, cycle, cycle],
            free,
        )
        .bounded(2),
        // Nobody waits: who finds the lane had is told so, and has done nothing.
        Scenario::new("post-had", one_lane, [try_get, try_clear], cleared_or_not),
        Scenario::new(
            "post-had-three",
            one_lane,
            [try_get, try_clear, try_put],
            put_or_not,
        )
        .bounded(3),
        Scenario::new(
            "post-any",
            || Posts::of(2, 1, 1),
            [get_from_one, get_from_one],
            |world| world.settle(1),
        ),
        Scenario::new("post-clear-both", one_lane, [clear, clear], cleared_once),
        Scenario::new(
            "post-clear-by-two",
            || Posts::of(2, 1, 1),
            [clear, clear_from_one],
            cleared_once,
        ),
        Scenario::new(
            "post-release",
            || Posts::of(2, 1, 1).lent(1, false),
            [release_lent, clear_and_put],
            put_later,
        ),
        Scenario::new(
            "post-release-last",
            || Posts::of(2, 1, 1).lent(1, true),
            [release_lent, put_when_free],
            put_later,
        ),
        Scenario::new("post-detach", one_lane, [get_once, detach_when_had], done),
        Scenario::new("post-detach-last", one_lane, [leave_last; 2], done),
        Scenario::new("post-attach", || Posts::of(1, 1, 0), [own_pool; 2], free),
        // A pool in a slot of each thread.
        Scenario::new(
            "post-share",
            || Posts::of(1, 2, 1).shared(),
            [clear_and_unshare, detach_last],
            |_| (),
        ),
        // Owned references.
        Scenario::new("own-both", one_lane, [own_and_disown; 2], |world| {
            world.settle(1)
        }),
        Scenario::new("own-hand-on", one_lane, [own_and_hand_on, take_over], free),
        Scenario::new("own-in-a-cycle", one_owned, [disown, cycle], free).bounded(3),
        Scenario::new(
            "own-both-counted",
            || Posts::of(1, 2, 2).owned(true),
            [disown, disown_second, census],
            free,
        ),
        Scenario::new(
            "own-not-released",
            || Posts::of(1, 1, 1).owned(true).lent_of_owned(),
            [release_none, disown],
            free,
        ),
        Scenario::new(
            "own-slots",
            || Posts::of(1, 1, 1).owned(true).again(),
            [disown, disown_second],
            free,
        ),
        Scenario::new("own-again", one_owned, [again, again], |world| {
            world.owned[0].disown();
            world.settle(0);
        }),
        Scenario::new(
            "own-outlives",
            || Posts::of(1, 1, 1).owned(false),
            [detach, disown],
            drop,
        ),
        Scenario::new(
            "own-outlives-slots",
            || Posts::of(1, 1, 1).owned(true).again(),
            [detach, disown, disown_second],
            drop,
        ),
        Scenario::new(
            "own-outlives-two",
            || Posts::of(1, 2, 2).owned(true),
            [detach, disown, disown_second],
            drop,
        ),
        Scenario::new(
            "own-outlives-attached",
            Posts::unattached,
            [attach_and_detach, take_over],
            drop,
        ),
        Scenario::new(
            "own-outlives-lanes",
            || Posts::of(2, 1, 1).owned(false),
            [own_clear_and_detach, disown],
            drop,
        ),
        // By any thread.
        Scenario::new("any-cycle", || Posts::of(1, 2, 0), [any_cycle; 2], free).bounded(2),
        Scenario::new(
            "any-and-lanes",
            || Posts::of(1, 2, 1),
            [any_get, clear],
            cleared_once,
        )
        .bounded(3),
        Scenario::new(
            "any-release",
            || Posts::of(1, 1, 1).referred(),
            [any_release, any_clone_and_release, any_clear],
            cleared_once,
        )
        .bounded(3),
        Scenario::new(
            "any-own",
            || Posts::of(1, 1, 1).referred(),
            [any_own, any_clear],
            cleared_once,
        )
        .bounded(3),
        Scenario::new(
            "any-filling",
            || Posts::of(1, 2, 0),
            [begin_and_hand_on, go_on],
            free,
        )
        .bounded(3),
        Scenario::new("any-grown", Posts::unattached, [grow_and_cycle; 2], drop).bounded(1),
        // Of objects, whose ends the program is told.
        Scenario::new(
            "object-release",
            Posts::of_objects,
            [any_release, any_clear],
            |world| {
                assert_eq!(EMPTIED.load(Relaxed), 1, "objects that were emptied");
                assert_eq!(ENDED.load(Relaxed), 0, "objects that ended");
                cleared_once(world);
                assert_eq!((EMPTIED.load(Relaxed), ENDED.load(Relaxed)), (1, 1));
            },
        ),
        Scenario::new(
            "object-outlives",
            || Posts::of_objects().owning(),
            [disown, release_and_detach],
            |_| assert_eq!((EMPTIED.load(Relaxed), ENDED.load(Relaxed)), (1, 1)),
        ),
    ]
}

/// A life of a key that is filled in place, by calls of any thread.
fn any_cycle(world: &Posts) {
    let pool = &world.pool;
    let key = wait(0, |_| pool.any_put(LATER)).expect("a place");
    let mut found = pool.any_get(key).expect("it is published");
    found.look(LATER);
    assert_eq!(pool.any_clear(key), Ok(()));
    assert_eq!(
        pool.any_get(key).err(),
        Some(GONE),
        "a cleared key is found"
    );
    found.look(LATER);
    assert_eq!(pool.any_release(&mut found), Ok(()));
    assert_eq!(pool.any_release(&mut found), Err(NO_REFERENCE));
}

fn any_get(world: &Posts) {
    match world.pool.any_get(world.keys[0]) {
        Ok(mut found) => {
            found.look(TEXTS[0]);
            assert_eq!(world.pool.any_release(&mut found), Ok(()));
        }
        Err(code) => assert_eq!(code, GONE),
    }
}

fn any_release(world: &Posts) {
    let mut found = world.refs[0];
    found.look(TEXTS[0]);
    assert_eq!(world.pool.any_release(&mut found), Ok(()));
}

/// One more reference of the second, which is there as long as that.
fn any_clone_and_release(world: &Posts) {
    let mut found = world.refs[1];
    let mut more = world.pool.any_clone(&found).expect("few references");
    assert_eq!(world.pool.any_release(&mut found), Ok(()));
    more.look(TEXTS[0]);
    assert_eq!(world.pool.any_release(&mut more), Ok(()));
}

/// The pool ends, but for its owned reference.
fn release_and_detach(world: &Posts) {
    any_release(world);
    assert_eq!(world.pool.detach().expect("nobody calls").present, 1);
}

fn any_clear(world: &Posts) {
    world.count_clear(world.pool.any_clear(world.keys[0]));
}

/// An owned reference of a reference.
fn any_own(world: &Posts) {
    let (mut first, mut second) = (world.refs[0], world.refs[1]);
    let owned = world.pool.any_own(&first).expect("few references");
    assert_eq!(world.pool.any_release(&mut first), Ok(()));
    assert_eq!(world.pool.any_release(&mut second), Ok(()));
    owned.look(TEXTS[0]);
    owned.disown();
}

/// Fills half, and hands the filling on.
fn begin_and_hand_on(world: &Posts) {
    let mut filling = wait(0, |_| world.pool.any_create()).expect("a place");
    assert_eq!(world.pool.any_append(&mut filling, "la"), Ok(()));
    let (to, is_there) = &world.filling;
    // SAFETY: the other thread reads it when it is told so.
    unsafe { *to.get() = filling };
    is_there.store(1, Ordering::Release);
    drop_one(world);
}

/// A filling that isn't published.
fn drop_one(world: &Posts) {
    let mut dropped = wait(0, |_| world.pool.any_create()).expect("a place");
    assert_eq!(world.pool.any_append(&mut dropped, LATER), Ok(()));
    assert_eq!(world.pool.any_drop(&mut dropped), Ok(()));
    assert_eq!(world.pool.any_drop(&mut dropped), Err(NO_FILLING));
}

/// Fills the other half, publishes and clears.
fn go_on(world: &Posts) {
    let (from, is_there) = &world.filling;
    while is_there.load(Ordering::Acquire) == 0 {
        explorer::yield_now();
    }
    // SAFETY: the other thread has written it, and uses it no more.
    let mut filling = unsafe { *from.get() };
    assert_eq!(world.pool.any_append(&mut filling, "ter"), Ok(()));
    let key = world.pool.any_publish(&mut filling).expect("a filling");
    let mut found = world.pool.any_get(key).expect("it is published");
    assert_eq!(world.pool.any_clear(key), Ok(()));
    found.look(LATER);
    assert_eq!(world.pool.any_release(&mut found), Ok(()));
}

/// The last of two threads closes a pool that grows, which the first one opens.
fn grow_and_cycle(world: &Posts) {
    let (_, is_open) = &world.handed[1];
    if world.done.fetch_add(1, Ordering::AcqRel) == 0 {
        world.pool.grow();
        is_open.store(1, Ordering::Release);
    }
    while is_open.load(Ordering::Acquire) == 0 {
        explorer::yield_now();
    }
    let key = world.pool.any_put(LATER).expect("a place");
    assert_eq!(world.pool.any_clear(key), Ok(()));
    if world.cleared.fetch_add(1, Ordering::AcqRel) == 1 {
        let census = world.pool.detach().expect("nobody calls");
        assert_eq!((census.present, census.filling, census.marked), (0, 0, 0));
    }
}

fn cycle(world: &Posts) {
    cycle_from(world, 0);
}

fn cycle_from_one(world: &Posts) {
    cycle_from(world, 1);
}

/// A life of a key, by calls that wait for a lane.
fn cycle_from(world: &Posts, from: u32) {
    let pool = &world.pool;
    let key = wait(from, |from| pool.put(from, LATER)).expect("a place");
    let lent = wait(from, |from| pool.get(from, key)).expect("it is published");
    look(lent.at, lent.len, LATER);
    assert_eq!(wait(from, |from| pool.clear(from, key)), Ok(()));
    let again = wait(from, |from| pool.get(from, key));
    assert_eq!(again.err(), Some(GONE), "a cleared key is found");
    look(lent.at, lent.len, LATER);
    assert_eq!(wait(0, |_| pool.release(&lent)), Ok(()));
}

fn free(world: Posts) {
    world.settle(0);
}

fn try_get(world: &Posts) {
    match world.pool.get(0, world.keys[0]) {
        Ok(lent) => {
            look(lent.at, lent.len, TEXTS[0]);
            assert_eq!(wait(0, |_| world.pool.release(&lent)), Ok(()));
        }
        Err(code) => assert!(code == GONE || code == BUSY, "a get answers {code}"),
    }
}

fn try_clear(world: &Posts) {
    world.count_clear(world.pool.clear(0, world.keys[0]));
}

fn try_put(world: &Posts) {
    match world.pool.put(0, LATER) {
        Ok(_) => drop(world.done.fetch_add(1, Ordering::Relaxed)),
        Err(code) => assert_eq!(code, BUSY),
    }
}

fn cleared_or_not(world: Posts) {
    let cleared = world.cleared.load(Ordering::Relaxed);
    world.settle(1 - cleared);
}

fn put_or_not(world: Posts) {
    let cleared = world.cleared.load(Ordering::Relaxed);
    let put = world.done.load(Ordering::Relaxed);
    world.settle(1 + put - cleared);
}

/// A get, which finds a lane as long as one is free.
fn get_from_one(world: &Posts) {
    let lent = world.pool.get(1, world.keys[0]).expect("a lane is free");
    look(lent.at, lent.len, TEXTS[0]);
    assert_eq!(wait(0, |_| world.pool.release(&lent)), Ok(()));
}

fn clear(world: &Posts) {
    world.count_clear(wait(0, |from| world.pool.clear(from, world.keys[0])));
}

fn clear_from_one(world: &Posts) {
    world.count_clear(wait(1, |from| world.pool.clear(from, world.keys[0])));
}

fn cleared_once(world: Posts) {
    assert_eq!(
        world.cleared.load(Ordering::Relaxed),
        1,
        "clears that say yes"
    );
    world.settle(0);
}

fn release_lent(world: &Posts) {
    let lent = &world.lents[0];
    look(lent.at, lent.len, TEXTS[0]);
    assert_eq!(wait(0, |_| world.pool.release(lent)), Ok(()));
    release_none(world);
}

/// A release of what no lane has.
fn release_none(world: &Posts) {
    let released = wait(0, |_| world.pool.release(&world.lents[0]));
    assert_eq!(released, Err(NO_REFERENCE));
}

fn clear_and_put(world: &Posts) {
    clear(world);
    put_when_free(world);
}

/// Puts, if the lane's one place is free by now.
fn put_when_free(world: &Posts) {
    if wait(0, |from| world.pool.put(from, LATER)).is_ok() {
        world.done.fetch_add(1, Ordering::Relaxed);
    }
}

fn put_later(world: Posts) {
    let put = world.done.load(Ordering::Relaxed);
    world.settle(put);
}

/// The thread's only call.
fn get_once(world: &Posts) {
    let got = world.pool.get(0, world.keys[0]);
    assert!(matches!(got, Ok(_) | Err(GONE | BUSY)));
}

/// If the other thread is in its only call, detaches as soon as that has left its lane.
fn detach_when_had(world: &Posts) {
    if world.pool.clear(0, world.keys[0]) == Err(BUSY) {
        let census = wait(0, |_| world.pool.detach()).expect("nobody has a lane");
        assert_eq!((census.present, census.free), (1, 1));
        world.done.store(1, Ordering::Relaxed);
    }
}

fn clear_and_unshare(world: &Posts) {
    let cleared = wait(0, |from| world.other.clear(from, world.keys[0]));
    assert_eq!(cleared, Ok(()));
    world.other.unshare();
}

/// Looks, and detaches as soon as the other slot is empty.
fn detach_last(world: &Posts) {
    if let Ok(lent) = wait(0, |from| world.pool.get(from, world.keys[0])) {
        look(lent.at, lent.len, TEXTS[0]);
        assert_eq!(wait(0, |_| world.pool.release(&lent)), Ok(()));
    }
    let census = world.pool.detach_last().expect("nobody calls");
    assert_eq!((census.present, census.marked, census.free), (0, 0, 2));
}

fn done(world: Posts) {
    if world.done.load(Ordering::Relaxed) == 0 {
        world.pool.detach().expect("nobody calls");
    }
}

/// The last of two threads closes the pool.
fn leave_last(world: &Posts) {
    let lent = wait(0, |from| world.pool.get(from, world.keys[0])).expect("it is published");
    look(lent.at, lent.len, TEXTS[0]);
    assert_eq!(wait(0, |_| world.pool.release(&lent)), Ok(()));
    if world.done.fetch_add(1, Ordering::AcqRel) == 1 {
        assert_eq!(world.pool.detach().expect("nobody calls").present, 1);
    }
}

/// A pool of the thread's own, beside another thread's.
fn own_pool(_: &Posts) {
    let world = Posts::of(1, 1, 1).owned(true);
    disown(&world);
    world.settle(0);
}

fn own_and_disown(world: &Posts) {
    let owned = wait(0, |from| world.pool.own(from, world.keys[0])).expect("it is published");
    owned.look(TEXTS[0]);
    owned.disown();
}

fn own_and_hand_on(world: &Posts) {
    let owned = wait(0, |from| world.pool.own(from, world.keys[0])).expect("it is published");
    hand_on(world, 0, owned);
    clear(world);
}

fn hand_on(world: &Posts, index: usize, owned: OwnedSlot) {
    let (to, is_there) = &world.handed[index];
    // SAFETY: the other thread reads it when it is told so.
    unsafe { *to.get() = Some(owned) };
    is_there.store(1, Ordering::Release);
}

fn take_over(world: &Posts) {
    take_over_from(world, 0);
}

fn take_over_from(world: &Posts, index: usize) {
    let (from, is_there) = &world.handed[index];
    while is_there.load(Ordering::Acquire) == 0 {
        explorer::yield_now();
    }
    // SAFETY: the other thread has written it, and uses it no more.
    let owned = unsafe { (*from.get()).take() }.expect("it was handed on");
    owned.look(TEXTS[index]);
    owned.disown();
}

/// A pool of one key from its attach to its detach, which the key's owned reference outlives.
fn attach_and_detach(world: &Posts) {
    attach_and_own(world, 1);
}

fn attach_and_own(world: &Posts, count: usize) {
    world.pool.attach(1, count as u32);
    for (index, text) in TEXTS.iter().enumerate().take(count) {
        let key = wait(0, |from| world.pool.put(from, text)).expect("a place");
        let owned = wait(0, |from| world.pool.own(from, key)).expect("it is published");
        hand_on(world, index, owned);
    }
    let census = world.pool.detach().expect("nobody calls");
    assert_eq!(census.present as usize, count);
}

fn disown(world: &Posts) {
    disown_slot(world, 0);
}

fn disown_second(world: &Posts) {
    disown_slot(world, 1);
}

fn disown_slot(world: &Posts, index: usize) {
    world.owned[index].look(TEXTS[index % world.keys.len()]);
    world.owned[index].disown();
}

/// Another slot for the reference of one that other threads use too.
fn again(world: &Posts) {
    let other = world.owned[0].again();
    other.look(TEXTS[0]);
    other.disown();
}

/// Counts while others are in calls. (A place that is emptied just then counts as filling.)
fn census(world: &Posts) {
    let census = world.pool.census();
    let others = census.free + census.marked + census.filling;
    assert_eq!((others, census.present), (2, 0));
}

fn detach(world: &Posts) {
    let census = world.pool.detach().expect("nobody calls");
    let unused = census.free + census.unopened + census.filling;
    assert_eq!(unused + census.present + census.marked, world.places);
}

/// An owned reference that outlives its pool, beside another one of the same key.
fn own_clear_and_detach(world: &Posts) {
    let owned = wait(1, |from| world.pool.own(from, world.keys[0])).expect("it is published");
    clear(world);
    detach(world);
    owned.look(TEXTS[0]);
    owned.disown();
}
