//! What a thread leaves to its end: in a thread-local that was there before it called a pool, and so ends behind the crate's own; or in one
//! that ends before.
use crate::world::{
    key_of, look, number_of, published, release, settled, shape, Scenario, Tracked, World,
};
use pardz::{Filling, OwnedFilling, OwnedRef, Pool, Ref};
use std::cell::RefCell;

pub fn all() -> Vec<Scenario> {
    let one = || published(shape(1, 2, 1), 1);
    let mut all = vec![
        Scenario::new("late-call", one, [call_late, make_and_clear], settled).bounded(3),
        Scenario::new("late-calls", one, [call_late, call_late], settled).bounded(3),
        Scenario::new(
            "late-clear",
            one,
            [|w| leave_call(w, clear), make_and_clear],
            settled,
        ),
        Scenario::new(
            "late-filling",
            one,
            [leave_filling, make_and_clear],
            settled,
        )
        .bounded(3),
        Scenario::new(
            "late-publish",
            one,
            [|w| publish_late(w), make_and_clear],
            settled,
        )
        .bounded(3),
        Scenario::new(
            "late-reference",
            one,
            [leave_reference, clear_and_make],
            settled,
        ),
        Scenario::new("late-owned", one, [leave_owned, clear_and_make], settled).bounded(3),
    ];
    all.extend([
        Scenario::new("early-call", one, [call_early, make_and_clear], settled).bounded(3),
        Scenario::new(
            "early-filling",
            one,
            [leave_filling_early, make_and_clear],
            settled,
        )
        .bounded(3),
        Scenario::new(
            "early-reference",
            one,
            [leave_reference_early, clear_and_make],
            settled,
        )
        .bounded(3),
        Scenario::new(
            "late-other-owner",
            || published(shape(1, 1, 1), 0),
            [keep_and_clear_late, make_and_tell_again],
            settled,
        ),
    ]);
    all
}

/// What a thread owns of a pool, to be dropped.
type Owned = (OwnedRef<Tracked>, Option<OwnedFilling<Tracked>>);

thread_local! {
    static FILLING: RefCell<Option<Filling<'static, Tracked>>> = const { RefCell::new(None) };
    static REFERENCE: RefCell<Option<Ref<'static, Tracked>>> = const { RefCell::new(None) };
    static OWNED: RefCell<Option<Owned>> = const { RefCell::new(None) };
    static PUBLISHER: RefCell<Option<Publisher>> = const { RefCell::new(None) };
    static CALLER: RefCell<Option<Caller>> = const { RefCell::new(None) };
}

/// Does something when it is dropped.
struct Caller {
    world: &'static World,
    call: fn(&'static World),
}

impl Drop for Caller {
    fn drop(&mut self) {
        (self.call)(self.world);
    }
}

fn leave_call(world: &World, call: fn(&'static World)) {
    let world = world.lasting();
    CALLER.with_borrow_mut(|caller| *caller = Some(Caller { world, call }));
}

/// All that a thread may do that has no list of shards any more.
fn call_all(world: &'static World) {
    world.look_at(0);
    if let Ok(key) = world.make(3) {
        assert!(world.look(key, 3) && world.clear(key));
    }
    if let Ok(filling) = world.create(4) {
        drop(filling);
    }
}

fn clear(world: &'static World) {
    world.clear_at(0);
}

fn make_and_clear(world: &World) {
    if let Ok(key) = world.make(5) {
        assert!(world.look(key, 5) && world.clear(key));
        let _ = world.make(6).expect("a place that this thread gave back");
    }
}

fn clear_and_make(world: &World) {
    world.clear_at(0);
    let _ = world.make(5);
}

fn pool(world: &World) -> &'static Pool<Tracked> {
    &world.lasting().pool
}

/// The thread has the thread-local before it has a shard.
fn leave_filling(world: &World) {
    FILLING.with_borrow_mut(|late| *late = pool(world).create().ok());
}

fn leave_filling_early(world: &World) {
    let _ = world.make(8);
    leave_filling(world);
}

/// Publishes a filling when it is dropped.
struct Publisher(&'static World, Option<Filling<'static, Tracked>>);

impl Drop for Publisher {
    fn drop(&mut self) {
        if let Some(filling) = self.1.take() {
            let _ = self.0.publish(filling);
        }
    }
}

fn publish_late(world: &World) {
    PUBLISHER.with_borrow_mut(|late| {
        *late = Some(Publisher(world.lasting(), pool(world).create().ok()))
    });
}

fn leave_reference(world: &World) {
    REFERENCE.with_borrow_mut(|late| *late = pool(world).get(world.keys[0]));
}

fn leave_reference_early(world: &World) {
    let _ = world.make(8);
    leave_reference(world);
}

fn leave_owned(world: &World) {
    OWNED.with_borrow_mut(|late| {
        if let Some(object) = pool(world).get_owned(world.keys[0]) {
            look(&object, number_of(0));
            *late = Some((object, pool(world).create_owned().ok()));
        }
    });
}

/// The thread has had a shard when it calls for the last time.
fn call_late(world: &World) {
    leave_call(world, call_all);
    let _ = world.make(8);
}

fn call_early(world: &World) {
    let _ = world.make(8);
    leave_call(world, call_all);
}

/// A thread has had the shard, and another one may have it now, when its late call gives a place of it back.
fn keep_and_clear_late(world: &World) {
    leave_call(world, |world| {
        let object = world.get(key_of(1, 0));
        if let Some(object) = &object {
            look(object, 7);
            world.clear(key_of(1, 0));
        }
        release(object);
    });
    let _ = world.make(7);
}

fn make_and_tell_again(world: &World) {
    let _ = world.make(7);
    let _ = world.make(8);
}
