//! Owned handles, which may outlive their pool and end at once, and the pool's memory that they keep.
use crate::world::{
    emptied, look, number_of, published, release_owned, settled, shape, Scenario, Tracked, World,
};
use explorer::call;
use pardz::{Key, OwnedFilling, OwnedRef, Pool};
use std::sync::Mutex;

pub fn all() -> Vec<Scenario> {
    let one = || published(shape(1, 1, 1), 1);
    vec![
        Scenario::new(
            "owned",
            one,
            [clone_owned, clone_owned, |w| w.clear_at(0)],
            settled,
        )
        .bounded(2),
        Scenario::new(
            "owned-filling",
            || published(shape(2, 1, 1), 0),
            [fill_owned, fill_owned],
            settled,
        ),
        Scenario::new("into-owned", one, [into_owned, |w| w.clear_at(0)], settled),
        Scenario::new(
            "outlives",
            || outlives(two_handles),
            [drop_pool, drop_first, drop_second],
            drop,
        )
        .bounded(3),
        Scenario::new(
            "outlives-clones",
            || outlives(two_clones),
            [drop_pool, drop_first, drop_second],
            drop,
        )
        .bounded(3),
        Scenario::new(
            "outlives-cloned",
            || outlives(two_handles),
            [drop_pool, clone_first, drop_second],
            drop,
        )
        .bounded(3),
        Scenario::new(
            "outlives-cleared",
            || outlives(two_cleared),
            [drop_pool, drop_first, drop_second],
            emptied_once,
        )
        .bounded(3),
        Scenario::new(
            "outlives-filling",
            || outlives(filling),
            [drop_pool, publish],
            drop,
        ),
        Scenario::new(
            "outlives-downgrade",
            || outlives(filling),
            [drop_pool, downgrade],
            drop,
        ),
        Scenario::new(
            "outlives-given-up",
            || outlives(filling),
            [drop_pool, give_up],
            emptied_once,
        ),
        Scenario::new(
            "outlives-none",
            || outlives(|_, _| Outlived::default()),
            [drop_pool],
            drop,
        ),
        Scenario::new(
            "closes",
            || outlives(two_handles),
            [close_pool, drop_first, clone_second],
            drop,
        )
        .bounded(2),
    ]
}

fn clone_owned(world: &World) {
    if let Some(object) = call("get_owned", || world.pool.get_owned(world.keys[0])) {
        let clone = call("clone of an owned", || object.clone());
        release_owned(object);
        look(&clone, number_of(0));
        release_owned(clone);
    }
}

fn fill_owned(world: &World) {
    if let Ok(filling) = call("create_owned", || world.pool.create_owned()) {
        call("drop of an owned filling", || drop(filling));
    }
    if let Ok(mut filling) = world.pool.create_owned() {
        filling.set(3);
        let object = call("downgrade of an owned", || filling.downgrade());
        world.note();
        world.clear(object.key());
        look(&object, 3);
    }
}

/// A reference becomes an owned one.
fn into_owned(world: &World) {
    if let Some(object) = world.get(world.keys[0]) {
        let object = call("into_owned", || object.into_owned());
        look(&object, number_of(0));
    }
}

/// A pool, and what is held of it.
#[derive(Default)]
struct Outlived {
    pool: Mutex<Option<Pool<Tracked>>>,
    handles: [Mutex<Option<OwnedRef<Tracked>>>; 2],
    filling: Mutex<Option<OwnedFilling<Tracked>>>,
}

/// A pool with an object, and what `hold` has of it.
fn outlives(hold: fn(&Pool<Tracked>, Key) -> Outlived) -> Outlived {
    let pool = Pool::<Tracked>::open(shape(2, 2, 1)).expect("a shape");
    let key = {
        let lane = pool.lane().expect("a shard");
        lane.put_with(|object| object.set(3)).expect("a place")
    };
    let world = hold(&pool, key);
    *world.pool.lock().expect("no panic") = Some(pool);
    world
}

fn handles(of: [Option<OwnedRef<Tracked>>; 2]) -> Outlived {
    Outlived {
        handles: of.map(Mutex::new),
        ..Outlived::default()
    }
}

/// Both of the same stripe.
fn two_handles(pool: &Pool<Tracked>, key: Key) -> Outlived {
    handles([pool.get_owned(key), pool.get_owned(key)])
}

fn two_clones(pool: &Pool<Tracked>, key: Key) -> Outlived {
    let handle = pool.get_owned(key);
    handles([handle.clone(), handle])
}

fn two_cleared(pool: &Pool<Tracked>, key: Key) -> Outlived {
    let world = two_handles(pool, key);
    assert!(pool.clear(key));
    world
}

/// An object that no thread's own shard has.
fn filling(pool: &Pool<Tracked>, _: Key) -> Outlived {
    let lane = pool.lane().expect("a shard");
    let filling = lane.create().expect("a place").into_owned();
    Outlived {
        filling: Mutex::new(Some(filling)),
        ..Outlived::default()
    }
}

impl Outlived {
    fn handle(&self, number: usize) -> OwnedRef<Tracked> {
        let handle = self.handles[number].lock().expect("no panic").take();
        handle.expect("one thread has it")
    }

    fn filling(&self) -> OwnedFilling<Tracked> {
        let filling = self.filling.lock().expect("no panic").take();
        filling.expect("one thread has it")
    }

    fn pool(&self) -> Pool<Tracked> {
        let pool = self.pool.lock().expect("no panic").take();
        pool.expect("one thread has it")
    }
}

fn drop_pool(world: &Outlived) {
    let pool = world.pool();
    call("drop of a pool", || drop(pool));
}

/// A close counts what handles have.
fn close_pool(world: &Outlived) {
    let census = world.pool().close();
    assert_eq!((census.present, census.total()), (1, 4));
}

fn drop_handle(world: &Outlived, number: usize) {
    let handle = world.handle(number);
    look(&handle, 3);
    call("last of a pool", || drop(handle));
}

fn drop_first(world: &Outlived) {
    drop_handle(world, 0);
}

fn drop_second(world: &Outlived) {
    drop_handle(world, 1);
}

/// A clone keeps the memory by itself.
fn clone_handle(world: &Outlived, number: usize) {
    let handle = world.handle(number);
    let clone = call("clone of an owned", || handle.clone());
    drop(handle);
    look(&clone, 3);
}

fn clone_first(world: &Outlived) {
    clone_handle(world, 0);
}

fn clone_second(world: &Outlived) {
    clone_handle(world, 1);
}

fn publish(world: &Outlived) {
    let mut filling = world.filling();
    filling.set(4);
    let _ = filling.publish();
}

fn downgrade(world: &Outlived) {
    let mut filling = world.filling();
    filling.set(4);
    let object = filling.downgrade();
    look(&object.clone(), 4);
}

fn give_up(world: &Outlived) {
    drop(world.filling());
}

fn emptied_once(_: Outlived) {
    assert_eq!(emptied(), 1, "the object is emptied once");
}
