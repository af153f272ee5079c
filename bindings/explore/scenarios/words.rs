//! All calls that meet on the lifecycle word of one place: gets, clones, releases, clears, a publish, a filling that is dropped, and the place's
//! next keys.
use crate::world::{
    cleared_once, emptied, key_of, look, published, release, settled, shape, Scenario, World,
};
use explorer::call;
use pardz::Shape;

pub fn all() -> Vec<Scenario> {
    let one = || published(shape(1, 1, 1), 1);
    let none = || published(shape(1, 1, 1), 0);
    let last = || published(last_key(), 1);
    let mut all = vec![
        Scenario::new("get-clear", one, [get, clear], cleared_once),
        Scenario::new("get-get-clear", one, [get, get, clear], cleared_once),
        Scenario::new("get-clear-clear", one, [get, clear, clear], cleared_once),
        Scenario::new(
            "clear-clear-clear",
            one,
            [clear, clear, clear],
            cleared_once,
        ),
        Scenario::new("hold-clear", one, [hold, clear], cleared_once),
        Scenario::new("clone-clear", one, [clone, clear], cleared_once),
        Scenario::new("clone-get-clear", one, [clone, get, clear], cleared_once).bounded(3),
        Scenario::new("clone-cleared", one, [clone_cleared, get], cleared_once),
        Scenario::new(
            "hold-and-clear",
            one,
            [hold_and_clear, hold_and_clear, get],
            cleared_once,
        )
        .bounded(3),
        Scenario::new(
            "get-owned-clear",
            one,
            [get_owned, get, clear],
            cleared_once,
        ),
        Scenario::new("contains-clear", one, [contains, clear], cleared_once),
    ];
    all.extend([
        Scenario::new("publish", none, [publish, guess, guess_and_clear], settled),
        Scenario::new(
            "publish-clears",
            none,
            [publish, guess_and_clear, guess_and_clear],
            settled,
        ),
        Scenario::new(
            "downgrade",
            none,
            [downgrade, guess, guess_and_clear],
            settled,
        )
        .bounded(3),
        Scenario::new("give-up", none, [give_up, guess], gave_up),
        Scenario::new("give-up-clear", none, [give_up, guess_and_clear], gave_up),
        Scenario::new(
            "give-up-again",
            none,
            [publish_and_give_up, guess_both, clear_first],
            settled,
        )
        .bounded(3),
        Scenario::new("get-clear-create", one, [get_both, clear, create], settled).bounded(3),
        Scenario::new(
            "get-clear-reclaim",
            one,
            [get_both, clear_both, create],
            settled,
        )
        .bounded(3),
        Scenario::new(
            "clear-reclaim",
            one,
            [clear_both, look_clear_and_create],
            settled,
        ),
        Scenario::new("retire", last, [get, clear, clear], retired).bounded(3),
        Scenario::new("retire-create", last, [get, clear, create], retired),
        Scenario::new("retire-given-up", last_of_none, [give_up, guess], |world| {
            assert_eq!(world.close().retired, 1);
        }),
    ]);
    all
}

/// Of one place, which has one key.
fn last_key() -> Shape {
    Shape {
        last_generation: 1,
        ..shape(1, 1, 1)
    }
}

fn last_of_none() -> World {
    published(last_key(), 0)
}

fn get(world: &World) {
    world.look_at(0);
}

fn get_owned(world: &World) {
    world.look_owned(world.keys[0], 100);
}

fn clear(world: &World) {
    world.clear_at(0);
}

/// Looks at an object twice, and again when its key may be gone.
fn hold(world: &World) {
    let object = world.get(world.keys[0]);
    if let Some(object) = &object {
        look(object, 100);
        world.look_at(0);
        look(object, 100);
    }
    release(object);
}

fn hold_and_clear(world: &World) {
    let object = world.get(world.keys[0]);
    world.clear_at(0);
    if let Some(object) = &object {
        look(object, 100);
    }
    release(object);
}

/// A clone keeps the object by itself.
fn clone(world: &World) {
    if let Some(object) = world.get(world.keys[0]) {
        let other = call("clone", || object.clone());
        release(Some(object));
        look(&other, 100);
        release(Some(other));
    }
}

/// Of a key that is cleared a reference still clones.
fn clone_cleared(world: &World) {
    let object = world.get(world.keys[0]).expect("nobody else clears it");
    world.clear_at(0);
    let other = call("clone", || object.clone());
    release(Some(object));
    look(&other, 100);
    release(Some(other));
}

/// A key that isn't cleared is contained, and one that is cleared isn't any more.
fn contains(world: &World) {
    let found = world.pool.contains(world.keys[0]);
    let again = call("contains", || world.pool.contains(world.keys[0]));
    assert!(found || !again, "a cleared key is contained");
}

fn publish(world: &World) {
    let _ = world.make(7).expect("a place");
}

/// Whoever publishes an object with a reference has it.
fn downgrade(world: &World) {
    let filling = world.create(7).expect("a place");
    let object = call("downgrade", || filling.downgrade());
    world.note();
    look(&object, 7);
    release(Some(object));
}

/// What was found once was published.
fn guess(world: &World) {
    world.look(key_of(1, 0), 7);
    world.look(key_of(1, 0), 7);
}

fn guess_and_clear(world: &World) {
    world.look(key_of(1, 0), 7);
    world.clear(key_of(1, 0));
}

/// The key of a filling that is dropped is never found, whoever guesses it, and the place has another one then.
fn give_up(world: &World) {
    let filling = world.create(7).expect("a place");
    let key = filling.key();
    call("drop of a filling", || drop(filling));
    assert!(
        world.get(key).is_none(),
        "a key that wasn't published is found"
    );
    if let Ok(next) = world.create(8) {
        assert_ne!(next.key(), key, "a key comes again");
        drop(next);
    }
}

fn gave_up(world: World) {
    assert_eq!(emptied(), 2, "each object that was filled is emptied once");
    assert_eq!(world.settle(), 0);
}

/// The place is published, cleared by others or by this thread, and given up.
fn publish_and_give_up(world: &World) {
    let key = world.make(7).expect("a place");
    world.clear(key);
    if let Ok(filling) = world.create(8) {
        drop(filling);
    }
}

fn guess_both(world: &World) {
    world.look(key_of(1, 0), 7);
    assert!(
        !world.look(key_of(2, 0), 8),
        "a key that wasn't published is found"
    );
}

fn clear_first(world: &World) {
    world.clear(key_of(1, 0));
}

/// Where the place's next key is there, the one before isn't.
fn get_both(world: &World) {
    let next = world.look(key_of(2, 0), 7);
    let before = world.look_at(0);
    assert!(!next || !before, "a cleared key is found");
}

fn clear_both(world: &World) {
    world.clear_at(0);
    world.clear(key_of(2, 0));
}

fn create(world: &World) {
    let _ = world.make(7);
}

/// A clear that looked while there was a reference may come to the next key.
fn look_clear_and_create(world: &World) {
    world.look_at(0);
    world.clear_at(0);
    let _ = world.make(7);
}

/// The place had its last key.
fn retired(world: World) {
    assert!(
        world.pool.lane().expect("a shard").create().is_err(),
        "a retired place is free"
    );
    let census = world.close();
    assert_eq!((census.present, census.retired), (0, 1), "the census");
}
