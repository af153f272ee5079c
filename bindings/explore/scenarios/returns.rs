//! Places that come back to a shard, which its owner collects, and those that it puts back itself.
use crate::world::{alive, published, settled, shape, Scenario, World};

pub fn all() -> Vec<Scenario> {
    // (One place is free: whoever creates first has the shard, which is full then.)
    let one_place = || published(shape(1, 2, 1), 1);
    let two_places = || published(shape(1, 4, 1), 3);
    let two_pages = || published(shape(1, 1, 2), 2);
    let two_groups = || published(shape(1, 64, 2), 191);
    vec![
        Scenario::new(
            "return-create",
            one_place,
            [make_thrice, |w| w.clear_at(0)],
            settled,
        ),
        Scenario::new(
            "return-told",
            one_place,
            [make_when_told, clear_and_tell],
            settled,
        ),
        Scenario::new(
            "return-again",
            one_place,
            [make_and_tell, clear_told],
            settled,
        ),
        Scenario::new(
            "return-same-group",
            two_places,
            [make_thrice, |w| w.clear_at(0), |w| w.clear_at(1)],
            settled,
        ),
        Scenario::new(
            "return-two-pages",
            two_pages,
            [make_thrice, |w| w.clear_at(0), |w| w.clear_at(1)],
            settled,
        ),
        Scenario::new(
            "return-two-groups",
            two_groups,
            [make_thrice, |w| w.clear_at(70), |w| w.clear_at(140)],
            settled,
        ),
        Scenario::new(
            "return-own-groups",
            two_groups,
            [|w| clear_each_then_make(w, [70, 140])],
            settled,
        ),
        Scenario::new(
            "return-own-groups-down",
            two_groups,
            [|w| clear_each_then_make(w, [140, 70]), |w| w.clear_at(71)],
            settled,
        ),
        Scenario::new(
            "return-two-told",
            two_groups,
            [
                make_when_told,
                |w| clear_and_tell_of(w, 70, 0),
                |w| clear_and_tell_of(w, 140, 1),
            ],
            settled,
        ),
        Scenario::new(
            "return-beside-own",
            || published(shape(1, 2, 1), 0),
            [make_two_and_clear, |w| assert!(w.clear(w.wait_for(0)))],
            settled,
        ),
    ]
}

/// Creates of an owner whose shard is full, or has got a place back.
fn make_thrice(world: &World) {
    for number in 1..4 {
        let _ = world.make(number);
    }
}

fn clear_and_tell(world: &World) {
    clear_and_tell_of(world, 0, 0);
}

fn clear_and_tell_of(world: &World, index: usize, word: usize) {
    world.clear_at(index);
    world.tell(word, world.keys[index]);
}

/// What calls gave back that have ended is free, beside the one place that was.
fn make_when_told(world: &World) {
    let mut made = 0;
    for number in 1..4 {
        let told = (0..2).filter(|&word| world.told(word).is_some()).count();
        match world.make(number) {
            Ok(_) => made += 1,
            Err(error) => assert!(told < made, "{error} though a place came back"),
        }
    }
}

/// An owner, whose shard is full, gives places of two groups back, and has them again.
fn clear_each_then_make(world: &World, indices: [usize; 2]) {
    for number in 0..2 {
        let _ = world.make(number);
    }
    for index in indices {
        world.clear_at(index);
    }
    for number in 2..4 {
        let _ = world
            .make(number)
            .expect("a place that this thread gave back");
    }
    assert!(alive() <= 192, "more objects than places");
}

/// An owner's shard has two places. It gives one back, another thread the other one.
fn make_two_and_clear(world: &World) {
    let first = world.make(1).expect("a place");
    let second = world.make(2).expect("a place");
    world.tell(0, second);
    world.clear(first);
    let third = world.make(3).expect("a place that this thread gave back");
    let _ = world.make(4);
    world.clear(third);
    let _ = world.make(5).expect("a place that this thread gave back");
}

fn make_and_tell(world: &World) {
    for word in 0..2 {
        if let Ok(key) = world.make(7) {
            world.tell(word, key);
        }
    }
}

/// Clears what was there, and what the owner made of its place.
fn clear_told(world: &World) {
    world.clear_at(0);
    for word in 0..2 {
        if let Some(key) = world.told(word) {
            world.clear(key);
        }
    }
}
