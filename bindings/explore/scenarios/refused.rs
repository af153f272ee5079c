//! Memory that is refused, at each request of a call, while other threads call; and an allocator that calls the pool.
use crate::world::{key_of, published, settled, shape, unopened, Scenario, Tracked, World};
use explorer::{interrupting, refusing};
use pardz::{CreateError, Filling, Key, Limits, Pool};
use std::iter;

pub fn all() -> Vec<Scenario> {
    vec![
        Scenario::new(
            "refused-first",
            || unopened(shape(2, 1, 1)),
            [make_refused, make_refused],
            settled,
        )
        .bounded(2),
        Scenario::new(
            "refused-beside",
            || unopened(shape(2, 1, 1)),
            [make_refused, make_and_look],
            settled,
        )
        .bounded(2),
        Scenario::new(
            "refused-page",
            || published(shape(1, 1, 2), 1),
            [make_two_refused, |w| w.clear_at(0)],
            settled,
        ),
        Scenario::new(
            "refused-lane",
            || unopened(shape(2, 1, 1)),
            [lane_refused, make_and_look],
            settled,
        )
        .bounded(2),
        Scenario::new(
            "refused-reserve",
            || unopened(shape(2, 1, 2)),
            [reserve_refused, make_and_look],
            settled,
        )
        .bounded(2),
        Scenario::new(
            "refused-and-left",
            || published(shape(1, 1, 2), 1),
            [page_refused, make_in_what_was_left],
            settled,
        ),
        Scenario::new("refused-within-limits", one_place, [create_the_last], drop),
        Scenario::new(
            "allocator-creates",
            || (),
            [create_within_each_request],
            drop,
        ),
        Scenario::new(
            "allocator-clears",
            || unopened(shape(2, 2, 1)),
            [clear_within_each_request, make_and_look],
            settled,
        )
        .bounded(1),
        Scenario::new(
            "refused-get",
            || published(shape(1, 1, 1), 1),
            [get_refused, |w| w.clear_at(0)],
            settled,
        )
        .bounded(2),
    ]
}

/// A call is refused one request after the other, until it asks for no more: then it succeeds. Each refusal is an error, or does no harm.
fn refuse_each<V>(mut call: impl FnMut() -> Result<V, CreateError>) -> Result<V, CreateError> {
    for number in 1..20 {
        let (answer, is_refused) = refusing(number, &mut call);
        match answer {
            Err(CreateError::Memory) => assert!(is_refused, "no request was refused"),
            other => return other,
        }
    }
    panic!("it is refused for ever");
}

fn create_refused(pool: &Pool<Tracked>) -> Result<Key, CreateError> {
    let mut filling = refuse_each(|| pool.create())?;
    assert_eq!(filling.get(), 0, "an object isn't empty");
    filling.set(7);
    Ok(filling.publish())
}

fn make_refused(world: &World) {
    if let Ok(key) = create_refused(&world.pool) {
        world.note();
        assert!(world.look(key, 7));
    }
}

fn make_two_refused(world: &World) {
    make_refused(world);
    make_refused(world);
}

fn make_and_look(world: &World) {
    if let Ok(key) = world.make(7) {
        assert!(world.look(key, 7));
    }
    world.look(key_of(1, 0), 7);
}

fn lane_refused(world: &World) {
    if let Ok(lane) = refuse_each(|| world.pool.lane()) {
        if let Ok(filling) = refuse_each(|| lane.create()) {
            drop(filling);
        }
    }
}

fn reserve_refused(world: &World) {
    if refuse_each(|| world.pool.reserve(3)).is_ok() {
        for _ in 0..3 {
            let (made, is_refused) = refusing(1, || world.make(7));
            assert!(
                made.is_ok() && !is_refused,
                "a create behind a reserve asks for memory"
            );
        }
    }
}

/// Memory for the shard's second page is refused, if it isn't there, and the thread exits.
fn page_refused(world: &World) {
    let (made, _) = refusing(2, || world.pool.create().map(drop));
    assert_ne!(made, Err(CreateError::Full));
}

/// A page can be opened still in a shard that was left.
fn make_in_what_was_left(world: &World) {
    assert_ne!(world.make(7).err(), Some(CreateError::Full));
}

/// A pool of one place at most.
fn one_place() -> Pool<Tracked> {
    let limits = Limits::new().shards(1).first_page(1).places(1);
    limits.open().expect("limits")
}

/// A page of which the memory was refused isn't counted.
fn create_the_last(pool: &Pool<Tracked>) {
    let _ = create_refused(pool).expect("the place within the limit");
    assert_eq!(pool.create().err(), Some(CreateError::Full));
}

/// A pool of three places at most, whose allocator creates when it is asked for memory: no place is lost, or counted twice. (It makes a shard
/// of its own where the first one is on its way; then two pages with a place are open.)
fn create_within_each_request(_: &()) {
    for number in 1..20 {
        let limits = Limits::new().first_page(1).places(3);
        let pool: Pool<Tracked> = limits.open().expect("limits");
        let hook = || drop(pool.create());
        let (made, is_hooked) = interrupting(number, &hook, || pool.create().map(Filling::publish));
        let first = made.expect("a place");
        let others = iter::from_fn(|| pool.create().ok().map(Filling::publish));
        let keys: Vec<Key> = iter::once(first).chain(others).collect();
        let shard = |key: &Key| u64::from(*key) >> 16 & 0xff;
        let is_one_shard = keys.iter().all(|key| shard(key) == shard(&first));
        assert_eq!(keys.len(), if is_one_shard { 3 } else { 2 });
        if !is_hooked {
            return;
        }
    }
    panic!("it asks for ever");
}

/// The allocator publishes an object and clears it.
fn clear_within_each_request(world: &World) {
    let hook = || {
        if let Ok(key) = world.make(7) {
            assert!(world.clear(key));
        }
    };
    for number in 1..20 {
        let (made, is_hooked) = interrupting(number, &hook, || world.pool.create());
        drop(made);
        if !is_hooked {
            return;
        }
    }
}

/// A get, a clone, a clear, an owned handle ask for none.
fn get_refused(world: &World) {
    let key = world.keys[0];
    let (_, is_refused) = refusing(1, || {
        let object = world.pool.get(key);
        let owned = world.pool.get_owned(key);
        drop((object.clone(), owned.clone()));
        world.count(world.pool.clear(key));
    });
    assert!(!is_refused, "a call asks for memory");
}
