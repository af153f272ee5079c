//! The Rust crate, by calls.
use crate::rounds::{self, Plan};
use crate::stores::{Keyed, Store, BYTES};
use pardz::{Buffer, Key, Lane, Pool};

fn key_of(word: u64) -> Key {
    Key::try_from(word).expect("a key")
}

/// A store's calls by a pool, or by a lane in hand, which are the same.
macro_rules! calls {
    () => {
        type Handle = Key;

        #[inline(always)]
        fn put(&self) -> Key {
            self.0.put(&BYTES).expect("memory")
        }

        #[inline(always)]
        fn read(&self, key: &Key) -> usize {
            self.0.get(*key).map_or(0, |bytes| bytes.len())
        }

        #[inline(always)]
        fn take(&self, key: Key) -> bool {
            self.0.clear(key)
        }
    };
}

pub struct Pardz(Pool<Buffer>);

impl Default for Pardz {
    fn default() -> Pardz {
        Pardz(Pool::new())
    }
}

impl Store for Pardz {
    calls!();

    #[inline(always)]
    fn read_last(&self, key: Key) -> usize {
        let bytes = self.0.get(key);
        self.0.clear(key);
        bytes.map_or(0, |bytes| bytes.len())
    }
}

impl Keyed for Pardz {
    fn word(key: Key) -> u64 {
        key.into()
    }

    fn key(word: u64) -> Key {
        key_of(word)
    }
}

/// By owned handles.
pub struct Owned(Pool<Buffer>);

impl Default for Owned {
    fn default() -> Owned {
        Owned(Pool::new())
    }
}

impl Store for Owned {
    type Handle = Key;

    #[inline(always)]
    fn put(&self) -> Key {
        let mut filling = self.0.create_owned().expect("memory");
        filling.append(&BYTES).expect("memory");
        filling.publish()
    }

    #[inline(always)]
    fn read(&self, key: &Key) -> usize {
        self.0.get_owned(*key).map_or(0, |bytes| bytes.len())
    }

    #[inline(always)]
    fn take(&self, key: Key) -> bool {
        self.0.clear(key)
    }

    #[inline(always)]
    fn read_last(&self, key: Key) -> usize {
        let bytes = self.0.get_owned(key);
        self.0.clear(key);
        bytes.map_or(0, |bytes| bytes.len())
    }
}

impl Keyed for Owned {
    fn word(key: Key) -> u64 {
        key.into()
    }

    fn key(word: u64) -> Key {
        key_of(word)
    }
}

/// By a lane in hand.
struct ByLane<'p>(Lane<'p>);

impl Store for ByLane<'_> {
    calls!();
}

/// Does the rounds of this name, each thread by a lane in hand. None where there are none of the name.
pub fn do_by_lanes(name: &str, plan: Plan) -> Option<u64> {
    let pool = Pool::new();
    match name {
        "get-many" => Some(by_lanes(&pool, plan, rounds::many_gets)),
        "get-two" => Some(by_lanes(&pool, plan, rounds::two_gets)),
        "cycle" => Some(by_lanes(&pool, plan, rounds::cycles)),
        "cycle-two" => Some(by_lanes(&pool, plan, rounds::two_cycles)),
        "at-once-1000" => Some(by_lanes(&pool, plan, rounds::all_at_once)),
        "churn-1000" => Some(by_lanes(&pool, plan, |lane, count| {
            rounds::churns(lane, count, 1000)
        })),
        "churn-20000" => Some(by_lanes(&pool, plan, |lane, count| {
            rounds::churns(lane, count, 20_000)
        })),
        "random-100000" => Some(rounds::on_threads(plan.threads, |_| {
            (0..plan.rounds).map(|_| one_in_random_order()).sum()
        })),
        _ => None,
    }
}

fn by_lanes<'p>(
    pool: &'p Pool<Buffer>,
    plan: Plan,
    work: impl Fn(&ByLane<'p>, u64) -> u64 + Sync,
) -> u64 {
    rounds::on_threads(plan.threads, |_| {
        let lane = pool.lane().expect("a lane is free");
        work(&ByLane(lane), plan.rounds)
    })
}

/// A fresh pool is given buffers by one lane, which clears them in a random order, and is dropped.
fn one_in_random_order() -> u64 {
    let pool = Pool::new();
    let lane = ByLane(pool.lane().expect("a lane is free"));
    rounds::in_random_order(&lane)
}
