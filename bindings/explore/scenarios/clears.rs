//! Clears within clears, and those that panic: objects that hold others, by an owned handle or by a key.
use crate::world::{alive, emptied, shape, Scenario, Tracked};
use pardz::{Census, Clear, Key, OwnedRef, Pool};
use std::panic::{self, AssertUnwindSafe};
use std::ptr;

pub fn all() -> Vec<Scenario> {
    let chain = || links(Panics::Never, false);
    vec![
        Scenario::new(
            "nested",
            chain,
            [Links::clear_first, |l: &Links| l.hold(0)],
            all_emptied,
        ),
        Scenario::new(
            "nested-both",
            chain,
            [Links::clear_first, |l: &Links| l.clear(1)],
            all_emptied,
        ),
        Scenario::new(
            "nested-held",
            chain,
            [Links::clear_first, |l: &Links| l.hold_and_clear(1)],
            all_emptied,
        ),
        Scenario::new("nested-again", chain, [Links::clear_twice], |l| {
            assert!(emptied() == 3 && l.end().free == 2)
        }),
        Scenario::new(
            "nested-made",
            chain,
            [Links::clear_first, Links::make],
            made_beside,
        ),
        Scenario::new(
            "nested-owned",
            || links(Panics::Never, true),
            [Links::clear_first, |l: &Links| l.hold_owned(0)],
            all_emptied,
        ),
        Scenario::new(
            "nested-panic",
            || links(Panics::Clear, false),
            [Links::clear_first, |l: &Links| l.hold_owned(0)],
            second_emptied,
        ),
        Scenario::new(
            "nested-owned-panic",
            || links(Panics::Clear, true),
            [Links::clear_first, |l: &Links| l.hold(0)],
            second_emptied,
        ),
        Scenario::new(
            "lost-and-made",
            || links(Panics::Clear, false),
            [Links::clear_first, Links::make],
            made_beside,
        ),
        Scenario::new(
            "nested-unwinding",
            || links(Panics::Clear, false),
            [Links::unwind, |l: &Links| l.hold(0)],
            second_emptied,
        )
        .forgetting(),
        Scenario::new(
            "drop-panics",
            || links(Panics::ClearAndDrop, false),
            [Links::hold_and_clear_first, |l: &Links| l.hold(0)],
            second_emptied,
        )
        .forgetting(),
        Scenario::new("default-panics", unmade, [Unmade::make, Unmade::make], drop).bounded(2),
        Scenario::new("default-panics-last", unmade, [Unmade::fail], drop),
        Scenario::new(
            "nested-pools",
            two_pools,
            [TwoPools::clear, TwoPools::clear],
            inner_emptied,
        ),
        Scenario::new(
            "plain",
            plain,
            [Plain::get, Plain::clear, Plain::make],
            Plain::settle,
        )
        .bounded(2),
    ]
}

/// What of an object panics.
#[derive(Clone, Copy, Debug, Default, PartialEq)]
enum Panics {
    #[default]
    Never,
    Clear,
    ClearAndDrop,
}

/// An object that clears another one when it is cleared, or lets go of it. Its clear may panic, and its drop too.
#[derive(Default)]
struct Linked {
    object: Tracked,
    next: Option<(&'static Pool<Linked>, Key)>,
    inner: Option<OwnedRef<Linked>>,
    panics: Panics,
}

impl Clear for Linked {
    fn clear(&mut self) {
        self.inner = None;
        if let Some((pool, key)) = self.next.take() {
            pool.clear(key);
        }
        assert_eq!(self.panics, Panics::Never, "a clear that panics");
        self.object.clear();
    }
}

impl Drop for Linked {
    fn drop(&mut self) {
        assert_ne!(self.panics, Panics::ClearAndDrop, "a drop that panics");
    }
}

/// Two objects, of which the first one has the second, in the only places of a pool.
struct Links {
    pool: Box<Pool<Linked>>,
    keys: [Key; 2],
}

fn links(panics: Panics, is_owned: bool) -> Links {
    let pool = Box::new(Pool::<Linked>::open(shape(1, 2, 1)).expect("a shape"));
    // SAFETY: the pool's objects clear nothing when it is closed, so none calls it then.
    let lasting: &'static Pool<Linked> = unsafe { &*ptr::from_ref(&*pool) };
    let lane = lasting.lane().expect("a shard");
    let second = lane
        .put_with(|linked| linked.object.set(2))
        .expect("a place");
    let first = lane.put_with(|linked| {
        linked.object.set(1);
        linked.next = (!is_owned).then_some((lasting, second));
        linked.inner = lasting.get_owned(second).filter(|_| is_owned);
        linked.panics = panics;
    });
    if is_owned {
        assert!(lane.clear(second));
    }
    drop(lane);
    let keys = [first.expect("a place"), second];
    Links { pool, keys }
}

/// Does something that may panic.
fn caught(with: impl FnOnce()) {
    drop(panic::catch_unwind(AssertUnwindSafe(with)));
}

impl Links {
    fn clear(&self, number: usize) {
        caught(|| _ = self.pool.clear(self.keys[number]));
    }

    /// Behind a clear within which others waited, an object is emptied by its own.
    fn clear_twice(&self) {
        self.clear(0);
        let made = self.pool.put_with(|linked| linked.object.set(3));
        assert!(self.pool.clear(made.expect("a place")));
    }

    fn clear_first(&self) {
        self.clear(0);
    }

    fn hold_and_clear_first(&self) {
        self.hold_and_clear(0);
    }

    fn hold(&self, number: usize) {
        caught(|| {
            if let Some(linked) = self.pool.get(self.keys[number]) {
                assert_eq!(linked.object.get(), number as u64 + 1);
            }
        });
    }

    fn hold_owned(&self, number: usize) {
        caught(|| {
            if let Some(linked) = self.pool.get_owned(self.keys[number]) {
                assert_eq!(linked.object.get(), number as u64 + 1);
            }
        });
    }

    fn hold_and_clear(&self, number: usize) {
        caught(|| {
            if let Some(linked) = self.pool.get(self.keys[number]) {
                self.pool.clear(self.keys[number]);
                assert_eq!(linked.object.get(), number as u64 + 1);
            }
        });
    }

    /// Lets go while the thread unwinds: a panic of the clear is swallowed then.
    fn unwind(&self) {
        caught(|| {
            let held = self.pool.get(self.keys[0]);
            self.pool.clear(self.keys[0]);
            assert!(held.is_none(), "unwinds");
        });
    }

    /// Fills the places that it finds free: with no object that is being emptied.
    fn make(&self) {
        for number in 3..5 {
            let filled = self.pool.put_with(|linked| {
                assert!(linked.object.get() == 0 && linked.next.is_none());
                linked.object.set(number);
            });
            if let Ok(key) = filled {
                assert_eq!(self.pool.get(key).expect("published").object.get(), number);
            }
        }
    }

    /// Both places are free, and may be filled.
    fn end(self) -> Census {
        let census = self.pool.close();
        assert_eq!((census.marked, census.filling), (0, 0));
        census
    }
}

fn all_emptied(links: Links) {
    assert_eq!(emptied(), 2, "each is emptied once");
    assert_eq!(links.end().free, 2);
}

/// The clear of the first one panicked, which is lost.
fn second_emptied(links: Links) {
    assert_eq!(
        (emptied(), alive()),
        (1, 1),
        "the other one is emptied once"
    );
    assert_eq!(links.end().free, 2);
}

fn made_beside(links: Links) {
    assert!(emptied() >= 1);
    let census = links.end();
    assert_eq!(census.present + census.free, 2);
}

/// A pool of two places, whose first objects are made by a function that panics, when it has made another one.
struct Unmade(Pool<Tracked>);

fn unmade() -> Unmade {
    Unmade(Pool::open(shape(2, 2, 1)).expect("a shape"))
}

impl Unmade {
    /// An object that can't be made, when another one was.
    fn fail(&self) {
        caught(|| {
            let fail = || {
                let inner = self.0.put_with(|object| object.set(1)).expect("a place");
                assert!(self.0.clear(inner));
                panic!("an object that can't be made");
            };
            drop(self.0.create_with(fail));
        });
    }

    /// However often it panics, no place is lost, nor the object that was made meanwhile.
    fn make(&self) {
        for _ in 0..3 {
            self.fail();
        }
        let both = [2, 3].map(|number| self.0.put_with(|object| object.set(number)));
        assert!(both.iter().all(Result::is_ok), "a place is lost");
    }
}

/// An object that holds one of another pool, and of another type.
#[derive(Default)]
struct Outer {
    number: u64,
    inner: Option<OwnedRef<Tracked>>,
}

impl Clear for Outer {
    fn clear(&mut self) {
        self.number = 0;
        self.inner = None;
    }
}

/// A pool with an object that alone has one of another pool.
struct TwoPools {
    outer: Pool<Outer>,
    key: Key,
    _inner: Pool<Tracked>,
}

fn two_pools() -> TwoPools {
    let outer = Pool::<Outer>::open(shape(1, 2, 1)).expect("a shape");
    let inner = Pool::<Tracked>::open(shape(1, 2, 1)).expect("a shape");
    let held = {
        let lane = inner.lane().expect("a shard");
        let key = lane.put_with(|object| object.set(1)).expect("a place");
        let held = inner.get_owned(key);
        assert!(lane.clear(key));
        held
    };
    let key = {
        let lane = outer.lane().expect("a shard");
        lane.put_with(|object| (object.number, object.inner) = (2, held))
            .expect("a place")
    };
    TwoPools {
        outer,
        key,
        _inner: inner,
    }
}

impl TwoPools {
    fn clear(&self) {
        self.outer.clear(self.key);
    }
}

fn inner_emptied(pools: TwoPools) {
    assert_eq!(emptied(), 1, "the inner object is emptied once");
    drop(pools);
}

/// A pool of vectors, whose clear runs no code of others.
struct Plain {
    pool: Pool<Vec<u64>>,
    key: Key,
}

fn plain() -> Plain {
    let pool = Pool::<Vec<u64>>::open(shape(1, 1, 1)).expect("a shape");
    let lane = pool.lane().expect("a shard");
    let key = lane.put_with(|row| row.push(5)).expect("a place");
    drop(lane);
    Plain { pool, key }
}

impl Plain {
    fn get(&self) {
        if let Some(row) = self.pool.get(self.key) {
            assert_eq!(*row, [5]);
        }
    }

    fn clear(&self) {
        assert!(self.pool.clear(self.key));
    }

    /// Publishes a vector, which was empty.
    fn make(&self) {
        if let Ok(mut filling) = self.pool.create() {
            assert!(filling.is_empty(), "an object isn't empty");
            filling.push(6);
            drop(filling);
        }
    }

    fn settle(self) {
        let census = self.pool.close();
        assert_eq!((census.free, census.total()), (1, 1));
    }
}
