//! What a thread knows: its number, and its shards of each pool.
//!
//! A thread has a shard from its first create in a pool until it exits; then it leaves its shards to the registry of each pool that is still
//! there. Creates find the shard by the pool's number: at hand for the last pools, else in the thread's list. A thread that exits has no list
//! any more, and takes a shard for one call.
use crate::errors::MemoryRefused;
use crate::memory::Counted;
use crate::registry::Registry;
use crate::shard::Shard;
use crate::sync::Counter;
use std::cell::{Cell, RefCell};
use std::ptr::NonNull;

/// Who may own a shard: a thread or a `Lane`, by a number that nobody else ever has.
#[derive(Clone, Copy)]
pub(crate) struct Owner(u64);

/// Of how many pools a thread finds its shard without a search.
const WAYS: usize = 32;

type Last = (u64, Option<NonNull<Shard>>);

thread_local! {
    // (These two have no destructor, so they are there as long as the thread is.)
    static NUMBER: Cell<u64> = const { Cell::new(0) };
    static LAST: [Cell<Last>; WAYS] = const { [const { Cell::new((0, None)) }; WAYS] };
    static ALL: RefCell<Memberships> = const { RefCell::new(Memberships(Vec::new())) };
}

impl Owner {
    pub(crate) const NOBODY: u64 = u64::MAX;

    /// A number for a `Lane`.
    pub(crate) fn new() -> Owner {
        static NEXT: Counter = Counter::from_one();
        Owner(NEXT.next())
    }

    /// The calling thread; one that never needed a number has 0, and owns nothing.
    #[inline(always)]
    pub(crate) fn thread() -> Owner {
        Owner(NUMBER.get())
    }

    /// The same, for a thread that is to have a number.
    #[inline(always)]
    pub(crate) fn numbered_thread() -> Owner {
        if NUMBER.get() == 0 {
            Owner::give_number();
        }
        Owner::thread()
    }

    #[cold]
    #[inline(never)]
    fn give_number() {
        NUMBER.set(Owner::new().0);
    }

    #[inline(always)]
    pub(crate) fn number(self) -> u64 {
        self.0
    }
}

/// The shards of a thread in one pool, by one of their ring.
struct Membership {
    pool: u64,
    registry: Counted<Registry>,
    shard: Cell<NonNull<Shard>>,
}

/// By rising pool. The memory of the list is asked for and freed while nobody has it borrowed: the allocator may call the pool.
struct Memberships(Vec<Membership>);

impl Drop for Memberships {
    fn drop(&mut self) {
        LAST.with(|last| last.iter().for_each(|last| last.set((0, None))));
        for it in &self.0 {
            it.registry.leave(it.shard.get().as_ptr());
        }
    }
}

/// The shard of this thread in a pool from which its last create there took a place, if it is at hand.
#[inline(always)]
pub(crate) fn last_shard(pool: u64) -> Option<NonNull<Shard>> {
    LAST.with(|last| match last[pool as usize % WAYS].get() {
        (of, shard) if of == pool => shard,
        _ => None,
    })
}

fn set_last(pool: u64, shard: NonNull<Shard>) {
    LAST.with(|last| last[pool as usize % WAYS].set((pool, Some(shard))));
}

/// The same, if it isn't at hand.
pub(crate) fn find_shard(pool: u64) -> Option<NonNull<Shard>> {
    let shard = ALL.try_with(|all| all.borrow().of(pool).map(|it| it.shard.get()));
    let shard = shard.ok().flatten()?;
    set_last(pool, shard);
    Some(shard)
}

/// The last create took a place from this shard, which is in the thread's ring.
pub(crate) fn turn_to(pool: u64, shard: NonNull<Shard>) {
    // (A thread that exits has no list.)
    let _ = ALL.try_with(|all| {
        if let Some(it) = all.borrow().of(pool) {
            it.shard.set(shard);
            set_last(pool, shard);
        }
    });
}

/// Keeps a shard, which is a ring alone, until the thread exits. False if it exits already, or its list found no memory.
pub(crate) fn keep(pool: u64, registry: &Counted<Registry>, shard: NonNull<Shard>) -> bool {
    let may_have_free_places =
        || ALL.try_with(|all| all.borrow().0.len() < all.borrow().0.capacity());
    loop {
        match may_have_free_places() {
            Ok(true) => break,
            Ok(false) if grow().is_ok() => {}
            _ => return false,
        }
    }
    let registry = Counted::clone(registry);
    let kept = ALL.try_with(|all| all.borrow_mut().add(pool, registry, shard));
    // (What comes back is dropped while the list isn't borrowed.)
    kept.is_ok()
}

/// Moves the list to memory for twice as many pools as are there still, without those that are gone.
fn grow() -> Result<(), MemoryRefused> {
    let open = ALL.with(|all| all.borrow().open());
    let mut larger = Vec::new();
    larger
        .try_reserve_exact(2 * open + 16)
        .map_err(|_| MemoryRefused)?;
    let gone = ALL.with(|all| all.borrow_mut().move_to(larger));
    drop(gone);
    Ok(())
}

impl Memberships {
    /// Of how many pools that are there still.
    fn open(&self) -> usize {
        self.0.iter().filter(|it| it.registry.is_open()).count()
    }

    fn of(&self, pool: u64) -> Option<&Membership> {
        let at = self.0.binary_search_by_key(&pool, |it| it.pool).ok()?;
        Some(&self.0[at])
    }

    /// The list's memory suffices for it. A share of the registry comes back that isn't needed.
    fn add(
        &mut self,
        pool: u64,
        registry: Counted<Registry>,
        shard: NonNull<Shard>,
    ) -> Option<Counted<Registry>> {
        set_last(pool, shard);
        if let Some(it) = self.of(pool) {
            // The allocator called the pool as the shard or this list's memory was asked for, and that call kept another shard.
            // SAFETY: the thread owns both shards, of a pool that is open.
            unsafe { it.shard.get().as_ref().link(shard.as_ref()) };
            it.shard.set(shard);
            return Some(registry);
        }
        let at = self.0.partition_point(|it| it.pool < pool);
        let membership = Membership {
            pool,
            registry,
            shard: Cell::new(shard),
        };
        self.0.insert(at, membership);
        None
    }

    /// Goes on in other memory, if all fit. What comes back are the pools that are gone, and the memory.
    fn move_to(&mut self, mut larger: Vec<Membership>) -> Vec<Membership> {
        let mut open = 0;
        for at in 0..self.0.len() {
            if self.0[at].registry.is_open() {
                self.0.swap(open, at);
                open += 1;
            }
        }
        if open >= larger.capacity() {
            return larger;
        }
        larger.extend(self.0.drain(..open));
        std::mem::replace(&mut self.0, larger)
    }
}
