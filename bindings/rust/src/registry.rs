//! Which shards of a pool nobody owns.
//!
//! The one lock of a pool stands here. Under it a shard gets an owner or loses him, and nothing else is done: no memory is asked for or
//! freed, and no code of others runs. The shards are in lists by links of their own. A thread has a share of the registry, so it may outlive
//! its pool.
use crate::shard::Shard;
use crate::sync::{self, Mutex};
use crate::thread::Owner;
use std::ptr;

pub(crate) struct Registry(Mutex<State>);

pub(crate) struct State {
    is_open: bool,
    /// Those that may have a free place, the last that was left first; and those that had none.
    free: List,
    full: List,
    /// How many shards there are.
    pub(crate) made: usize,
}

/// Which shard somebody wants.
#[derive(Clone, Copy, PartialEq, Eq)]
pub(crate) enum Wanted {
    /// One that may have a free place, or a new one; a full one too.
    Any,
    /// One that may have a free place, or a new one.
    Free,
    /// One with free places in the pages that it has.
    Places,
}

/// Shards by their links.
struct List(*const Shard);

// SAFETY: shards may be used by any thread, as long as the pool is open.
unsafe impl Send for State {}

impl Registry {
    pub(crate) const fn new() -> Registry {
        Registry(Mutex::new(State {
            is_open: true,
            free: List(ptr::null()),
            full: List(ptr::null()),
            made: 0,
        }))
    }

    /// Does something under the lock.
    pub(crate) fn locked<R>(&self, act: impl FnOnce(&mut State) -> R) -> R {
        act(&mut sync::lock(&self.0))
    }

    pub(crate) fn is_open(&self) -> bool {
        self.locked(|state| state.is_open)
    }

    /// The pool ends: its shards are touched no more.
    pub(crate) fn close(&self) {
        self.locked(|state| state.is_open = false);
    }

    /// The owner leaves the shards of a ring. (If the pool is gone, so are they.)
    pub(crate) fn leave(&self, ring: *const Shard) {
        self.locked(|state| {
            let mut at = ring;
            while state.is_open {
                // SAFETY: the pool is open, and who closes it waits for the lock.
                let shard = unsafe { &*at };
                let next = shard.next();
                shard.disown();
                let list = match shard.may_have_free_places() {
                    true => &mut state.free,
                    false => &mut state.full,
                };
                shard.set_next(list.0);
                list.0 = at;
                if next == ring {
                    return;
                }
                at = next;
            }
        });
    }
}

impl State {
    /// A shard of this kind that nobody owned: one of those that were left with free places first, the last at first.
    pub(crate) fn take(&mut self, owner: Owner, wanted: Wanted) -> Option<*const Shard> {
        let is_wanted = match wanted {
            Wanted::Any => |_: &Shard| true,
            Wanted::Free => Shard::may_have_free_places,
            Wanted::Places => Shard::has_places,
        };
        // SAFETY: the pool is open, as one of its calls is made.
        let shard = unsafe {
            let left = self.free.remove(is_wanted);
            left.or_else(|| self.full.remove(is_wanted))
        }?;
        shard.own_by(owner);
        Some(shard)
    }

    /// Whether all shards have owners.
    pub(crate) fn has_none(&self) -> bool {
        self.free.0.is_null() && self.full.0.is_null()
    }
}

impl List {
    /// Takes the first of this kind out.
    ///
    /// # Safety
    ///
    /// The pool is open.
    unsafe fn remove<'a>(&mut self, is_wanted: impl Fn(&Shard) -> bool) -> Option<&'a Shard> {
        let mut before: Option<&Shard> = None;
        let mut at = self.0;
        // SAFETY: the pool is open, so its shards are there.
        while let Some(shard) = unsafe { at.as_ref() } {
            if is_wanted(shard) {
                match before {
                    Some(before) => before.set_next(shard.next()),
                    None => self.0 = shard.next(),
                }
                return Some(shard);
            }
            before = Some(shard);
            at = shard.next();
        }
        None
    }
}
