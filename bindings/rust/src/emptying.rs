//! What becomes of a claimed place.
//!
//! Whoever claimed a place has it alone. He empties the object where it stands, and gives the place back then. Nothing of the pool is
//! borrowed meanwhile: `T::clear` may call the pool, block or panic. If it panics its object is dropped, and the place is free all the same.
//!
//! What a `T::clear` clears of its own pool waits until it has returned, and is emptied by the same call: so a chain of any length needs no
//! deeper stack. Each emptying says on a list of its thread's which pool it is of.
use crate::inner::Inner;
use crate::key::Key;
use crate::page::Place;
use crate::panics::First;
use crate::thread::Owner;
use crate::word::Claim;
use crate::Clear;
use std::cell::{Cell, RefCell};
use std::ptr;
use std::thread;

thread_local! {
    /// The innermost emptying of this thread. (It has no destructor, so it is there as long as the thread is.)
    static INNERMOST: Cell<*const Emptying> = const { Cell::new(ptr::null()) };
}

/// A call that empties objects of a pool, and the places of the same pool that wait.
struct Emptying {
    pool: *const (),
    waiting: RefCell<Vec<(Key, Claim)>>,
    /// How many of these are emptied.
    done: Cell<usize>,
    outer: *const Emptying,
}

impl Emptying {
    /// Has a place wait for the emptying of its pool that is under way on this thread. False if there is none, or no memory for it.
    fn has_wait(pool: *const (), key: Key, claim: Claim) -> bool {
        let mut at = INNERMOST.get();
        // SAFETY: the emptyings on the list are under way, further down on this thread's stack.
        while let Some(emptying) = unsafe { at.as_ref() } {
            if emptying.pool == pool {
                return emptying.push(key, claim);
            }
            at = emptying.outer;
        }
        false
    }

    fn push(&self, key: Key, claim: Claim) -> bool {
        // (It is borrowed where the allocator, asked for its memory, calls the pool.)
        let Ok(mut waiting) = self.waiting.try_borrow_mut() else {
            return false;
        };
        let has_capacity = waiting.try_reserve(1).is_ok();
        if has_capacity {
            waiting.push((key, claim));
        }
        has_capacity
    }

    /// The one that waits for longest.
    fn pop(&self) -> Option<(Key, Claim)> {
        let mut waiting = self.waiting.borrow_mut();
        let next = waiting.get(self.done.get()).copied();
        match next {
            Some(_) => self.done.set(self.done.get() + 1),
            None => waiting.clear(),
        }
        next
    }

    #[inline(always)]
    fn is_done(&self) -> bool {
        self.waiting.borrow().is_empty()
    }
}

impl<T: Clear> Inner<T> {
    /// Empties the object of a place that was claimed, and gives the place back.
    ///
    /// # Safety
    ///
    /// The place, that of the key, is the caller's alone.
    #[inline(always)]
    pub(crate) unsafe fn finish(&self, place: &Place<T>, key: Key, claim: Claim, by: Owner) {
        // SAFETY: the caller's.
        unsafe {
            if T::plain().0 {
                self.empty(place, key, claim, by);
            } else if INNERMOST.get().is_null() && !thread::panicking() {
                self.empty_all(place, key, claim, by);
            } else {
                self.finish_within(place, key, claim, by);
            }
        }
    }

    /// The same within another emptying, or while the thread unwinds.
    ///
    /// # Safety
    ///
    /// As there.
    #[cold]
    #[inline(never)]
    unsafe fn finish_within(&self, place: &Place<T>, key: Key, claim: Claim, by: Owner) {
        if Emptying::has_wait(self.address(), key, claim) {
            return;
        }
        // SAFETY: the caller's.
        let empties = || unsafe { self.empty_all(place, key, claim, by) };
        if thread::panicking() {
            // A second panic would end the process.
            let mut panics = First::default();
            panics.catch(empties);
            panics.hand_on();
        } else {
            empties();
        }
    }

    fn address(&self) -> *const () {
        ptr::from_ref(self).cast()
    }

    /// Empties it, and then what waits for that.
    ///
    /// # Safety
    ///
    /// As of [`finish`](Inner::finish).
    #[inline(always)]
    unsafe fn empty_all(&self, place: &Place<T>, key: Key, claim: Claim, by: Owner) {
        let emptying = Emptying {
            pool: self.address(),
            waiting: RefCell::new(Vec::new()),
            done: Cell::new(0),
            outer: INNERMOST.get(),
        };
        let _rest = Rest {
            inner: self,
            emptying: &emptying,
            by,
        };
        INNERMOST.set(&emptying);
        // SAFETY: the caller's.
        unsafe { self.empty(place, key, claim, by) };
    }

    /// # Safety
    ///
    /// The place, that of the key, is the caller's alone.
    #[inline(always)]
    unsafe fn empty(&self, place: &Place<T>, key: Key, claim: Claim, by: Owner) {
        let mut claimed = Claimed {
            place,
            is_empty: false,
            back: Back {
                inner: self,
                key,
                claim,
                by,
            },
        };
        // SAFETY: the object is this thread's alone.
        unsafe { place.write() }.clear();
        claimed.is_empty = true;
    }
}

/// What waits for an emptying is emptied as that ends: also where it panics.
struct Rest<'r, T: Clear> {
    inner: &'r Inner<T>,
    emptying: &'r Emptying,
    by: Owner,
}

impl<T: Clear> Rest<'_, T> {
    fn empty(&self) {
        while let Some((key, claim)) = self.emptying.pop() {
            if let Some(place) = self.inner.place(key) {
                // SAFETY: the place was claimed by this thread, and waited.
                unsafe { self.inner.empty(place, key, claim, self.by) };
            }
        }
    }

    #[cold]
    #[inline(never)]
    fn empty_all(&self) {
        let mut panics = First::default();
        while !self.emptying.is_done() {
            panics.catch(|| self.empty());
        }
        INNERMOST.set(self.emptying.outer);
        panics.hand_on();
    }
}

impl<T: Clear> Drop for Rest<'_, T> {
    #[inline(always)]
    fn drop(&mut self) {
        if self.emptying.is_done() {
            INNERMOST.set(self.emptying.outer);
        } else {
            self.empty_all();
        }
    }
}

/// A place that the thread alone has, which is to be given back unless it is retired.
pub(crate) struct Back<'r, T> {
    pub(crate) inner: &'r Inner<T>,
    pub(crate) key: Key,
    pub(crate) claim: Claim,
    pub(crate) by: Owner,
}

impl<T> Drop for Back<'_, T> {
    #[inline(always)]
    fn drop(&mut self) {
        if self.claim == Claim::Reusable {
            // SAFETY: the place is this thread's alone.
            unsafe { self.inner.give(self.key, self.by) };
        }
    }
}

/// A claimed place. When it ends, an object that wasn't emptied goes, as does that of a retired place; and the place is given back.
struct Claimed<'r, T: Clear> {
    place: &'r Place<T>,
    is_empty: bool,
    back: Back<'r, T>,
}

impl<T: Clear> Drop for Claimed<'_, T> {
    #[inline(always)]
    fn drop(&mut self) {
        if !self.is_empty || self.back.claim == Claim::Retired {
            self.drop_object();
        }
    }
}

impl<T: Clear> Claimed<'_, T> {
    #[cold]
    #[inline(never)]
    fn drop_object(&self) {
        self.place.word.vacate();
        let object = self.place.object();
        crate::sync::writes(object, "an object in its place");
        // SAFETY: the object is this thread's alone, and the word says now that there is none.
        let drops = || unsafe { object.drop_in_place() };
        match thread::panicking() {
            true => {
                let mut panics = First::default();
                panics.catch(drops);
                panics.hand_on();
            }
            false => drops(),
        }
    }
}
