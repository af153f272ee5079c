//! The lifecycle word of a place: its generation (32 bits), a count of references (30), a state (2).
//!
//! Each step on it is one atomic operation. Those of a get, a release and a clear are made by translated calls (`erased::seatcalls`), which
//! hand them their numbers and go by what they find; here each gets its ordering. Who counts himself and finds the key's generation and
//! PRESENT has a reference; who takes the last one of a MARKED word owes a claim, and whoever claims, by moving the generation on, has the
//! place alone. A generation only grows: so a word of another one has no object of the key any more, and one load tells a miss.
//!
//! A word that is 0 is of a place that was never taken: memory that the system zeroed is ready. RETIRED says that the place has no object:
//! its generations are used up, or its object was lost to a panic, and the next create makes another.
use crate::erased::keybits::{
    generation_of, is_hit, place_of, Life, Shape, State, MARK_BIT, ONE_COUNT, ONE_GENERATION,
    PUBLISHED_BIT,
};
use crate::erased::poolsteps::Spot;
use crate::errors::GetError;
use crate::sync::{AtomicU64, Ordering::*};

/// A count with one of these bits, from 2^28 on, is too large for a further reference. The counts above are left to calls under way: each
/// thread may have looked and then come late by one.
const TOO_MANY: u64 = 3 << 30;

/// From IDLE to RETIRED.
const VACANT_BIT: u64 = MARK_BIT;

/// A place that a guest claimed, as the sources call it.
pub(crate) use self::Claim as Claimed;

pub(crate) struct Word(AtomicU64);

/// The caller has the place alone now: it is to empty the object, and to give the place back, unless that is retired.
#[must_use]
#[derive(Clone, Copy, PartialEq, Eq)]
pub(crate) enum Claim {
    Reusable,
    Retired,
}

/// What the word says to the thread that took its place to be filled: the generation, and whether there is an object.
pub(crate) enum Taken {
    Filled(u64),
    Vacant(u64),
    New,
}

/// What a place is, as a look at its word tells.
#[derive(Clone, Copy, PartialEq, Eq)]
pub(crate) enum Look {
    New,
    Idle,
    Present(u64),
    Marked,
    Vacant,
    Retired,
}

impl Word {
    /// The pool as a call sees it at this word, if a look tells that the object of a key can be got. (Else the look was the call.)
    #[inline(always)]
    pub(crate) fn look_for<'p>(&'p self, key: u64, shape: &'p Shape) -> Option<Grid<'p>> {
        let seen = self.0.load(Relaxed);
        is_hit(key, seen).then(|| self.grid(shape, seen))
    }

    /// The same for a call that needs no look.
    #[inline(always)]
    pub(crate) fn grid<'p>(&'p self, shape: &'p Shape, seen: u64) -> Grid<'p> {
        Grid {
            shape,
            word: self,
            seen,
        }
    }

    /// One more reference, by who has one: also to an object whose key was cleared.
    #[inline]
    pub(crate) fn enter_again(&self) -> Result<(), GetError> {
        let found = self.0.fetch_add(ONE_COUNT, Relaxed);
        if found & TOO_MANY == 0 {
            return Ok(());
        }
        // (The caller's own reference is there still, so that nothing is claimed.)
        self.0.fetch_sub(ONE_COUNT, Release);
        Err(GetError::References)
    }

    /// Whether the object of a key can be got.
    #[inline]
    pub(crate) fn has(&self, key: u64) -> bool {
        is_hit(key, self.0.load(Acquire))
    }

    /// Whether there is a reference to the object of a key.
    pub(crate) fn is_held(&self, key: u64) -> bool {
        let life = Life::of_word(self.0.load(Relaxed));
        let is_published = matches!(life.state, State::Present | State::Marked);
        is_published && life.generation == generation_of(key) && life.count > 0
    }

    /// Whether the object of a key may be one that is being filled.
    pub(crate) fn is_begun(&self, key: u64) -> bool {
        let life = Life::of_word(self.0.load(Relaxed));
        life.state == State::Idle && life.generation == generation_of(key)
    }

    /// Of a place that the caller took.
    #[inline(always)]
    pub(crate) fn taken(&self) -> Taken {
        let word = self.0.load(Relaxed);
        let generation = word >> 32;
        if generation == 0 {
            return Taken::New;
        }
        match Life::of_word(word).state {
            State::Idle => Taken::Filled(generation),
            _ => Taken::Vacant(generation),
        }
    }

    /// A new place is taken for the first time: it has no object, or has got one. Nobody steps on its word, as it never was PRESENT.
    #[inline]
    pub(crate) fn begin(&self, state: State) {
        let first = Life {
            generation: 1,
            count: 0,
            state,
        };
        self.0.store(first.word(), Relaxed);
    }

    /// A vacant place has got an object.
    #[inline]
    pub(crate) fn occupy(&self) {
        self.0.fetch_and(!VACANT_BIT, Relaxed);
    }

    /// A place that the caller has alone loses its object.
    pub(crate) fn vacate(&self) {
        self.0.fetch_or(VACANT_BIT, Relaxed);
    }

    /// From IDLE to PRESENT.
    #[inline(always)]
    pub(crate) fn publish(&self) {
        self.0.fetch_add(PUBLISHED_BIT, Release);
    }

    /// The same with a reference.
    #[inline(always)]
    pub(crate) fn publish_held(&self) {
        self.0.fetch_add(PUBLISHED_BIT + ONE_COUNT, Release);
    }

    /// The key of an IDLE place won't be published: the generation moves on at once. (A stray get that counted itself just then takes itself
    /// back, and finds no object.)
    pub(crate) fn skip(&self, generation: u32, last: u32) -> Claim {
        let claim = claim_at(generation, last);
        match claim {
            Claim::Reusable => _ = self.0.fetch_add(ONE_GENERATION, Relaxed),
            Claim::Retired => self.vacate(),
        }
        claim
    }

    /// What the place is now, for who counts places or lists keys.
    pub(crate) fn look(&self, last: u32) -> Look {
        let word = self.0.load(Relaxed);
        if word == 0 {
            return Look::New;
        }
        let life = Life::of_word(word);
        match life.state {
            State::Idle => Look::Idle,
            State::Present => Look::Present(u64::from(life.generation)),
            State::Marked => Look::Marked,
            State::Retired if life.generation < last => Look::Vacant,
            State::Retired => Look::Retired,
        }
    }

    /// Whether the place has an object; none where it was never taken.
    pub(crate) fn has_object(&mut self) -> Option<bool> {
        match *self.0.get_mut() {
            0 => None,
            word => Some(Life::of_word(word).state != State::Retired),
        }
    }
}

/// What a claim of this generation gives.
#[inline(always)]
fn claim_at(generation: u32, last: u32) -> Claim {
    if generation < last {
        Claim::Reusable
    } else {
        Claim::Retired
    }
}

/// A pool as a translated call sees it, whose key's place is found. The proved pool has a table of all words; here it is that place's alone.
///
/// Each step is one atomic operation, and answers the word that it found.
pub(crate) struct Grid<'p> {
    pub(crate) shape: &'p Shape,
    word: &'p Word,
    /// What a look in front of the call found.
    seen: u64,
}

impl Grid<'_> {
    /// Whether there are as many references as there may be, as the look found.
    #[inline(always)]
    pub(crate) fn is_full(&self) -> bool {
        self.seen & TOO_MANY != 0
    }

    #[inline(always)]
    pub(crate) fn find_key(&self, key: u64) -> Option<Spot> {
        let place = place_of(key);
        Some(Spot { place, start: 0 })
    }

    #[inline(always)]
    pub(crate) fn enters(&self, one: u64) -> u64 {
        self.word.0.fetch_add(one, Acquire)
    }

    #[inline(always)]
    pub(crate) fn leaves(&self, one: u64) -> u64 {
        self.word.0.fetch_sub(one, Release)
    }

    /// It answers the state alone, PRESENT or MARKED, since the place stays published while the caller is counted. (So the compiler makes it one
    /// instruction, where it would try again for the whole word.)
    #[inline(always)]
    pub(crate) fn marks(&self, bit: u64) -> u64 {
        PUBLISHED_BIT + (self.word.0.fetch_or(bit, AcqRel) & bit)
    }

    #[inline(always)]
    pub(crate) fn claims(&self, old: u64, new: u64) -> u64 {
        either(self.word.0.compare_exchange(old, new, Acquire, Relaxed))
    }

    /// Where the look in front found another word, that look was the step.
    #[inline(always)]
    pub(crate) fn sweeps(&self, old: u64, new: u64) -> u64 {
        if self.seen != old {
            return self.seen;
        }
        self.strikes(old, new)
    }

    #[inline(always)]
    pub(crate) fn strikes(&self, old: u64, new: u64) -> u64 {
        either(self.word.0.compare_exchange(old, new, AcqRel, Relaxed))
    }
}

/// What a guest has who claimed a place: it is to be emptied (`emptying`).
#[inline(always)]
pub(crate) fn keep(grid: &Grid<'_>, _: Spot, generation: u32) -> Claimed {
    claim_at(generation, grid.shape.last_generation)
}

/// What an exchange found.
#[inline(always)]
fn either(exchange: Result<u64, u64>) -> u64 {
    exchange.unwrap_or_else(|found| found)
}

#[cfg(test)]
mod tests;
