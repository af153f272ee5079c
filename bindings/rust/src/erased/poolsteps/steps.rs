// Made from crates/poolsteps/src/steps.rt by tools/erase/erase.py: change that file, not this one.

//! The steps of lifecycle words. Each is one call of the table, and answers the word that it found.

use crate::word::Grid;

use crate::erased::keybits::{claimable, claimed, MARK_BIT, ONE_COUNT};
use crate::erased::poolsteps::grid::Spot;

/// What an ENTER is for.
#[derive(Clone, Copy, Debug, PartialEq, Eq)]
pub enum Purpose {
    /// A get.
    ToGet,
    /// A clear.
    ToClear,
}

impl Grid<'_> {
    /// ENTER of a get or of a clear of a key: one is added to the count of its place. Answers the word that was found;
    /// the call hits where that is of the key's generation and PRESENT. A get is of a key to which the lane has fewer
    /// references than the most.
    #[inline]
    pub fn enter(&self, spot: Spot, key: u64, purpose: Purpose) -> u64 {
        self.enter_as(spot, key, purpose)
    }

    #[inline]
    fn enter_as(&self, spot: Spot, key: u64, purpose: Purpose) -> u64 {
        let _ = key;
        let _ = purpose;
        self.enters(ONE_COUNT)
    }

    /// LEAVE: one is taken from the count of a key's place. It gives back a reference where nothing is under way, and
    /// else undoes the ENTER that is. Before the last reference is given back its share is. Answers the word that was
    /// found.
    #[inline]
    pub fn leave(&self, spot: Spot, key: u64) -> u64 {
        self.leave_as(spot, key)
    }

    #[inline]
    fn leave_as(&self, spot: Spot, key: u64) -> u64 {
        let _ = key;
        self.leaves(ONE_COUNT)
    }

    /// MARK, after the ENTER of a clear that hit. Answers the word that was found; the clear is the one that marked the
    /// key where that was PRESENT.
    #[inline]
    pub fn mark(&self, spot: Spot, key: u64) -> u64 {
        self.mark_as(spot, key)
    }

    #[inline]
    fn mark_as(&self, spot: Spot, key: u64) -> u64 {
        let _ = key;
        self.marks(MARK_BIT)
    }

    /// CLAIM of the place and generation that the lane owes: it succeeds where the word found is (generation, MARKED,
    /// count 0). Answers the word that was found.
    #[inline]
    pub fn claim(&self, spot: Spot, generation: u32) -> u64 {
        self.claim_as(spot, generation)
    }

    #[inline]
    fn claim_as(&self, spot: Spot, generation: u32) -> u64 {
        let old = claimable(generation);
        let new = claimed(old, self.shape.last_generation);
        self.claims(old, new)
    }
}
