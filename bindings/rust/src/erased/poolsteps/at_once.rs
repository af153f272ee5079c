// Made from crates/poolsteps/src/at_once.rt by tools/erase/erase.py: change that file, not this one.

//! Several steps of a clear, or of a filling that is dropped, one after another with nothing between them, as one operation on
//! the key's word.

use crate::word::Grid;

use crate::erased::keybits::{claimable, claimed, generation_of, MARK_BIT};
use crate::erased::poolsteps::grid::Spot;

impl Grid<'_> {
    /// SWEEP: where a key is published and unmarked and nobody refers to it, the ENTER, MARK, LEAVE and CLAIM of its
    /// clear, by one compare-exchange. Else it changes nothing: where the key misses and no claim is owed at the word
    /// that was found, it was the ENTER and LEAVE of a clear that misses, and otherwise a look. Answers the word that
    /// was found.
    #[inline]
    pub fn sweep(&self, spot: Spot, key: u64) -> u64 {
        self.sweep_as(spot, key)
    }

    #[inline]
    fn sweep_as(&self, spot: Spot, key: u64) -> u64 {
        let marked = claimable(generation_of(key));
        let new = claimed(marked, self.shape.last_generation);
        self.sweeps(marked - MARK_BIT, new)
    }

    /// STRIKE, from a word that hits the key: where its word is still the one that is expected, the ENTER, MARK and
    /// LEAVE of its clear, by one compare-exchange. Where it finds another word, it changes nothing and was a look.
    /// Answers the word that was found.
    #[inline]
    pub fn strike(&self, spot: Spot, key: u64, expected: u64) -> u64 {
        self.strike_as(spot, key, expected)
    }

    #[inline]
    fn strike_as(&self, spot: Spot, key: u64, expected: u64) -> u64 {
        let _ = key;
        self.strikes(expected, expected.wrapping_add(MARK_BIT))
    }
}
