// Made from crates/seatcalls/src/at.rt by tools/erase/erase.py: change that file, not this one.

//! Where a call acts and for which lane, and what became of a place that it reclaimed.

use crate::erased::keybits::{owes_claim, Life};

/// The generation whose claim a LEAVE that found this word owes, where it owes one.
#[inline(always)]
pub fn owed_by(found: u64) -> Option<u32> {
    if owes_claim(found) {
        Some(Life::of_word(found).generation)
    } else {
        None
    }
}
