// Made from crates/seatcalls/src/ended.rt by tools/erase/erase.py: change that file, not this one.

//! What follows the LEAVE of a guest: nothing, or the CLAIM of the place, which the guest then has.

use crate::word::{keep, Claimed, Grid};

use crate::erased::keybits::claimable;
use crate::erased::poolsteps::Spot;
use crate::erased::seatcalls::at::owed_by;
use crate::erased::seatcalls::guests::Guest;

/// What a guest has after a call.
pub enum Ended {
    /// The guest, for its next call.
    Free(Guest),
    /// The place that it claimed, with the guest in it.
    Kept(Claimed),
}

/// A guest behind a LEAVE, and the word that this found.
pub(crate) struct Parted {
    pub(crate) spot: Spot,
    pub(crate) found: u64,
}

/// What a guest has behind a LEAVE that found this word. Where the word says that it left (g, MARKED, 0), it claims g. One
/// step at most, and two looks.
#[inline(always)]
pub(crate) fn end(grid: &Grid<'_>, spot: Spot, found: u64) -> Ended {
    let Some(generation) = owed_by(found) else {
        return Ended::Free(Guest {});
    };
    let word = grid.claim(spot, generation);
    if word != claimable(generation) {
        return Ended::Free(Guest {});
    }
    Ended::Kept(keep(grid, spot, generation))
}
