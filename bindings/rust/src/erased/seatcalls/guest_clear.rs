// Made from crates/seatcalls/src/guest_clear.rt by tools/erase/erase.py: change that file, not this one.

//! A clear by a guest.

use crate::word::{keep, Grid};

use crate::erased::keybits::{
    generation_of, is_hit, is_present, owes_claim, Life, State, ONE_COUNT,
};
use crate::erased::poolsteps::{Purpose, Spot};
use crate::erased::seatcalls::ended::{end, Ended};
use crate::erased::seatcalls::guests::Guest;

impl Guest {
    /// As `clear`. Where the guest claims the key's place, it keeps it, with its object.
    #[inline(always)]
    pub fn clear_or_keep(self, grid: &Grid<'_>, key: u64) -> (bool, Ended) {
        let Some(spot) = grid.find_key(key) else {
            return (false, Ended::Free(self));
        };
        match self.clear_at_once(grid, spot, key) {
            Ok(answer) => answer,
            Err(guest) => clear_by_steps(grid, guest, spot, key),
        }
    }

    /// A clear of a key whose steps are one operation.
    ///
    /// # Errors
    ///
    /// The guest, where another caller stepped on the key's word meanwhile: then it looked, and did nothing.
    #[inline(always)]
    fn clear_at_once(self, grid: &Grid<'_>, spot: Spot, key: u64) -> Result<(bool, Ended), Guest> {
        let Guest {} = self;
        let generation = generation_of(key);
        let found = grid.sweep(spot, key);
        if found == unreferred(generation) {
            let claimed = keep(grid, spot, generation);
            return Ok((true, Ended::Kept(claimed)));
        }
        if is_hit(key, found) {
            let struck = grid.strike(spot, key, found);
            if struck == found {
                let guest = Guest {};
                return Ok((true, Ended::Free(guest)));
            }
            return Err(Guest {});
        }
        if owes_claim(found.wrapping_add(ONE_COUNT)) {
            return Err(Guest {});
        }
        let guest = Guest {};
        Ok((false, Ended::Free(guest)))
    }
}

/// A clear of a key, each of whose steps is an operation: where another caller stepped on the key's word meanwhile. Away
/// from the call's own path, for few clears come here.
#[cold]
#[inline]
fn clear_by_steps(grid: &Grid<'_>, guest: Guest, spot: Spot, key: u64) -> (bool, Ended) {
    let Guest {} = guest;
    let found = grid.enter(spot, key, Purpose::ToClear);
    if !is_hit(key, found) {
        let left = grid.leave(spot, key);
        return (false, end(grid, spot, left));
    }
    let marked = is_present(grid.mark(spot, key));
    let left = grid.leave(spot, key);
    (marked, end(grid, spot, left))
}

/// The word of a place whose key of this generation is published and unmarked, and to which nobody refers.
#[inline]
fn unreferred(generation: u32) -> u64 {
    let life = Life {
        generation,
        count: 0,
        state: State::Present,
    };
    life.word()
}
