// Made from crates/seatcalls/src/guest_get.rt by tools/erase/erase.py: change that file, not this one.

//! A get by a guest.

use crate::word::Grid;

use crate::erased::keybits::is_hit;
use crate::erased::poolsteps::{Purpose, Spot};
use crate::erased::seatcalls::ended::{end, Ended, Parted};
use crate::erased::seatcalls::guests::Guest;
use crate::erased::seatcalls::references::GuestRef;

impl Guest {
    /// As `get`. Where the guest claims the key's place, it keeps it, with its object.
    #[inline(always)]
    pub fn get_or_keep(self, grid: &Grid<'_>, key: u64) -> Result<GuestRef, Ended> {
        let Some(spot) = grid.find_key(key) else {
            return Err(Ended::Free(self));
        };
        match self.enter(grid, spot, key) {
            Ok(reference) => Ok(reference),
            Err(Parted { spot, found }) => Err(end(grid, spot, found)),
        }
    }

    /// ENTER of a get of a key, and the LEAVE of one that misses.
    #[inline(always)]
    fn enter(self, grid: &Grid<'_>, spot: Spot, key: u64) -> Result<GuestRef, Parted> {
        let Guest {} = self;
        let found = grid.enter(spot, key, Purpose::ToGet);
        if is_hit(key, found) {
            return Ok(GuestRef {
                start: spot.start,
                key,
            });
        }
        let left = grid.leave(spot, key);
        Err(Parted { spot, found: left })
    }
}
