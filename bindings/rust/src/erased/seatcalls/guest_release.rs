// Made from crates/seatcalls/src/guest_release.rt by tools/erase/erase.py: change that file, not this one.

//! The release of a guest's reference.

use crate::word::Grid;

use crate::erased::keybits::place_of;
use crate::erased::poolsteps::Spot;
use crate::erased::seatcalls::ended::{end, Ended, Parted};
use crate::erased::seatcalls::references::GuestRef;

impl GuestRef {
    /// As `release`. Where the guest claims the key's place, it keeps it, with its object.
    #[inline(always)]
    pub fn release_or_keep(self, grid: &Grid<'_>) -> Ended {
        let Parted { spot, found } = self.leave(grid);
        end(grid, spot, found)
    }

    /// LEAVE, behind the way back of the guest's share.
    #[inline(always)]
    fn leave(self, grid: &Grid<'_>) -> Parted {
        let GuestRef { start, key } = self;
        let spot = Spot {
            place: place_of(key),
            start,
        };
        let left = grid.leave(spot, key);
        Parted { spot, found: left }
    }
}
