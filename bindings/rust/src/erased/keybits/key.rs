// Made from crates/keybits/src/key.rt by tools/erase/erase.py: change that file, not this one.

//! Keys of published objects.

use crate::erased::keybits::place::Place;

/// The key of a published object: its pool's tag, its place and its generation, packed into one number.
///
/// The slot has the bits 0 to 11, the page 12 to 15, the shard 16 to 23, the generation 24 to 55 and
/// the tag 56 to 63. That a key packs its place and a generation is taken from sharded-slab's
/// documentation.
#[derive(Clone, Copy, Debug, PartialEq, Eq)]
pub struct Key {
    number: u64,
}

impl Key {
    /// The key of a pool with this tag, at this place and of this generation. None where the page
    /// is over 15, the slot over 4095 or the generation is 0.
    #[inline]
    pub fn pack_tagged(tag: u8, place: Place, generation: u32) -> Option<Key> {
        if place.page > 15 || place.slot > 4095 || generation == 0 {
            return None;
        }
        let number =
            u64::from(place.number()) + (u64::from(generation) << 24) + (u64::from(tag) << 56);
        Some(Key { number })
    }

    /// The number into which the key is packed.
    #[inline]
    pub fn number(&self) -> u64 {
        self.number
    }
}
