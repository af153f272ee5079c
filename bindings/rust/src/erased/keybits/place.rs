// Made from crates/keybits/src/place.rt by tools/erase/erase.py: change that file, not this one.

//! Places: their numbers, in keys too, and the words by which they are returned.

/// The greatest number of a place: of shard 255, page 15 and slot 4095.
pub const GREATEST_PLACE: u32 = 16_777_215;

/// How many numbers of places belong to a page, whether or not the page has as many places.
pub const PAGE_NUMBERS: u32 = 4096;

/// Where an object of the pool lies: a slot of a page of a shard.
#[derive(Clone, Copy, Debug, PartialEq, Eq)]
pub struct Place {
    /// The shard, 0 to 255. A shape's places have one below its lanes.
    pub shard: u8,
    /// The page of the shard. A key has room for 0 to 15.
    pub page: u8,
    /// The slot of the page. A key has room for 0 to 4095.
    pub slot: u16,
}

impl Place {
    /// The place's number, slot + 4096 * page + 65536 * shard, for a page of at most 15 and a slot
    /// of at most 4095, so that each keeps to its own bits.
    #[inline]
    pub fn number(&self) -> u32 {
        u32::from(self.slot) + (u32::from(self.page) << 12) + (u32::from(self.shard) << 16)
    }
}

/// The shard of the place of this number.
#[inline]
pub fn shard_of(number: u32) -> u32 {
    number >> 16
}

/// The number of the place that a key's number names.
#[inline]
pub fn place_of(key: u64) -> u32 {
    (key & u64::from(GREATEST_PLACE)) as u32
}

/// The generation that a key's number names.
#[inline]
pub fn generation_of(key: u64) -> u32 {
    (key >> 24 & 0xffff_ffff) as u32
}

/// The tag that a key's number names.
#[inline]
pub fn tag_of(key: u64) -> u8 {
    (key >> 56) as u8
}
