//! What a pool of sharded-slab's names is made with, and its keys.
use crate::key::Key;

/// What a pool is made with. Of the four, [`RESERVED_BITS`](Config::RESERVED_BITS) alone makes a difference.
pub trait Config: Sized {
    /// Not used: any number of threads may call.
    const MAX_THREADS: usize = 4096;
    /// Not used: a pool grows until memory is refused, or all its shards are full.
    const MAX_PAGES: usize = 32;
    /// Not used.
    const INITIAL_PAGE_SIZE: usize = 32;
    /// How many of the highest bits of each key are left to the program: 0 to 24. They are 0 in the keys that the pool gives, and not
    /// looked at in those that it takes.
    ///
    /// The generation has so many bits less, of 32; then its place is retired. With 24 the pool ends after some 45,000,000,000 creates.
    const RESERVED_BITS: usize = 0;
}

/// All as [`Config`] has it.
#[derive(Clone, Copy, Debug)]
pub struct DefaultConfig {
    _private: (),
}

impl Config for DefaultConfig {}

/// The bits of a key of the crate, from the lowest: place, generation, tag. Where bits are reserved the generation stands highest, since
/// it has zeros there: place, tag, generation.
mod bits {
    pub const PLACE: u64 = (1 << 24) - 1;
    pub const GENERATION: u32 = 24;
    pub const TAG: u32 = 56;
    pub const RESERVING_TAG: u32 = 24;
    pub const RESERVING_GENERATION: u32 = 32;
}

/// The last generation that fits beside the reserved bits.
pub(super) const fn last_generation<C: Config>() -> u32 {
    assert!(C::RESERVED_BITS <= 24, "at most 24 bits can be reserved");
    u32::MAX >> C::RESERVED_BITS
}

/// A key, as this module tells it.
#[inline(always)]
const fn packed<C: Config>(number: u64) -> u64 {
    if C::RESERVED_BITS == 0 {
        return number;
    }
    let (tag, generation) = (number >> bits::TAG, (number >> bits::GENERATION) as u32);
    number & bits::PLACE
        | tag << bits::RESERVING_TAG
        | (generation as u64) << bits::RESERVING_GENERATION
}

/// What was packed. Reserved bits aren't looked at.
#[inline(always)]
const fn unpacked<C: Config>(number: u64) -> u64 {
    if C::RESERVED_BITS == 0 {
        return number;
    }
    let tag = (number >> bits::RESERVING_TAG) as u8 as u64;
    let generation = (number >> bits::RESERVING_GENERATION) & last_generation::<C>() as u64;
    number & bits::PLACE | generation << bits::GENERATION | tag << bits::TAG
}

#[inline(always)]
pub(super) fn index_of<C: Config>(key: Key) -> usize {
    packed::<C>(u64::from(key)) as usize
}

#[inline(always)]
pub(super) fn key_of<C: Config>(index: usize) -> Option<Key> {
    Key::try_from(unpacked::<C>(index as u64)).ok()
}
