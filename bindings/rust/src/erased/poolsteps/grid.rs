// Made from crates/poolsteps/src/grid.rt by tools/erase/erase.py: change that file, not this one.

//! The table of a pool, the hands of its lanes, and where the words of a place stand.

/// A place of a pool, and where it stands.
#[derive(Clone, Copy, Debug, PartialEq, Eq)]
pub struct Spot {
    /// The place's number.
    pub place: u32,
    /// Where it stands in each row of words or of slots.
    pub start: u32,
}
