// Made from crates/keybits/src/lib.rt by tools/erase/erase.py: change that file, not this one.

//! Keys, places, shapes and lifecycle words of a sharded object pool, and the steps that change its atomic words.

mod key;
mod place;
mod shape;
mod words;

pub use key::Key;
pub use place::{generation_of, place_of, shard_of, tag_of, Place, PAGE_NUMBERS};
pub use shape::{Shape, ShapeFault, GREATEST_TAG, LARGEST_FIRST_PAGE, MOST_LANES, MOST_PAGES};
pub use words::{
    claimable, claimed, is_hit, is_present, owes_claim, Life, State, MARK_BIT, ONE_COUNT,
    ONE_GENERATION, PUBLISHED_BIT,
};
