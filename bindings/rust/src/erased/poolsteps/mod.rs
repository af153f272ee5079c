// Made from crates/poolsteps/src/lib.rt by tools/erase/erase.py: change that file, not this one.

//! The table of a sharded object pool: its atomic words, the slots for shares, the cells in which the objects stand. Each step
//! on a word and each move of shares is one call that keeps what holds between any two steps; who then has which share of which
//! cell is told by laws. What a lane has of places is here too, and how the cells of a closed pool are dropped.

mod at_once;
mod grid;
mod steps;

pub use grid::Spot;
pub use steps::Purpose;
