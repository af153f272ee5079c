// Made from crates/seatcalls/src/lib.rt by tools/erase/erase.py: change that file, not this one.

//! What the seat of one caller of a pool does at its table, beside no more than the place: cells in and out of slots, what
//! becomes of a place that was claimed, and the calls of guests, who own no shard. What a lane keeps beside its seat is in
//! `shardpool`.

mod at;
mod ended;
mod guest_clear;
mod guest_get;
mod guest_release;
mod guests;
mod references;

pub use ended::Ended;
pub use guests::Guest;
pub use references::GuestRef;
