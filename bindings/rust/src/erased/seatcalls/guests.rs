// Made from crates/seatcalls/src/guests.rt by tools/erase/erase.py: change that file, not this one.

//! Guests: callers that own no shard.

/// A caller that owns no shard: it gets, reads, releases and clears. It has at most one reference, with which it travels,
/// and makes one call at a time; it may go from thread to thread between two of them.
pub struct Guest {}
