// Made from crates/seatcalls/src/references.rt by tools/erase/erase.py: change that file, not this one.

//! References of guests.

/// A reference to a key, with the guest that has it: any thread reads the object, by no more than this, and any thread
/// gives the reference back. One that is dropped or forgotten keeps its guest, whose pool then isn't closed.
pub struct GuestRef {
    /// Where the key's place stands.
    pub(crate) start: u32,
    pub(crate) key: u64,
}
