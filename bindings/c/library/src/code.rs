//! The codes of the header.
use pardz::{CreateError, GetError, KeyError, MemoryRefused, OpenError};
use std::collections::TryReserveError;

/// All went well.
pub(crate) const OK: u32 = 0;

/// Why a call did nothing, by its code.
#[derive(Clone, Copy, Debug)]
#[repr(u32)]
pub(crate) enum Refusal {
    /// Memory was refused.
    Memory = 1,
    /// The slot has no lane, no pool or no owned reference.
    EmptyLane = 2,
    /// The slot has a lane, a pool or an owned reference.
    FullLane = 3,
    /// No place is free.
    Full = 4,
    /// The lane fills as many places as it can.
    Fillings = 5,
    /// The lane has no filling under the key.
    NoFilling = 6,
    /// The lane has no reference to the key.
    NoReference = 7,
    /// The key isn't published, or it is cleared, or it is none.
    Gone = 8,
    /// There are as many references as there can be.
    References = 9,
    /// The lanes are of different pools.
    OtherPool = 10,
    /// The lane isn't the one that is wanted next, or lanes are missing.
    Lanes = 11,
    /// The shape is outside its limits.
    Shape = 12,
    /// There is no room of so many bytes.
    Room = 13,
    /// Others have the pool too.
    Shared = 14,
    /// Other calls have all lanes that could serve it.
    Busy = 15,
}

/// What a call answers.
pub(crate) type Answer<V = ()> = Result<V, Refusal>;

/// The code of what a call answers.
#[inline(always)]
pub(crate) fn code(call: impl FnOnce() -> Answer) -> u32 {
    call().map_or_else(|refusal| refusal as u32, |()| OK)
}

/// That this holds, or else why not.
#[inline(always)]
pub(crate) fn must(holds: bool, or: Refusal) -> Answer {
    holds.then_some(()).ok_or(or)
}

impl From<CreateError> for Refusal {
    #[inline]
    fn from(error: CreateError) -> Refusal {
        match error {
            CreateError::Full => Refusal::Full,
            CreateError::NoLane => Refusal::Busy,
            _ => Refusal::Memory,
        }
    }
}

macro_rules! refusals {
    ($($error:ty: $refusal:ident,)*) => {$(
        impl From<$error> for Refusal {
            #[inline]
            fn from(_: $error) -> Refusal {
                Refusal::$refusal
            }
        }
    )*};
}

refusals! {
    MemoryRefused: Memory,
    TryReserveError: Memory,
    GetError: References,
    KeyError: Gone,
    OpenError: Shape,
}
