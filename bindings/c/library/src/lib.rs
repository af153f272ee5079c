//! The calls of `pardz.h`, with the codes and the behaviour of the proved archive, over the crate `pardz`; and those by any thread.
//!
//! Nothing here is proved. `exports` has the calls, and turns what they answer into codes. A panic ends the process (`Cargo.toml`).
#![deny(unsafe_op_in_unsafe_fn)]

#[cfg(test)]
#[path = "../../tests/abi.rs"]
mod abi;
mod code;
mod content;
mod counts;
mod exports;
mod handles;
mod heap;
mod lane;
mod share;
mod slot;
mod store;
mod sync;
