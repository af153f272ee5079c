// Made by tools/erase/erase.py.

//! Made from proved sources: what is left of them without their contracts and proofs, as far as the crate uses it. Keys, shapes and
//! lifecycle words (`keybits`), the steps on a word (`poolsteps`), and what a get, a release and a clear do with what their steps find
//! (`seatcalls`). What the contracts require of a caller nothing here tests, so it is private, and the modules above take it over.

// What is told to steps for proofs alone, nothing here looks at.
#![allow(unused_variables)]

pub(crate) mod keybits;
pub(crate) mod poolsteps;
pub(crate) mod seatcalls;
