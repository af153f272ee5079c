//! The pool of sharded-slab, by `pardz`.
pub use pardz::sharded_slab::*;
