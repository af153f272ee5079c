//! A sharded pool of buffers and objects that are emptied in place and used again.
//!
//! A thread fills an object and publishes it under a [`Key`], which is a number; any thread reads it through a reference. A clear hides the
//! key at once, and the last to leave empties the object, which keeps its memory and is filled again under a new key.
//!
//! ```
//! use pardz::Pool;
//!
//! let pool = Pool::<String>::new();
//! let key = pool.put("hello")?; // copied into a String of the pool
//! let text = pool.get(key).expect("published");
//! assert!(pool.clear(key)); // no get finds it any more,
//! assert!(pool.get(key).is_none());
//! assert_eq!(*text, "hello"); // and it stays until the reference is dropped
//! # Ok::<(), pardz::CreateError>(())
//! ```
//!
//! # Who needs what
//!
//! Any number of threads may make any call. Only a *create* needs something that belongs to its thread: a *shard*, which is a set of
//! places. A thread takes a shard with its first create and keeps it until it exits; if the shard is full, it takes a further one. All other
//! calls only touch the word of the object's place, and the last reader to leave sets a bit of the place's shard. These calls are
//! wait-free.
//!
//! The calls that wait for other threads are a create or a `reserve` that takes a shard, the taking and dropping of a [`Lane`], a thread's
//! exit and the end of a pool: they share one lock, and hold it for a bounded number of steps.
//!
//! # What is pooled
//!
//! A [`Pool`] holds objects of a type that can be emptied in place ([`Clear`]): a [`Buffer`] of bytes, a `String`, a `Vec`, a map, a type
//! of your own.
//!
//! ```
//! use pardz::{Clear, Pool};
//!
//! #[derive(Default)]
//! struct Request {
//!     path: String,
//!     headers: Vec<(String, String)>,
//! }
//!
//! impl Clear for Request {
//!     fn clear(&mut self) {
//!         self.path.clear();
//!         self.headers.clear();
//!     }
//! }
//!
//! let pool = Pool::<Request>::new();
//! let key = pool.put_with(|request| request.path.push_str("/index"))?;
//! assert_eq!(pool.get(key).expect("published").path, "/index");
//! # Ok::<(), pardz::CreateError>(())
//! ```
//!
//! The type's `Default`, `Clear` and `Drop`, and closures, run outside the pool's own steps: they may call the pool again. A panic in them
//! loses at most their object. An object never moves.
//!
//! # Handles
//!
//! - A [`Filling`] holds an object that is being filled, a [`Ref`] one that is published. They borrow the pool, and may go to other
//!   threads.
//! - [`OwnedFilling`] and [`OwnedRef`] ([`Pool::create_owned`], [`Pool::get_owned`]) are `'static`, for what outlives a scope, such as a
//!   future across an `.await` or a message. They may outlive the pool.
//! - A [`Lane`] ([`Pool::lane`]) is a shard that the program holds: its creates don't look up their thread's shard, and it may move from thread to thread.
//!
//! ```
//! use pardz::{Key, OwnedRef, Pool};
//! use std::thread;
//!
//! static POOL: Pool<String> = Pool::new();
//!
//! let key: Key = POOL.put("from here")?;
//! thread::scope(|scope| {
//!     for _ in 0..40 {
//!         scope.spawn(|| assert_eq!(*POOL.get(key).expect("published"), "from here"));
//!     }
//! });
//! let text: OwnedRef<String> = POOL.get_owned(key).expect("published");
//! assert!(POOL.clear(key));
//! thread::spawn(move || assert_eq!(*text, "from here")).join().expect("no panic");
//! # Ok::<(), pardz::CreateError>(())
//! ```
//!
//! A pool from [`Pool::new`] grows as it fills; [`Limits`] make pools that grow less or have other tags, and [`Pool::open`] makes pools of
//! fixed size. The module [`sharded_slab`] has the names of that crate's pool.
//!
//! # What stands behind it
//!
//! Keys, the words of places, and what a get, a release and a clear do with these words are proved in Rattle, which is Rust with contracts,
//! and translated from there (the private module `erased`). **The crate itself isn't proved**: README says what is written by hand, and how it
//! is tested.
#![deny(missing_docs)]
#![deny(unsafe_code)]
#![deny(unsafe_op_in_unsafe_fn)]

mod buffer;
#[allow(unsafe_code)]
mod by_key;
mod bytes;
#[allow(unsafe_code)]
mod calls;
#[allow(unsafe_code)]
mod census;
mod clear;
#[allow(unsafe_code)]
mod emptying;
mod erased;
mod errors;
#[allow(unsafe_code)]
mod filling;
#[allow(unsafe_code)]
mod held;
#[allow(unsafe_code)]
mod inner;
mod key;
#[allow(unsafe_code)]
mod lane;
mod limits;
#[allow(unsafe_code)]
mod memory;
#[cfg(doctest)]
mod misuse;
#[allow(unsafe_code)]
mod page;
mod panics;
#[allow(unsafe_code)]
mod pool;
mod put;
#[cfg(doctest)]
#[doc = include_str!("../README.md")]
mod readme {}
#[allow(unsafe_code)]
mod reference;
#[allow(unsafe_code)]
mod registry;
#[allow(unsafe_code)]
mod segments;
#[allow(unsafe_code)]
mod shard;
#[cfg(target_pointer_width = "64")]
#[allow(unsafe_code)]
pub mod sharded_slab;
#[allow(unsafe_code)]
mod share;
mod sync;
#[allow(unsafe_code)]
mod thread;
mod word;

pub use buffer::Buffer;
pub use census::{Census, Keys};
pub use clear::Clear;
pub use errors::{CreateError, Field, GetError, KeyError, MemoryRefused, OpenError};
pub use filling::{Filling, OwnedFilling};
pub use key::Key;
pub use lane::{Lane, OwnedLane};
pub use limits::{Limits, Shape};
pub use pool::Pool;
pub use put::Put;
pub use reference::{OwnedRef, Ref};
