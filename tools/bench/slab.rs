// A `Pool` of sharded-slab's names, which the file that takes this text in imports.
use crate::stores::{Keyed, Store, BYTES};
use std::sync::Arc;

/// What is pooled: how it is filled, and what a reader sees of it.
pub trait Pooled: Clear + Default + Send + Sync {
    fn fill(&mut self);

    fn size(&self) -> usize;
}

/// A buffer of 64 bytes that is cleared in place.
#[derive(Default)]
pub struct Buffer(Vec<u8>);

impl Clear for Buffer {
    fn clear(&mut self) {
        self.0.clear();
    }
}

impl Pooled for Buffer {
    #[inline(always)]
    fn fill(&mut self) {
        self.0.extend_from_slice(&BYTES);
    }

    #[inline(always)]
    fn size(&self) -> usize {
        self.0.len()
    }
}

/// A vector, for which the library has a `Clear` of its own.
impl Pooled for Vec<u8> {
    #[inline(always)]
    fn fill(&mut self) {
        self.extend_from_slice(&BYTES);
    }

    #[inline(always)]
    fn size(&self) -> usize {
        self.len()
    }
}

static LARGE: [u8; 16_384] = [7; 16_384];

/// A buffer of 16 KiB that is cleared in place.
#[derive(Default)]
pub struct Large(Vec<u8>);

impl Clear for Large {
    fn clear(&mut self) {
        self.0.clear();
    }
}

impl Pooled for Large {
    #[inline(always)]
    fn fill(&mut self) {
        self.0.extend_from_slice(&LARGE);
    }

    #[inline(always)]
    fn size(&self) -> usize {
        self.0.len()
    }
}

/// An object of 192 bytes, without memory of its own.
#[derive(Default)]
pub struct Record {
    numbers: [u64; 23],
    count: usize,
}

impl Clear for Record {
    #[inline(always)]
    fn clear(&mut self) {
        self.count = 0;
    }
}

impl Pooled for Record {
    #[inline(always)]
    fn fill(&mut self) {
        self.numbers[self.count] = 7;
        self.count += 1;
    }

    #[inline(always)]
    fn size(&self) -> usize {
        self.count * 8
    }
}

/// The pool. The thread that calls it picks the shard.
#[derive(Default)]
pub struct Slab<T: Pooled>(Pool<T>);

impl<T: Pooled> Store for Slab<T> {
    type Handle = u64;

    #[inline(always)]
    fn put(&self) -> u64 {
        let key = self.0.create_with(T::fill);
        key.expect("the pool isn't full") as u64
    }

    #[inline(always)]
    fn read(&self, key: &u64) -> usize {
        self.0.get(*key as usize).map_or(0, |object| object.size())
    }

    #[inline(always)]
    fn take(&self, key: u64) -> bool {
        self.0.clear(key as usize)
    }

    #[inline(always)]
    fn read_last(&self, key: u64) -> usize {
        let object = self.0.get(key as usize);
        self.0.clear(key as usize);
        object.map_or(0, |object| object.size())
    }
}

impl<T: Pooled> Keyed for Slab<T> {
    fn word(key: u64) -> u64 {
        key
    }

    fn key(word: u64) -> u64 {
        word
    }
}

/// The pool, by owned handles.
#[derive(Default)]
pub struct Owned<T: Pooled>(Arc<Pool<T>>);

impl<T: Pooled> Store for Owned<T> {
    type Handle = u64;

    #[inline(always)]
    fn put(&self) -> u64 {
        let item = Arc::clone(&self.0).create_owned();
        let mut item = item.expect("the pool isn't full");
        item.fill();
        item.key() as u64
    }

    #[inline(always)]
    fn read(&self, key: &u64) -> usize {
        let item = Arc::clone(&self.0).get_owned(*key as usize);
        item.map_or(0, |object| object.size())
    }

    #[inline(always)]
    fn take(&self, key: u64) -> bool {
        self.0.clear(key as usize)
    }

    #[inline(always)]
    fn read_last(&self, key: u64) -> usize {
        let item = Arc::clone(&self.0).get_owned(key as usize);
        self.0.clear(key as usize);
        item.map_or(0, |object| object.size())
    }
}

impl<T: Pooled> Keyed for Owned<T> {
    fn word(key: u64) -> u64 {
        key
    }

    fn key(word: u64) -> u64 {
        word
    }
}
