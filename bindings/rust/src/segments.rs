//! Segments: the tables by which a key leads to its place.
//!
//! A segment holds the tables of pages of 64 shards, and the shards. All segments are alike, and made of zeros: null pointers. A key's tag
//! is its segment's number. What a table points to stays until the pool's memory goes, so that whoever finds it may use it as long as he
//! keeps that.
use crate::erased::keybits::{place_of, shard_of, tag_of, MOST_LANES, PAGE_NUMBERS};
use crate::errors::MemoryRefused;
use crate::memory;
use crate::page::PAGES;
use crate::shard::{Pages, Shard};
use crate::sync::{AtomicPtr, Ordering::*};
use std::ptr::{self, NonNull};

/// How many segments a pool may have.
pub(crate) const SEGMENTS: usize = 256;

/// How many shards a segment holds.
pub(crate) const SHARDS: usize = MOST_LANES as usize;

pub(crate) struct Segment {
    pages: [AtomicPtr<u8>; SHARDS * PAGES],
    shards: [AtomicPtr<Shard>; SHARDS],
}

impl Segment {
    pub(crate) fn new() -> Result<Box<Segment>, MemoryRefused> {
        // SAFETY: it consists of null pointers.
        unsafe { memory::zeroed() }
    }

    /// The pages of a shard.
    pub(crate) fn pages_of(&self, shard: usize) -> NonNull<Pages> {
        let first = NonNull::from(&self.pages[shard * PAGES..][..PAGES]);
        first.cast()
    }

    /// A page, counted over all shards, if it is open.
    #[inline(always)]
    pub(crate) fn page(&self, number: usize) -> Option<NonNull<u8>> {
        NonNull::new(self.pages.get(number)?.load(Acquire))
    }

    /// A shard is there from now on.
    pub(crate) fn place(&self, number: usize, shard: Box<Shard>) -> NonNull<Shard> {
        let shard = NonNull::from(Box::leak(shard));
        self.shards[number].store(shard.as_ptr(), Release);
        shard
    }

    /// How many shards there are: the first ones.
    pub(crate) fn shards(&self) -> usize {
        let shards = self.shards.iter();
        shards
            .filter(|shard| !shard.load(Acquire).is_null())
            .count()
    }
}

impl Drop for Segment {
    fn drop(&mut self) {
        for shard in &mut self.shards {
            if let Some(shard) = NonNull::new(*shard.get_mut()) {
                // SAFETY: `place` has it from a box, and nobody uses it any more.
                drop(unsafe { Box::from_raw(shard.as_ptr()) });
            }
        }
    }
}

pub(crate) struct Segments([AtomicPtr<Segment>; SEGMENTS]);

impl Segments {
    pub(crate) const fn new() -> Segments {
        Segments([const { AtomicPtr::new(ptr::null_mut()) }; SEGMENTS])
    }

    /// The segment of a tag, if it is there.
    #[inline(always)]
    pub(crate) fn get(&self, tag: u8) -> Option<&Segment> {
        // SAFETY: it is there until the pool's memory goes.
        unsafe { self.0[tag as usize].load(Acquire).as_ref() }
    }

    /// It is there from now on.
    pub(crate) fn place(&self, tag: u8, segment: Box<Segment>) {
        self.0[tag as usize].store(Box::leak(segment), Release);
    }

    /// The segments that are there, with their tags.
    pub(crate) fn all(&self) -> impl Iterator<Item = (u8, &Segment)> {
        (0..=u8::MAX).filter_map(|tag| Some((tag, self.get(tag)?)))
    }

    /// The page of a key's place, if it is open.
    #[inline(always)]
    pub(crate) fn page(&self, key: u64) -> Option<NonNull<u8>> {
        let segment = self.get(tag_of(key))?;
        segment.page((place_of(key) / PAGE_NUMBERS) as usize)
    }

    /// The shard of a key's place.
    ///
    /// # Safety
    ///
    /// The pool has the place.
    #[inline(always)]
    pub(crate) unsafe fn shard(&self, key: u64) -> &Shard {
        // SAFETY: so its segment and its shard are there, until the pool's memory goes.
        unsafe {
            let segment = &*self.0[tag_of(key) as usize].load(Acquire);
            let shard = shard_of(place_of(key)) as usize % SHARDS;
            &*segment.shards[shard].load(Acquire)
        }
    }
}

impl Drop for Segments {
    fn drop(&mut self) {
        for segment in &mut self.0 {
            if let Some(segment) = NonNull::new(*segment.get_mut()) {
                // SAFETY: `place` has it from a box, and nobody uses it any more.
                drop(unsafe { Box::from_raw(segment.as_ptr()) });
            }
        }
    }
}
