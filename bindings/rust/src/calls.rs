//! The calls on places.
//!
//! A create takes a place of a shard that its thread, or its lane, owns. All other calls find the place by the key, and step on its lifecycle
//! word; who claims it empties the object, and gives the place back (`emptying`). So nobody needs anything of his own for them, and none
//! waits.
use crate::clear::Clear;
use crate::emptying::Back;
use crate::erased::keybits::{generation_of, State};
use crate::erased::seatcalls::{Ended, Guest, GuestRef};
use crate::errors::{CreateError, GetError};
use crate::inner::{Begun, Inner};
use crate::key::Key;
use crate::page::{Place, Unopened};
use crate::registry::Wanted;
use crate::shard::{Found, Shard};
use crate::sync;
use crate::thread::{self, Owner};
use crate::word::{Claim, Grid, Taken};
use std::mem;
use std::ptr::NonNull;

impl<T> Inner<T> {
    /// A free place of one of the shards in a ring, or else of a further one, which comes into the ring; and its shard.
    ///
    /// # Safety
    ///
    /// This is their owner.
    pub(crate) unsafe fn take_of(
        &self,
        ring: NonNull<Shard>,
        owner: Owner,
    ) -> Result<(Found<T>, NonNull<Shard>), CreateError> {
        let (mut at, mut wanted) = (ring, Wanted::Free);
        loop {
            // SAFETY: the shard lives as long as this, the caller owns it, and `T` is the pool's type.
            match unsafe { at.as_ref().take_any(self.quota()) } {
                Ok(found) => return Ok((found, at)),
                Err(unopened) => wanted = unopened.wanted(wanted)?,
            }
            // SAFETY: the caller's.
            at = unsafe { self.next_of(ring, at, owner, wanted) }?;
        }
    }

    /// The next shard of a ring, or else a further one, which comes into it.
    ///
    /// # Safety
    ///
    /// This is their owner.
    unsafe fn next_of(
        &self,
        ring: NonNull<Shard>,
        at: NonNull<Shard>,
        owner: Owner,
        wanted: Wanted,
    ) -> Result<NonNull<Shard>, CreateError> {
        // SAFETY: the shard lives as long as this.
        let shard = unsafe { at.as_ref() };
        let next = || NonNull::new(shard.next().cast_mut()).filter(|next| *next != ring);
        if let Some(next) = next() {
            return Ok(next);
        }
        match self.join(owner, wanted) {
            Ok(further) => {
                // SAFETY: it lives as long as this.
                shard.link(unsafe { further.as_ref() });
                Ok(further)
            }
            // (The allocator, asked for memory, may have called the pool, and that call got one.)
            Err(refused) => next().ok_or(refused.full()),
        }
    }

    /// A free place for this thread.
    #[inline(always)]
    fn take(&self) -> Result<Found<T>, CreateError> {
        if let Some(shard) = thread::last_shard(self.id()) {
            // SAFETY: this thread owns it, and `T` is the pool's type.
            if let Some(found) = unsafe { shard.as_ref().take() } {
                return Ok(found);
            }
        }
        self.take_slow()
    }

    #[cold]
    #[inline(never)]
    fn take_slow(&self) -> Result<Found<T>, CreateError> {
        let owner = Owner::numbered_thread();
        let (ring, is_kept) = self.ring(owner)?;
        // SAFETY: this thread owns it.
        let taken = unsafe { self.take_of(ring, owner) };
        if !is_kept {
            self.leave(ring);
        }
        let (found, shard) = taken?;
        if is_kept && shard != ring {
            thread::turn_to(self.id(), shard);
        }
        Ok(found)
    }

    /// A shard of this thread's, of its ring; and whether it keeps it. (Else it exits, or found no memory for its list, and has the shard for
    /// one call.)
    fn ring(&self, owner: Owner) -> Result<(NonNull<Shard>, bool), CreateError> {
        let known = || thread::last_shard(self.id()).or_else(|| thread::find_shard(self.id()));
        if let Some(ring) = known() {
            return Ok((ring, true));
        }
        match self.join(owner, Wanted::Free) {
            Ok(ring) => Ok((ring, thread::keep(self.id(), self.registry(), ring))),
            // (Likewise: that call may have kept one.)
            Err(refused) => known().map(|ring| (ring, true)).ok_or(refused),
        }
    }

    /// Sees to it that so many creates of this thread open no page.
    pub(crate) fn reserve(&self, count: usize) -> Result<(), CreateError> {
        let owner = Owner::numbered_thread();
        let (ring, is_kept) = self.ring(owner)?;
        if !is_kept {
            self.leave(ring);
            return Err(CreateError::Memory);
        }
        // SAFETY: this thread owns it.
        unsafe { self.provide(ring, owner, count) }
    }

    /// The same for the shards of a ring.
    ///
    /// # Safety
    ///
    /// This is their owner.
    pub(crate) unsafe fn provide(
        &self,
        ring: NonNull<Shard>,
        owner: Owner,
        count: usize,
    ) -> Result<(), CreateError> {
        let (mut at, mut missing) = (ring, count);
        loop {
            // SAFETY: the shard lives as long as this, the caller owns it, and `T` is the pool's type.
            let free = unsafe { at.as_ref().provide::<T>(missing, self.quota()) };
            missing = missing.saturating_sub(free.map_err(Unopened::refusal)?);
            if missing == 0 {
                return Ok(());
            }
            // SAFETY: the caller's.
            at = unsafe { self.next_of(ring, at, owner, Wanted::Free) }?;
        }
    }

    /// Begins an object: in a place of this thread's shards.
    #[inline(always)]
    pub(crate) fn create(&self, make: impl FnOnce() -> T) -> Result<Begun<T>, CreateError> {
        let found = self.take()?;
        // SAFETY: it was taken just now.
        Ok(unsafe { self.begin(found, make, Owner::thread) })
    }

    /// # Safety
    ///
    /// The place is one of this pool, and the caller's alone.
    #[inline(always)]
    pub(crate) unsafe fn begin(
        &self,
        (place, first_key): Found<T>,
        make: impl FnOnce() -> T,
        by: impl FnOnce() -> Owner,
    ) -> Begun<T> {
        // SAFETY: it lives as long as this.
        let generation = match unsafe { place.as_ref() }.word.taken() {
            Taken::Filled(generation) => generation,
            // SAFETY: the caller's.
            vacant => unsafe { self.fill((place, first_key), vacant, make, by()) },
        };
        (place, Key::at(first_key, generation))
    }

    /// Puts an object into a place that has none.
    #[cold]
    #[inline(never)]
    unsafe fn fill(
        &self,
        (place, first_key): Found<T>,
        taken: Taken,
        make: impl FnOnce() -> T,
        by: Owner,
    ) -> u64 {
        // SAFETY: it lives as long as this.
        let place = unsafe { place.as_ref() };
        let generation = match taken {
            Taken::Filled(generation) | Taken::Vacant(generation) => generation,
            Taken::New => 1,
        };
        // Where `make` panics, the place is given back without an object.
        let back = Back {
            inner: self,
            key: Key::at(first_key, generation),
            claim: Claim::Reusable,
            by,
        };
        if let Taken::New = taken {
            place.word.begin(State::Retired);
        }
        let object = make();
        mem::forget(back);
        sync::writes(place.object(), "an object in its place");
        // SAFETY: the place is the caller's alone, and has no object.
        unsafe { place.object().write(object) };
        match taken {
            Taken::New => place.word.begin(State::Idle),
            _ => place.word.occupy(),
        }
        generation
    }

    /// Whether the object of a key can be got.
    #[inline]
    pub(crate) fn contains(&self, key: Key) -> bool {
        self.place(key).is_some_and(|it| it.word.has(key.number()))
    }
}

impl<T: Clear> Inner<T> {
    /// A reference.
    #[inline(always)]
    pub(crate) fn get(&self, key: Key) -> Result<Option<NonNull<Place<T>>>, GetError> {
        let Some((place, grid)) = self.look_for(key) else {
            return Ok(None);
        };
        if grid.is_full() {
            return Err(GetError::References);
        }
        match (Guest {}).get_or_keep(&grid, key.number()) {
            Ok(_) => Ok(Some(NonNull::from(place))),
            Err(ended) => {
                // SAFETY: what it has was claimed just now.
                unsafe { self.finish_slow(place, key, ended) };
                Ok(None)
            }
        }
    }

    /// The place of a key, and the pool as a call there sees it, if a look tells that the object can be got.
    #[inline(always)]
    fn look_for(&self, key: Key) -> Option<(&Place<T>, Grid<'_>)> {
        let place = self.place(key)?;
        let grid = place.word.look_for(key.number(), self.shape());
        grid.map(|grid| (place, grid))
    }

    /// Hides an object, and answers whether this call did.
    #[inline(always)]
    pub(crate) fn clear(&self, key: Key, by: impl FnOnce() -> Owner) -> bool {
        let Some((place, grid)) = self.look_for(key) else {
            return false;
        };
        let (hides, ended) = Guest {}.clear_or_keep(&grid, key.number());
        if let Ended::Kept(claim) = ended {
            // SAFETY: it was claimed just now.
            unsafe { self.finish(place, key, claim, by()) };
        }
        hides
    }

    /// Takes a reference back.
    ///
    /// # Safety
    ///
    /// It is the caller's, to this place, of this key.
    #[inline(always)]
    pub(crate) unsafe fn release(&self, place: &Place<T>, key: Key) {
        let reference = GuestRef {
            start: 0,
            key: key.number(),
        };
        let ended = reference.release_or_keep(&place.word.grid(self.shape(), 0));
        if let Ended::Kept(_) = ended {
            // SAFETY: it was claimed just now.
            unsafe { self.finish_slow(place, key, ended) };
        }
    }

    /// Takes a place back that was begun.
    ///
    /// # Safety
    ///
    /// It is the caller's alone, and of this key.
    #[cold]
    pub(crate) unsafe fn abandon(&self, place: &Place<T>, key: Key) {
        let generation = generation_of(key.number());
        let claim = place.word.skip(generation, self.shape().last_generation);
        // SAFETY: the caller's.
        unsafe { self.finish(place, key, claim, Owner::thread()) };
    }

    /// What is left to do behind a get or a release.
    ///
    /// # Safety
    ///
    /// If the call claimed a place it was this one, that of the key.
    #[cold]
    #[inline(never)]
    unsafe fn finish_slow(&self, place: &Place<T>, key: Key, ended: Ended) {
        if let Ended::Kept(claim) = ended {
            // SAFETY: the caller's.
            unsafe { self.finish(place, key, claim, Owner::thread()) };
        }
    }
}
