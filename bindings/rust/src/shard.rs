//! Shards: which places are free.
//!
//! A shard has an owner, a thread or a `Lane`, who alone takes places of it. A place that the owner gives back is a bit in a word of
//! his own. Anybody else sets the bit in the group's word for all threads, and then sees to it that the group is noted in the page's
//! *summary*, the word of groups with such bits: that never waits. The owner collects by taking the summary out first and the groups' words
//! after it. All of these steps stand in one order, so that a bit which the owner missed has its group noted behind his step: no place is
//! lost.
//!
//! While nobody owns a shard, who has the registry's lock may use what else the owner uses.
use crate::erased::keybits::Shape;
use crate::errors::MemoryRefused;
use crate::key::Key;
use crate::memory;
use crate::page::{first_bits, Own, Page, Place, Quota, Unopened, GROUP, PAGES};
use crate::sync::{self, AtomicPtr, AtomicU64, Ordering::*};
use crate::thread::Owner;
use std::cell::Cell;
use std::ptr::{self, NonNull};

/// The pages of a shard, null where one isn't open.
pub(crate) type Pages = [AtomicPtr<u8>; PAGES];

/// What several threads change doesn't share lines of the cache with what one changes alone.
#[repr(align(128))]
struct CachePadded<T>(T);

/// A shard. Objects of all types have the same kind: each generic call is for the type of the pool.
pub(crate) struct Shard {
    shape: Shape,
    number: u8,
    pages: NonNull<Pages>,
    owner: AtomicU64,
    own: CachePadded<OwnersPart>,
    /// For each page, the groups of which places were given back by others.
    summaries: CachePadded<[AtomicU64; PAGES]>,
}

/// What the owner has. (A `Cell` is never borrowed, so it doesn't matter what else this thread does meanwhile.)
struct OwnersPart {
    /// The current group, of which the next place is taken if it has a free one: its bits, its first place, the first key of that.
    bits: Cell<NonNull<Own>>,
    first: Cell<NonNull<u8>>,
    first_key: Cell<u64>,
    /// Such bits while no group has a free place.
    none: Own,
    /// For each page, the groups that may have free places; and the pages that may have such groups. Each that has is among them.
    groups: [Cell<u64>; PAGES],
    with_groups: Cell<u32>,
    opened: Cell<usize>,
    /// The next shard of the same owner, in a ring; while nobody owns it, the next of the registry's list.
    next: Cell<*const Shard>,
}

// SAFETY: what the owner has is used by the owner alone; it becomes another's under the registry's lock.
unsafe impl Send for Shard {}
// SAFETY: as above; and all else is atomic or isn't changed.
unsafe impl Sync for Shard {}

/// A place that a create took, and its key of generation 1.
pub(crate) type Found<T> = (NonNull<Place<T>>, u64);

impl Shard {
    /// A shard that nobody owns, of a pool's shape, in which the tag is that of its segment.
    pub(crate) fn new(
        shape: Shape,
        number: u8,
        pages: NonNull<Pages>,
    ) -> Result<Box<Shard>, MemoryRefused> {
        let shard = memory::boxed(Shard {
            shape,
            number,
            pages,
            owner: AtomicU64::new(Owner::NOBODY),
            own: CachePadded(OwnersPart {
                bits: Cell::new(NonNull::dangling()),
                first: Cell::new(NonNull::dangling()),
                first_key: Cell::new(0),
                none: Own::new(),
                groups: [const { Cell::new(0) }; PAGES],
                with_groups: Cell::new(0),
                opened: Cell::new(0),
                next: Cell::new(ptr::null()),
            }),
            summaries: CachePadded([const { AtomicU64::new(0) }; PAGES]),
        })?;
        shard.turn_to_none();
        Ok(shard)
    }

    /// It is one of another segment than it was made for.
    pub(crate) fn place_at(&mut self, tag: u32, number: u8, pages: NonNull<Pages>) {
        self.shape.tag = tag;
        self.number = number;
        self.pages = pages;
    }

    #[inline(always)]
    fn own(&self) -> &OwnersPart {
        sync::writes(&self.own, "what a shard's owner has");
        &self.own.0
    }

    /// Whether this is the owner's: nobody else can make that true or false.
    #[inline(always)]
    pub(crate) fn is_owned_by(&self, owner: Owner) -> bool {
        self.owner.load(Relaxed) == owner.number()
    }

    /// The shard gets an owner, and is a ring alone. By who has the registry's lock.
    pub(crate) fn own_by(&self, owner: Owner) {
        self.set_next(self);
        self.owner.store(owner.number(), Relaxed);
    }

    /// Nobody owns the shard any more. By who has the registry's lock.
    pub(crate) fn disown(&self) {
        self.owner.store(Owner::NOBODY, Relaxed);
    }

    /// The next shard of the same owner, or of the registry's list.
    pub(crate) fn next(&self) -> *const Shard {
        self.own().next.get()
    }

    pub(crate) fn set_next(&self, next: *const Shard) {
        self.own().next.set(next);
    }

    /// Joins the ring of another shard of the owner with this one's.
    pub(crate) fn link(&self, further: &Shard) {
        let next = self.next();
        self.set_next(further.next());
        further.set_next(next);
    }

    /// Whether a create may find a place in it, or has to look at least. By the owner, or who has the registry's lock.
    pub(crate) fn may_have_free_places(&self) -> bool {
        self.own().opened.get() < self.shape.pages as usize || self.has_places()
    }

    /// The same in the pages that it has.
    pub(crate) fn has_places(&self) -> bool {
        let is_noted = |summary: &AtomicU64| summary.load(Relaxed) != 0;
        self.own().with_groups.get() != 0 || self.summaries.0.iter().any(is_noted)
    }

    fn places(&self, number: usize) -> usize {
        self.shape.page_size(number as u32) as usize
    }

    /// A page that is open, as all callers know.
    fn page<T>(&self, number: usize) -> Page<T> {
        // SAFETY: the segment, which has the table, lives as long.
        let at = unsafe { self.pages.as_ref() }[number].load(Acquire);
        debug_assert!(!at.is_null());
        // SAFETY: the page is open.
        unsafe { Page::of(NonNull::new_unchecked(at), number, self.places(number)) }
    }

    /// A free place of the current group.
    ///
    /// # Safety
    ///
    /// The caller is the owner, and `T` is the type of its pool, as in all functions below.
    #[inline(always)]
    pub(crate) unsafe fn take<T>(&self) -> Option<Found<T>> {
        let own = self.own();
        // SAFETY: it is a word of an open page, or `none`.
        let free = unsafe { own.bits.get().as_ref() };
        let bits = free.get();
        if bits == 0 {
            return None;
        }
        free.set(bits & (bits - 1));
        let index = bits.trailing_zeros() as usize;
        // SAFETY: the group has this place.
        let place = unsafe { own.first.get().cast::<Place<T>>().as_ptr().add(index) };
        // SAFETY: it points into a page.
        let place = unsafe { NonNull::new_unchecked(place) };
        Some((place, own.first_key.get() + index as u64))
    }

    /// A free place of the shard: of the current group; of the first that has one; of those that others gave back; of a new page.
    ///
    /// # Safety
    ///
    /// As above.
    #[cold]
    pub(crate) unsafe fn take_any<T>(&self, quota: &Quota) -> Result<Found<T>, Unopened> {
        // SAFETY: the caller's.
        unsafe {
            loop {
                if let Some(found) = self.take() {
                    return Ok(found);
                }
                if !self.turn_to_free::<T>() && !self.collect::<T>() {
                    self.open_page::<T>(quota)?;
                }
            }
        }
    }

    /// A place that the owner gives back, in this page.
    ///
    /// # Safety
    ///
    /// As above; the place is the caller's alone.
    #[inline(always)]
    pub(crate) unsafe fn put<T>(&self, page: Page<T>, slot: usize) {
        let group = slot / GROUP;
        // SAFETY: the page has this slot.
        let free = unsafe { page.free(group) };
        free.set(free.get() | 1 << (slot % GROUP));
        if !ptr::eq(free, self.own().bits.get().as_ptr()) {
            self.turn_to(page, group);
        }
    }

    /// A place that somebody else gives back: one atomic operation, and up to two more where its group or page had none.
    ///
    /// # Safety
    ///
    /// `T` is the type of the pool; the place is the caller's alone.
    #[inline]
    pub(crate) unsafe fn give_back<T>(&self, page: Page<T>, slot: usize) {
        let group = slot / GROUP;
        // SAFETY: the page has this slot.
        unsafe { page.returned(group) }.fetch_or(1 << (slot % GROUP), SeqCst);
        // If the group is noted, the owner will take the note out after this load, and the group's word after that.
        let summary = &self.summaries.0[page.number()];
        if summary.load(SeqCst) & 1 << group == 0 {
            summary.fetch_or(1 << group, SeqCst);
        }
    }

    /// Makes a group the current one, as it has free places.
    #[inline]
    fn turn_to<T>(&self, page: Page<T>, group: usize) {
        let (own, number) = (self.own(), page.number());
        // SAFETY: the page has this group.
        let (bits, first) = unsafe { (page.free(group), page.place(group * GROUP)) };
        own.bits.set(NonNull::from(bits));
        own.first.set(first.cast());
        let tag = self.shape.tag as u8;
        own.first_key
            .set(Key::first(tag, self.number, number, group * GROUP));
        let groups = &own.groups[number];
        groups.set(groups.get() | 1 << group);
        own.with_groups.set(own.with_groups.get() | 1 << number);
    }

    /// So that the next place that is put turns to its group.
    fn turn_to_none(&self) {
        let own = self.own();
        own.bits.set(NonNull::from(&own.none));
    }

    /// Turns to the first group that has a free place.
    unsafe fn turn_to_free<T>(&self) -> bool {
        let own = self.own();
        while own.with_groups.get() != 0 {
            let number = own.with_groups.get().trailing_zeros() as usize;
            if self.turn_to_free_in(self.page::<T>(number)) {
                return true;
            }
            let others = own.with_groups.get() & (own.with_groups.get() - 1);
            own.with_groups.set(others);
        }
        self.turn_to_none();
        false
    }

    /// The same in one page.
    fn turn_to_free_in<T>(&self, page: Page<T>) -> bool {
        let groups = &self.own().groups[page.number()];
        while groups.get() != 0 {
            let group = groups.get().trailing_zeros() as usize;
            // SAFETY: only groups of opened pages are among them.
            if unsafe { page.free(group) }.get() != 0 {
                self.turn_to(page, group);
                return true;
            }
            groups.set(groups.get() & (groups.get() - 1));
        }
        false
    }

    /// Takes what others gave back in the first page that has some.
    unsafe fn collect<T>(&self) -> bool {
        let opened = self.own().opened.get();
        (0..opened).any(|number| {
            // SAFETY: the caller's; the page is open.
            self.summaries.0[number].load(Relaxed) != 0
                && unsafe { self.collect_in(self.page::<T>(number)) }
        })
    }

    /// The same in one page.
    unsafe fn collect_in<T>(&self, page: Page<T>) -> bool {
        let mut groups = self.summaries.0[page.number()].swap(0, SeqCst);
        let mut has_some = false;
        while groups != 0 {
            let group = groups.trailing_zeros() as usize;
            groups &= groups - 1;
            // SAFETY: only groups of opened pages are noted.
            let (free, returned) = unsafe { (page.free(group), page.returned(group)) };
            // (It may be 0: its note may have come behind the last collect.)
            let bits = returned.swap(0, SeqCst);
            if bits != 0 {
                free.set(free.get() | bits);
                self.turn_to(page, group);
                has_some = true;
            }
        }
        has_some
    }

    /// Opens the next page.
    unsafe fn open_page<T>(&self, quota: &Quota) -> Result<(), Unopened> {
        let number = self.own().opened.get();
        if number == self.shape.pages as usize {
            return Err(Unopened::NoPage);
        }
        let page = Page::<T>::open(number, self.places(number), quota)?;
        let own = self.own();
        if own.opened.get() != number {
            // The allocator called the pool, which opened the page.
            page.withdraw(quota);
            return Ok(());
        }
        own.opened.set(number + 1);
        // SAFETY: the segment, which has the table, lives as long.
        let pages = unsafe { self.pages.as_ref() };
        pages[number].store(page.at().as_ptr(), Release);
        self.turn_to(page, 0);
        own.groups[number].set(first_bits(page.groups()));
        Ok(())
    }

    /// Sees to it that so many places are free, as far as the shard has pages for them. Answers how many are.
    ///
    /// # Safety
    ///
    /// As above.
    pub(crate) unsafe fn provide<T>(&self, count: usize, quota: &Quota) -> Result<usize, Unopened> {
        // SAFETY: the caller's.
        unsafe {
            while self.collect::<T>() {}
            loop {
                let free = self.free_places::<T>();
                if free >= count {
                    return Ok(free);
                }
                match self.open_page::<T>(quota) {
                    Ok(()) => {}
                    Err(Unopened::NoPage) => return Ok(free),
                    Err(unopened) => return Err(unopened),
                }
            }
        }
    }

    /// How many places are free, but for those that others give back.
    unsafe fn free_places<T>(&self) -> usize {
        let pages = (0..self.own().opened.get()).map(|number| self.page::<T>(number));
        let free = |page: Page<T>| {
            // SAFETY: the page has these groups.
            let groups = (0..page.groups()).map(|group| unsafe { page.free(group) }.get());
            groups.map(|bits| bits.count_ones() as usize).sum::<usize>()
        };
        pages.map(free).sum()
    }
}
