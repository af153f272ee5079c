//! Pages: the memory of places.
//!
//! A page is one piece of memory, which was zeroed as it was opened and stays where it is until the pool's memory goes: its places, word and
//! object side by side; behind them for each group of 64 places a word of the shard's owner, in which a bit says that a place is free; and
//! behind those one of all threads, in which a bit says that a place was given back by another one.
use crate::panics::First;
use crate::sync::{self, AtomicU64, AtomicUsize};
use crate::word::Word;
use std::alloc::{self, Layout};
use std::cell::UnsafeCell;
use std::marker::PhantomData;
use std::mem::{self, MaybeUninit};
use std::ptr::NonNull;
use std::sync::atomic::{self, Ordering::Relaxed};

/// How many pages a shard may have.
pub(crate) const PAGES: usize = 16;

/// How many places one word of bits is for.
pub(crate) const GROUP: usize = 64;

/// An object in its place. (The word in front, and so in the page of the system that the place before it has touched already: a create reads
/// it first.)
#[repr(C)]
pub(crate) struct Place<T> {
    pub(crate) word: Word,
    object: UnsafeCell<MaybeUninit<T>>,
}

impl<T> Place<T> {
    /// Where the object stands.
    #[inline(always)]
    pub(crate) fn object(&self) -> *mut T {
        self.object.get().cast()
    }

    /// The object, to be read.
    ///
    /// # Safety
    ///
    /// There is one, which nobody writes as long as the borrow lasts.
    #[inline(always)]
    pub(crate) unsafe fn read(&self) -> &T {
        sync::reads(self.object(), "an object in its place");
        // SAFETY: the caller's.
        unsafe { &*self.object() }
    }

    /// The object, to be written.
    ///
    /// # Safety
    ///
    /// There is one, which nobody else reads or writes as long as the borrow lasts.
    #[inline(always)]
    #[allow(clippy::mut_from_ref)]
    pub(crate) unsafe fn write(&self) -> &mut T {
        sync::writes(self.object(), "an object in its place");
        // SAFETY: the caller's.
        unsafe { &mut *self.object() }
    }
}

/// Which places of a group are free, or which groups may have such: a word of a shard's owner. A census looks on from elsewhere, which is
/// why it is atomic; nothing depends on what that finds.
pub(crate) struct Own(atomic::AtomicU64);

impl Own {
    pub(crate) const fn new() -> Own {
        Own(atomic::AtomicU64::new(0))
    }

    #[inline(always)]
    pub(crate) fn get(&self) -> u64 {
        sync::reads(self, "a word of a shard's owner");
        self.0.load(Relaxed)
    }

    #[inline(always)]
    pub(crate) fn set(&self, bits: u64) {
        sync::writes(self, "a word of a shard's owner");
        self.0.store(bits, Relaxed);
    }

    /// What it is now, for who isn't the owner.
    pub(crate) fn look(&self) -> u64 {
        self.0.load(Relaxed)
    }
}

/// How many places a pool may open, and how many are opened.
pub(crate) struct Quota {
    most: usize,
    opened: AtomicUsize,
}

impl Quota {
    pub(crate) const fn new(most: usize) -> Quota {
        Quota {
            most,
            opened: AtomicUsize::new(0),
        }
    }

    /// Counts so many more, where they may be opened. (It tries again only where another page was opened meanwhile: nothing is counted that
    /// isn't, or others would find the pool full.)
    fn admit(&self, places: usize) -> bool {
        let more = |opened: usize| opened.checked_add(places).filter(|all| *all <= self.most);
        self.opened.fetch_update(Relaxed, Relaxed, more).is_ok()
    }

    fn withdraw(&self, places: usize) {
        self.opened.fetch_sub(places, Relaxed);
    }
}

/// Why no page was opened.
#[derive(Clone, Copy, PartialEq, Eq)]
pub(crate) enum Unopened {
    /// The shard has no further page.
    NoPage,
    /// The pool may not open so many places more.
    NoPlaces,
    Memory,
}

/// A page: where it is, its number in its shard, and how many places it has.
pub(crate) struct Page<T> {
    at: NonNull<u8>,
    number: usize,
    places: usize,
    of: PhantomData<*const T>,
}

impl<T> Clone for Page<T> {
    #[inline(always)]
    fn clone(&self) -> Self {
        *self
    }
}

impl<T> Copy for Page<T> {}

impl<T> Page<T> {
    /// # Safety
    ///
    /// `at` is what [`open`](Page::open) answered for so many places of this type, and the memory isn't freed while the page is used.
    #[inline(always)]
    pub(crate) unsafe fn of(at: NonNull<u8>, number: usize, places: usize) -> Page<T> {
        Page {
            at,
            number,
            places,
            of: PhantomData,
        }
    }

    fn layout(places: usize) -> Option<Layout> {
        let words = 2 * mem::size_of::<u64>() * places.div_ceil(GROUP);
        let bytes = places
            .checked_mul(mem::size_of::<Place<T>>())?
            .checked_add(words)?;
        Layout::from_size_align(bytes, mem::align_of::<Place<T>>()).ok()
    }

    /// Memory for so many places, of which all are free.
    pub(crate) fn open(number: usize, places: usize, quota: &Quota) -> Result<Page<T>, Unopened> {
        let layout = Page::<T>::layout(places).ok_or(Unopened::Memory)?;
        if !quota.admit(places) {
            return Err(Unopened::NoPlaces);
        }
        // SAFETY: a place has a word, so that the size isn't 0.
        let Some(at) = NonNull::new(unsafe { alloc::alloc_zeroed(layout) }) else {
            quota.withdraw(places);
            return Err(Unopened::Memory);
        };
        // SAFETY: it has so many places.
        let page = unsafe { Page::<T>::of(at, number, places) };
        for group in 0..page.groups() {
            // SAFETY: the page has this group.
            unsafe { page.free(group) }.set(first_bits(places - group * GROUP));
        }
        Ok(page)
    }

    /// The page isn't needed, as nobody knows of it.
    pub(crate) fn withdraw(self, quota: &Quota) {
        quota.withdraw(self.places);
        // SAFETY: nobody uses it. (It has no object.)
        unsafe { self.close(&mut First::default()) };
    }

    /// Where it is.
    pub(crate) fn at(self) -> NonNull<u8> {
        self.at
    }

    /// Its number in its shard.
    #[inline(always)]
    pub(crate) fn number(self) -> usize {
        self.number
    }

    pub(crate) fn places(self) -> usize {
        self.places
    }

    #[inline(always)]
    pub(crate) fn groups(self) -> usize {
        self.places.div_ceil(GROUP)
    }

    /// Drops the objects and frees the memory. Where a drop panics the others are dropped all the same.
    ///
    /// # Safety
    ///
    /// Nobody uses the page any more.
    pub(crate) unsafe fn close(self, panics: &mut First) {
        let mut slot = 0;
        while mem::needs_drop::<T>() && slot < self.places {
            // SAFETY: the caller's.
            panics.catch(|| unsafe { self.drop_objects(&mut slot) });
        }
        if let Some(layout) = Page::<T>::layout(self.places) {
            // SAFETY: it was allocated so.
            unsafe { alloc::dealloc(self.at.as_ptr(), layout) };
        }
    }

    /// Drops the objects from a slot on, which is moved on.
    ///
    /// # Safety
    ///
    /// Nobody uses the page any more.
    unsafe fn drop_objects(self, slot: &mut usize) {
        while *slot < self.places {
            // SAFETY: the page has this slot, and nobody else uses the place.
            let place = unsafe { self.place(*slot).as_mut() };
            *slot += 1;
            match place.word.has_object() {
                Some(true) => {
                    sync::writes(place.object(), "an object in its place");
                    // SAFETY: it has an object, which nobody uses any more.
                    unsafe { place.object().drop_in_place() }
                }
                Some(false) => {}
                // (The lowest free place is taken, of the lowest group that has one or of one that was taken from: so those behind weren't either.)
                None => *slot = self.places,
            }
        }
    }

    /// # Safety
    ///
    /// The page has this slot.
    #[inline(always)]
    pub(crate) unsafe fn place(self, slot: usize) -> NonNull<Place<T>> {
        debug_assert!(slot < self.places);
        // SAFETY: the places stand at the head of the page.
        unsafe { NonNull::new_unchecked(self.at.cast::<Place<T>>().as_ptr().add(slot)) }
    }

    /// Where the words of groups begin.
    #[inline(always)]
    fn words(self) -> NonNull<u64> {
        let offset = self.places * mem::size_of::<Place<T>>();
        // SAFETY: they stand behind the places, whose size is a multiple of a word's alignment.
        unsafe { NonNull::new_unchecked(self.at.as_ptr().add(offset)).cast() }
    }

    /// The owner's word of a group.
    ///
    /// # Safety
    ///
    /// The page has this group, and isn't freed while the word is used.
    #[inline(always)]
    pub(crate) unsafe fn free<'a>(self, group: usize) -> &'a Own {
        debug_assert!(group < self.groups());
        // SAFETY: it stands there.
        unsafe { &*self.words().as_ptr().add(group).cast::<Own>() }
    }

    /// The word of a group for all threads.
    ///
    /// # Safety
    ///
    /// The page has this group, and isn't freed while the word is used.
    #[inline(always)]
    pub(crate) unsafe fn returned<'a>(self, group: usize) -> &'a AtomicU64 {
        debug_assert!(group < self.groups());
        let words = self.groups() + group;
        // SAFETY: it stands there.
        unsafe { &*self.words().as_ptr().add(words).cast::<AtomicU64>() }
    }
}

/// As many bits as there are things, up to 64.
pub(crate) fn first_bits(count: usize) -> u64 {
    match count {
        0..=63 => (1 << count) - 1,
        _ => u64::MAX,
    }
}
