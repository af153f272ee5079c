//! What is in a pool: a count of its places, and a walk over its keys.
use crate::clear::Clear;
use crate::inner::Inner;
use crate::key::Key;
use crate::page::{Page, GROUP, PAGES};
use crate::pool::Pool;
use crate::segments::{SEGMENTS, SHARDS};
use crate::share::Borrowed;
use crate::sync::Ordering::Relaxed;
use crate::word::Look;
use std::fmt;
use std::iter::FusedIterator;

/// What the places of a pool are. The six add up to all places of the pool. (It is laid out as in C.)
#[derive(Clone, Copy, Debug, Default, PartialEq, Eq)]
#[repr(C)]
pub struct Census {
    /// Free.
    pub free: u32,
    /// In pages that were never needed: of all shards in a pool of fixed size, else of those that are there.
    pub unopened: u32,
    /// Created and not published; or being emptied just now.
    pub filling: u32,
    /// Published and not cleared.
    pub present: u32,
    /// Cleared, with a reference that wasn't given back.
    pub marked: u32,
    /// Used up.
    pub retired: u32,
}

impl Census {
    /// All places.
    ///
    /// ```
    /// use pardz::{Pool, Shape};
    ///
    /// let pool = Pool::<String>::open(Shape { lanes: 2, first_page: 8, pages: 3, ..Shape::default() })?;
    /// assert_eq!(pool.census().total(), 2 * (8 + 16 + 32));
    /// # Ok::<(), pardz::OpenError>(())
    /// ```
    pub fn total(&self) -> u32 {
        self.free + self.unopened + self.filling + self.present + self.marked + self.retired
    }

    fn count<T>(&mut self, page: Page<T>, last: u32) {
        for group in 0..page.groups() {
            // SAFETY: the page has this group.
            let (free, returned) = unsafe { (page.free(group), page.returned(group)) };
            let bits = free.look() | returned.load(Relaxed);
            let slots = group * GROUP..page.places().min((group + 1) * GROUP);
            for slot in slots {
                // SAFETY: the page has this slot.
                let place = unsafe { page.place(slot).as_ref() };
                let is_free = bits >> (slot % GROUP) & 1 == 1;
                *match place.word.look(last) {
                    Look::Present(_) => &mut self.present,
                    Look::Marked => &mut self.marked,
                    Look::Retired if !is_free => &mut self.retired,
                    _ if is_free => &mut self.free,
                    _ => &mut self.filling,
                } += 1;
            }
        }
    }
}

impl<T: Clear> Pool<T> {
    /// Counts the places as they are now, by a look at each of the opened pages.
    ///
    /// Where nobody calls meanwhile, this is what a close would count. Else each place is counted as it was at some moment of the call, or
    /// between two such; all the same the numbers add up to all places.
    ///
    /// ```
    /// use pardz::{Pool, Shape};
    ///
    /// let pool = Pool::<String>::open(Shape { lanes: 1, first_page: 4, pages: 2, ..Shape::default() })?;
    /// let key = pool.put("abc")?;
    /// let filling = pool.create()?;
    /// let census = pool.census();
    /// assert_eq!((census.present, census.filling, census.free, census.unopened), (1, 1, 2, 8));
    /// # Ok::<(), Box<dyn std::error::Error>>(())
    /// ```
    pub fn census(&self) -> Census {
        let mut census = Census::default();
        let limits = self.limits();
        let mut shards = limits.shards;
        if let Some(borrowed) = self.borrowed() {
            if !limits.is_fixed {
                shards = borrowed.segments().all().map(|(_, it)| it.shards()).sum();
            }
            let mut walk = Walk::default();
            while let Some((_, page)) = walk.next(&borrowed) {
                census.count(page, limits.last_generation);
            }
        } else if !limits.is_fixed {
            shards = 0;
        }
        let all = shards * limits.segment_shape(0).shard_places() as usize;
        census.unopened = (all as u32).saturating_sub(census.total());
        census
    }

    /// How many objects are published and not cleared, by a look at each place of an opened page, as [`census`](Pool::census).
    ///
    /// ```
    /// let pool = pardz::Pool::<String>::new();
    /// assert!(pool.is_empty());
    /// let key = pool.put("abc")?;
    /// assert_eq!(pool.len(), 1);
    /// assert!(pool.clear(key) && pool.is_empty());
    /// # Ok::<(), pardz::CreateError>(())
    /// ```
    pub fn len(&self) -> usize {
        self.keys().count()
    }

    /// Whether none is, likewise.
    pub fn is_empty(&self) -> bool {
        self.keys().next().is_none()
    }

    /// The keys of all objects that are published as the walk passes them, in no promised order. What is published or cleared meanwhile may be
    /// among them or not.
    ///
    /// ```
    /// let pool = pardz::Pool::<String>::new();
    /// let (one, two) = (pool.put("a")?, pool.put("b")?);
    /// assert!(pool.clear(one));
    /// assert_eq!(pool.keys().collect::<Vec<_>>(), [two]);
    /// # Ok::<(), pardz::CreateError>(())
    /// ```
    pub fn keys(&self) -> Keys<'_, T> {
        Keys {
            borrowed: self.borrowed(),
            walk: Walk::default(),
            page: None,
            slot: 0,
        }
    }

    /// Ends the pool, drops its objects, and counts its places. (A pool that is dropped ends as well, and nobody counts.) A filling
    /// or a reference that was forgotten ([`std::mem::forget`]) is in the count. Where owned handles live, what they have is in the count
    /// too, and the objects are dropped with the last of them.
    ///
    /// ```
    /// use pardz::{Pool, Shape};
    ///
    /// let pool = Pool::<String>::open(Shape { lanes: 1, first_page: 4, pages: 1, ..Shape::default() })?;
    /// let key = pool.put("abc")?;
    /// let census = pool.close();
    /// assert_eq!((census.present, census.free), (1, 3));
    /// # Ok::<(), Box<dyn std::error::Error>>(())
    /// ```
    pub fn close(self) -> Census {
        self.census()
    }
}

/// A walk over the open pages of a pool.
#[derive(Default)]
struct Walk {
    tag: usize,
    page: usize,
}

impl Walk {
    /// The next page, and the key of generation 1 of its first place.
    fn next<T>(&mut self, inner: &Inner<T>) -> Option<(u64, Page<T>)> {
        while self.tag < SEGMENTS {
            let Some(segment) = inner.segments().get(self.tag as u8) else {
                self.tag += 1;
                continue;
            };
            while self.page < SHARDS * PAGES {
                let page = self.page;
                self.page += 1;
                if let Some(at) = segment.page(page) {
                    let (shard, number) = (page / PAGES, page % PAGES);
                    let first = Key::first(self.tag as u8, shard as u8, number, 0);
                    // SAFETY: it is an open page of this pool.
                    return Some((first, unsafe { inner.page_at(at, number as u32) }));
                }
            }
            (self.tag, self.page) = (self.tag + 1, 0);
        }
        None
    }
}

/// A walk over the keys of a pool's published objects: see [`Pool::keys`].
pub struct Keys<'p, T: Clear> {
    borrowed: Option<Borrowed<'p, T>>,
    walk: Walk,
    page: Option<(u64, Page<T>)>,
    slot: usize,
}

impl<T: Clear> Iterator for Keys<'_, T> {
    type Item = Key;

    fn next(&mut self) -> Option<Key> {
        let borrowed = self.borrowed?;
        loop {
            if let Some((first, page)) = self.page {
                while self.slot < page.places() {
                    let slot = self.slot;
                    self.slot += 1;
                    // SAFETY: the page has this slot.
                    let place = unsafe { page.place(slot).as_ref() };
                    if let Look::Present(generation) =
                        place.word.look(borrowed.shape().last_generation)
                    {
                        return Some(Key::at(first + slot as u64, generation));
                    }
                }
            }
            (self.page, self.slot) = (Some(self.walk.next(&borrowed)?), 0);
        }
    }
}

impl<T: Clear> FusedIterator for Keys<'_, T> {}

impl<T: Clear> fmt::Debug for Keys<'_, T> {
    fn fmt(&self, f: &mut fmt::Formatter<'_>) -> fmt::Result {
        f.debug_struct("Keys").finish_non_exhaustive()
    }
}
