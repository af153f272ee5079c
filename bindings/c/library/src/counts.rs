//! A lane's references, counted by key: a program tells a reference by its key alone, and may be wrong about it.
use crate::code::{must, Answer, Refusal};
use crate::share::row;
use pardz::Shape;
use std::array;

/// The most references that a lane has.
const MOST_REFERENCES: u32 = 1_048_575;

/// The most pages that a lane has, and the most places of a page.
const MOST_PAGES: usize = 16;
const MOST_PLACES: u32 = 4096;

/// How many references a lane has to a key of a place.
#[derive(Clone, Copy, Default)]
struct KeyCount {
    /// Of the last key of the place to which the lane had a reference; 0, which no key has, before the first.
    generation: u32,
    count: u32,
}

/// The references of a lane: a count for each place of the pool.
pub(crate) struct Counts {
    tag: u32,
    /// Where each page of a lane begins among the lane's places. (Those that it hasn't begin at their end.)
    pages: [u32; MOST_PAGES + 1],
    places: Vec<KeyCount>,
    /// Of all keys together.
    pub(crate) all: u32,
}

impl Counts {
    /// No reference to any key of a pool.
    pub(crate) fn new(shape: &Shape) -> Answer<Counts> {
        let size = |page: u32| (shape.first_page << page).min(MOST_PLACES);
        let begin = |page: usize| (0..shape.pages.min(page as u32)).map(size).sum();
        let pages: [u32; MOST_PAGES + 1] = array::from_fn(begin);
        let count = (shape.lanes * pages[MOST_PAGES]) as usize;
        let mut places = row(count)?;
        places.resize(count, KeyCount::default());
        let (tag, all) = (shape.tag, 0);
        Ok(Counts {
            tag,
            pages,
            places,
            all,
        })
    }

    /// That the lane can have one more.
    #[inline]
    pub(crate) fn must_have_room(&self) -> Answer {
        must(self.all < MOST_REFERENCES, Refusal::References)
    }

    /// The count of a key's place, where the pool has that. (A key has the tag, 8 bits, the generation, 32, the lane, 8, the page, 4, and its
    /// place there, 12.)
    #[inline]
    fn of_place(&mut self, key: u64) -> Option<&mut KeyCount> {
        let page = (key >> 12 & 0xf) as usize;
        let index = self.pages[page] + (key & 0xfff) as u32;
        let before = (key >> 16 & 0xff) as usize * self.pages[MOST_PAGES] as usize;
        let is_there = index < self.pages[page + 1] && key >> 56 == u64::from(self.tag);
        let place = is_there.then_some(before + index as usize)?;
        self.places.get_mut(place)
    }

    /// The count of a key to which the lane has a reference.
    #[inline]
    pub(crate) fn of_key(&mut self, key: u64) -> Answer<&mut u32> {
        match self.of_place(key) {
            Some(at) if at.count > 0 && at.generation == generation(key) => Ok(&mut at.count),
            _ => Err(Refusal::NoReference),
        }
    }

    /// One reference more, to a key of the pool.
    #[inline]
    pub(crate) fn gain(&mut self, key: u64) {
        if let Some(at) = self.of_place(key) {
            // (Where it had one of another key, that was given back.)
            at.count = match at.generation == generation(key) {
                true => at.count + 1,
                false => 1,
            };
            at.generation = generation(key);
            self.all += 1;
        }
    }

    /// One reference less.
    #[inline]
    pub(crate) fn lose(&mut self, key: u64) -> Answer {
        *self.of_key(key)? -= 1;
        self.all -= 1;
        Ok(())
    }
}

fn generation(key: u64) -> u32 {
    (key >> 24) as u32
}
