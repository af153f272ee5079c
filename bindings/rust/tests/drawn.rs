//! Drawn calls by up to 64 lanes of a pool of up to sixteen pages, one after the other, beside a pool of one thread that knows of each
//! place what became of it.
mod common;

use common::{limit, Draws};
use pardz::{Census, CreateError, Filling, Key, Lane, Pool, Ref, Shape};
use std::collections::HashMap;

/// Without optimization the widest pool takes long to open.
const LANES: u32 = if cfg!(debug_assertions) { 4 } else { 64 };

/// Where an object lives, as its key says.
#[derive(Clone, Copy, Debug, PartialEq, Eq, Hash)]
struct Place {
    shard: u32,
    page: u32,
    slot: u32,
}

fn place(key: Key) -> Place {
    let bits = u64::from(key);
    Place {
        shard: (bits >> 16 & 0xff) as u32,
        page: (bits >> 12 & 0xf) as u32,
        slot: (bits & 0xfff) as u32,
    }
}

fn generation(key: Key) -> u32 {
    (u64::from(key) >> 24) as u32
}

#[derive(Clone, Copy, Debug, PartialEq, Eq)]
enum Phase {
    Free,
    Filling,
    Present,
    Marked,
    Retired,
}

/// What became of a place that was created in.
struct Used {
    generation: u32,
    phase: Phase,
    references: u32,
}

/// The pool of one thread.
struct Model {
    shape: Shape,
    places: HashMap<Place, Used>,
    /// How many pages each lane has opened.
    opened: Vec<u32>,
    /// How many free places each lane has in them.
    free: Vec<u32>,
}

impl Model {
    fn new(shape: Shape) -> Model {
        Model {
            shape,
            places: HashMap::new(),
            opened: vec![0; shape.lanes as usize],
            free: vec![0; shape.lanes as usize],
        }
    }

    fn page_size(&self, page: u32) -> u32 {
        (self.shape.first_page << page).min(4096)
    }

    /// A lane created this key: in a free place, or in the next page where it had none.
    fn create(&mut self, lane: u32, key: Key) {
        let (shard, at) = (lane as usize, place(key));
        assert_eq!(
            (at.shard, u64::from(key) >> 56),
            (lane, u64::from(self.shape.tag))
        );
        if self.free[shard] == 0 {
            assert_eq!(
                at.page, self.opened[shard],
                "the next page, for all others are full"
            );
            self.opened[shard] += 1;
            self.free[shard] = self.page_size(at.page);
        }
        assert!(
            at.page < self.opened[shard],
            "no page is opened while a place is free"
        );
        assert!(at.page < self.shape.pages && at.slot < self.page_size(at.page));
        self.free[shard] -= 1;
        let fresh = Used {
            generation: 0,
            phase: Phase::Free,
            references: 0,
        };
        let used = self.places.entry(at).or_insert(fresh);
        assert_eq!(used.phase, Phase::Free);
        assert_eq!(generation(key), used.generation + 1);
        (used.generation, used.phase) = (generation(key), Phase::Filling);
    }

    fn is_full(&self, lane: u32) -> bool {
        self.free[lane as usize] == 0 && self.opened[lane as usize] == self.shape.pages
    }

    /// The place of a key, if it is one of the present.
    fn present(&mut self, key: Key) -> Option<&mut Used> {
        if u64::from(key) >> 56 != u64::from(self.shape.tag) {
            return None;
        }
        let used = self.places.get_mut(&place(key))?;
        (used.generation == generation(key) && used.phase == Phase::Present).then_some(used)
    }

    fn publish(&mut self, key: Key, references: u32) {
        let used = self.places.get_mut(&place(key)).expect("it was created");
        assert_eq!(
            (used.generation, used.phase),
            (generation(key), Phase::Filling)
        );
        (used.phase, used.references) = (Phase::Present, references);
    }

    fn get(&mut self, key: Key) -> bool {
        self.present(key).map(|used| used.references += 1).is_some()
    }

    fn clear(&mut self, key: Key) -> bool {
        let found = self
            .present(key)
            .map(|used| used.phase = Phase::Marked)
            .is_some();
        if found {
            self.reclaim(place(key));
        }
        found
    }

    fn release(&mut self, key: Key) {
        let used = self.places.get_mut(&place(key)).expect("it was published");
        used.references -= 1;
        self.reclaim(place(key));
    }

    /// A place that is cleared and has no reference is free again, or used up.
    fn reclaim(&mut self, at: Place) {
        let last = self.shape.last_generation;
        let used = self.places.get_mut(&at).expect("it was used");
        if (used.phase, used.references) != (Phase::Marked, 0) {
            return;
        }
        if used.generation == last {
            used.phase = Phase::Retired;
        } else {
            used.phase = Phase::Free;
            self.free[at.shard as usize] += 1;
        }
    }

    fn census(&self) -> Census {
        let count = |phase| {
            self.places
                .values()
                .filter(|used| used.phase == phase)
                .count() as u32
        };
        let places = |pages| (0..pages).map(|page| self.page_size(page)).sum::<u32>();
        let opened: u32 = self.opened.iter().copied().map(places).sum();
        let mut census = Pool::<Vec<u64>>::open(Shape {
            lanes: 1,
            first_page: 1,
            pages: 1,
            ..self.shape
        })
        .expect("a pool")
        .close();
        census.free = self.free.iter().sum();
        census.unopened = self.shape.lanes * places(self.shape.pages) - opened;
        census.filling = count(Phase::Filling);
        census.present = count(Phase::Present);
        census.marked = count(Phase::Marked);
        census.retired = count(Phase::Retired);
        census
    }
}

/// What the lanes have, beside what the pool should.
struct Run<'l> {
    lanes: &'l [Lane<'l, Vec<u64>>],
    draws: Draws,
    model: Model,
    fillings: Vec<Filling<'l, Vec<u64>>>,
    references: Vec<Ref<'l, Vec<u64>>>,
    keys: Vec<Key>,
}

impl<'l> Run<'l> {
    /// A lane, with its number: that of its shard, as they were taken in this order.
    fn lane(&mut self) -> (u32, &'l Lane<'l, Vec<u64>>) {
        let number = self.draws.below(self.lanes.len());
        (number as u32, &self.lanes[number])
    }

    fn key(&mut self) -> Key {
        match self.draws.below(20) {
            0 => Key::try_from(self.draws.0).expect("not 0"),
            _ if self.keys.is_empty() => Key::try_from(1 << 24).expect("not 0"),
            // (Most often one of the last, whose objects are there.)
            1..=3 => self.keys[self.draws.below(self.keys.len())],
            _ => self.keys[self.keys.len() - 1 - self.draws.below(self.keys.len().min(300))],
        }
    }

    fn create(&mut self) {
        let (number, lane) = self.lane();
        match lane.create() {
            Ok(mut list) => {
                assert!(list.is_empty());
                let key = list.key();
                self.model.create(number, key);
                self.keys.push(key);
                list.push(key.into());
                self.fillings.push(list);
            }
            Err(error) => {
                assert_eq!(error, CreateError::Full);
                assert!(self.model.is_full(number));
            }
        }
    }

    /// A filling is published, without a reference or with one, or dropped.
    fn finish(&mut self) {
        if self.fillings.is_empty() {
            return;
        }
        let filling = self
            .fillings
            .swap_remove(self.draws.below(self.fillings.len()));
        let key = filling.key();
        match self.draws.below(8) {
            0 => {
                drop(filling);
                self.model.publish(key, 0);
                assert!(self.model.clear(key));
            }
            1 | 2 => {
                self.references.push(filling.downgrade());
                self.model.publish(key, 1);
            }
            _ => {
                assert_eq!(filling.publish(), key);
                self.model.publish(key, 0);
            }
        }
    }

    fn get(&mut self) {
        let ((_, lane), key) = (self.lane(), self.key());
        let found = lane.get(key);
        assert_eq!(found.is_some(), self.model.get(key), "{key}");
        self.references.extend(found);
    }

    fn clear(&mut self) {
        let ((_, lane), key) = (self.lane(), self.key());
        assert_eq!(lane.clear(key), self.model.clear(key), "{key}");
    }

    fn release(&mut self) {
        if self.references.is_empty() {
            return;
        }
        let reference = self
            .references
            .swap_remove(self.draws.below(self.references.len()));
        let key = reference.key();
        assert_eq!(reference[..], [u64::from(key)]);
        drop(reference);
        self.model.release(key);
    }

    fn call(&mut self) {
        match self.draws.below(10) {
            0..=2 => self.create(),
            3 | 4 => self.finish(),
            5 | 6 => self.get(),
            7 => self.release(),
            _ => self.clear(),
        }
    }

    /// So many objects of one lane, which lead it through its pages.
    fn fill(&mut self, count: usize) {
        let (number, lane) = self.lane();
        for _ in 0..count {
            let Ok(mut list) = lane.create() else {
                return assert!(self.model.is_full(number));
            };
            let key = list.key();
            list.push(key.into());
            assert_eq!(list.publish(), key);
            self.model.create(number, key);
            self.model.publish(key, 0);
            self.keys.push(key);
        }
    }
}

fn run(seed: u64, shape: Shape, calls: usize, fills: &[usize]) {
    let pool = Pool::<Vec<u64>>::open(shape).expect("a pool");
    let lanes: Vec<_> = (0..shape.lanes)
        .map(|_| pool.lane().expect("a lane"))
        .collect();
    let mut run = Run {
        lanes: &lanes,
        draws: Draws(seed),
        model: Model::new(shape),
        fillings: Vec::new(),
        references: Vec::new(),
        keys: Vec::new(),
    };
    for count in fills {
        run.fill(*count);
        for _ in 0..calls / fills.len() {
            run.call();
        }
    }
    assert_eq!(pool.census(), run.model.census(), "{shape:?}");
    run.fillings.into_iter().for_each(std::mem::forget);
}

/// Small pools of many lanes and pages: most places are used again, retired, returned by other lanes.
#[test]
fn drawn_shapes() {
    let _limit = limit();
    for seed in 1..=40 {
        let mut draws = Draws(0x9e37_79b9_7f4a_7c15 ^ seed);
        let shape = Shape {
            lanes: draws.of(&[1, 2, 3, 15, 16, 17, 33, 64]),
            first_page: draws.of(&[1, 1, 2, 64]),
            pages: draws.of(&[1, 2, 3, 6, 7, 16]),
            last_generation: draws.of(&[1, 2, 3, u32::MAX]),
            tag: draws.of(&[0, 7, 255]),
        };
        run(draws.0, shape, 2500, &[10]);
    }
}

/// A lane goes through all of its sixteen pages, beside others.
#[test]
fn all_pages() {
    let _limit = limit();
    let shape = |lanes, first_page| Shape {
        lanes,
        first_page,
        pages: 16,
        last_generation: u32::MAX,
        tag: 3,
    };
    run(7, shape(2, 1), 20_000, &[10_000, 12_000, 20_000]);
    run(11, shape(LANES, 64), 20_000, &[9_000, 9_000]);
}
