//! Drawn calls, beside a model.
mod common;

use common::Draws;
use pardz::{Buffer, CreateError, Filling, Key, Lane, Pool, Ref, Shape};
use std::collections::HashMap;
use std::io::Write;

/// A filling, and the vector that it should be.
struct Written<'l> {
    filling: Filling<'l, Buffer>,
    model: Vec<u8>,
    /// What was put into the room that the filling lent.
    lent: Vec<u8>,
}

impl<'l> Written<'l> {
    /// A filling that nothing was written to.
    fn new(filling: Filling<'l, Buffer>) -> Written<'l> {
        Written {
            filling,
            model: Vec::new(),
            lent: Vec::new(),
        }
    }

    /// Writes drawn bytes to both in a drawn way, or compares the two.
    fn write(&mut self, draws: &mut Draws) {
        let bytes: Vec<u8> = (0..draws.below(40))
            .map(|_| draws.below(256) as u8)
            .collect();
        match draws.below(5) {
            0 => {
                self.filling.append(&bytes).unwrap();
                self.model.extend_from_slice(&bytes);
                self.lent.clear();
            }
            1 => {
                self.filling.write_all(&bytes).unwrap();
                self.model.extend_from_slice(&bytes);
                self.lent.clear();
            }
            2 => {
                let room = self.filling.room(bytes.len()).unwrap();
                assert!(room.iter().all(|byte| *byte == 0) && room.len() == bytes.len());
                room.copy_from_slice(&bytes);
                self.lent = bytes;
            }
            3 => {
                let count = draws.below(self.lent.len() + 1);
                self.filling.wrote(count);
                self.model.extend_from_slice(&self.lent[..count]);
                self.lent.clear();
            }
            _ => assert_eq!(&self.filling[..], self.model),
        }
    }
}

/// A filling is what a vector is that is filled in the same ways.
#[test]
fn fillings_beside_a_vector() {
    let pool = Pool::<Buffer>::open(Shape {
        lanes: 1,
        first_page: 2,
        pages: 1,
        ..Shape::default()
    })
    .unwrap();
    let lane = pool.lane().unwrap();
    let mut draws = Draws(88_172_645_463_325_252);
    for _ in 0..2000 {
        let mut written = Written::new(lane.create().unwrap());
        for _ in 0..draws.below(20) {
            written.write(&mut draws);
        }
        let Written { filling, model, .. } = written;
        if draws.below(2) == 0 {
            let bytes = filling.downgrade();
            assert_eq!(&bytes[..], model);
            assert!(lane.clear(bytes.key()));
        } else {
            let key = filling.publish();
            assert_eq!(&lane.get(key).unwrap()[..], model);
            assert!(lane.clear(key));
        }
    }
}

/// What two lanes have, and what the pool should.
struct Run<'l> {
    lanes: &'l [Lane<'l, Vec<u64>>; 2],
    draws: Draws,
    fillings: Vec<Filling<'l, Vec<u64>>>,
    references: Vec<Ref<'l, Vec<u64>>>,
    /// What is published and not cleared.
    present: HashMap<Key, Vec<u64>>,
    /// What each reference reads.
    held: HashMap<Key, Vec<u64>>,
    old: Vec<Key>,
}

impl<'l> Run<'l> {
    /// Lanes that have nothing yet, in a pool where nothing is.
    fn new(lanes: &'l [Lane<'l, Vec<u64>>; 2], draws: Draws) -> Run<'l> {
        Run {
            lanes,
            draws,
            fillings: Vec::new(),
            references: Vec::new(),
            present: HashMap::new(),
            held: HashMap::new(),
            old: Vec::new(),
        }
    }

    fn lane(&mut self) -> &'l Lane<'l, Vec<u64>> {
        &self.lanes[self.draws.below(2)]
    }

    fn key(&mut self) -> Key {
        match self.draws.below(8) {
            0 => Key::try_from(self.draws.0).unwrap(),
            1 if !self.fillings.is_empty() => {
                self.fillings[self.draws.below(self.fillings.len())].key()
            }
            _ if self.old.is_empty() => Key::try_from(1).unwrap(),
            _ => self.old[self.old.len() - 1 - self.draws.below(self.old.len().min(40))],
        }
    }

    fn fill(&mut self) {
        match self.lane().create() {
            Ok(mut list) => {
                assert!(list.is_empty());
                let number = u64::from(list.key());
                list.extend((0..self.draws.below(9) as u64).map(|item| number ^ item));
                self.fillings.push(list);
            }
            Err(error) => assert_eq!(error, CreateError::Full),
        }
    }

    fn publish(&mut self) {
        if self.fillings.is_empty() {
            return;
        }
        let index = self.draws.below(self.fillings.len());
        let filling = self.fillings.swap_remove(index);
        let list = filling.to_vec();
        let key = if self.draws.below(2) == 0 {
            filling.publish()
        } else {
            let reference = filling.downgrade();
            let key = reference.key();
            self.references.push(reference);
            self.held.insert(key, list.clone());
            key
        };
        assert!(self.present.insert(key, list).is_none());
        self.old.push(key);
    }

    fn get(&mut self) {
        let key = self.key();
        let found = self.lane().get(key);
        assert_eq!(found.as_deref(), self.present.get(&key));
        if let Some(reference) = found {
            self.held.insert(key, reference.to_vec());
            self.references.push(reference);
        }
    }

    fn release(&mut self) {
        if self.references.is_empty() {
            return;
        }
        let index = self.draws.below(self.references.len());
        let reference = self.references.swap_remove(index);
        assert_eq!(*reference, self.held[&reference.key()]);
    }

    fn clear(&mut self) {
        let key = self.key();
        assert_eq!(self.lane().clear(key), self.present.remove(&key).is_some());
    }

    /// Makes one of these calls, as drawn.
    fn call(&mut self) {
        match self.draws.below(9) {
            0 | 1 => self.fill(),
            2 | 3 => self.publish(),
            4 | 5 => self.get(),
            6 | 7 => self.release(),
            _ => self.clear(),
        }
    }
}

#[test]
fn objects_beside_a_map() {
    let pool = Pool::<Vec<u64>>::open(Shape {
        lanes: 2,
        first_page: 2,
        pages: 3,
        last_generation: u32::MAX,
        tag: 9,
    })
    .unwrap();
    let lanes = [pool.lane().unwrap(), pool.lane().unwrap()];
    let mut run = Run::new(&lanes, Draws(1_181_783_497_276_652_981));
    for _ in 0..100_000 {
        run.call();
    }
    assert!(run
        .references
        .iter()
        .all(|reference| **reference == run.held[&reference.key()]));
    let present = run.present.len();
    run.fillings.drain(..).for_each(drop::<Filling<Vec<u64>>>);
    drop(run);
    drop(lanes);
    let census = pool.close();
    assert_eq!(
        (census.present as usize, census.marked, census.filling),
        (present, 0, 0)
    );
}
