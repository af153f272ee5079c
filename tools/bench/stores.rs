//! What one would take in the pool's place, with std alone.
use std::cell::RefCell;
use std::collections::{HashMap, VecDeque};
use std::hint::black_box;
use std::sync::{Arc, Mutex, MutexGuard};

/// The bytes of each buffer.
pub const BYTES: [u8; 64] = [7; 64];

/// Keeps buffers: for many threads where it is `Sync`. Its calls are always in line, as a program makes them where it wants them.
pub trait Store {
    /// What names a buffer that was put.
    type Handle: Send + Sync;

    /// Keeps a buffer with the bytes of each.
    fn put(&self) -> Self::Handle;

    /// How many bytes a buffer has. 0 where it is gone.
    fn read(&self, handle: &Self::Handle) -> usize;

    /// Takes a buffer away: whether it was there.
    fn take(&self, handle: Self::Handle) -> bool;

    /// How many bytes a buffer has, which is taken away while it is read; where a store has no references, after that.
    #[inline(always)]
    fn read_last(&self, handle: Self::Handle) -> usize {
        let bytes = self.read(&handle);
        self.take(handle);
        bytes
    }
}

/// A store whose handles are keys, which are copied, and may be words.
pub trait Keyed: Store<Handle: Copy> {
    fn word(key: Self::Handle) -> u64;

    fn key(word: u64) -> Self::Handle;
}

/// What a lock guards. No thread panics under it.
fn locked<T>(lock: &Mutex<T>) -> MutexGuard<'_, T> {
    lock.lock().expect("no thread panics under a lock")
}

/// A hash map of buffers behind a lock. No key is given twice.
#[derive(Default)]
pub struct Map(Mutex<Buffers>);

#[derive(Default)]
struct Buffers {
    last_key: u64,
    by_key: HashMap<u64, Vec<u8>>,
}

impl Store for Map {
    type Handle = u64;

    /// The buffer is filled before the lock is taken.
    #[inline(always)]
    fn put(&self) -> u64 {
        let buffer = BYTES.to_vec();
        let mut buffers = locked(&self.0);
        buffers.last_key += 1;
        let key = buffers.last_key;
        buffers.by_key.insert(key, buffer);
        key
    }

    #[inline(always)]
    fn read(&self, key: &u64) -> usize {
        locked(&self.0).by_key.get(key).map_or(0, Vec::len)
    }

    /// The buffer is dropped when the lock is free again.
    #[inline(always)]
    fn take(&self, key: u64) -> bool {
        let taken = locked(&self.0).by_key.remove(&key);
        taken.is_some()
    }
}

impl Keyed for Map {
    fn word(key: u64) -> u64 {
        key
    }

    fn key(word: u64) -> u64 {
        word
    }
}

/// A row of boxed buffers behind a lock. They are emptied in place, and filled again: each time with the next generation, which stands in
/// the key beside the place.
#[derive(Default)]
pub struct Row(Mutex<Places>);

#[derive(Default)]
struct Places {
    all: Vec<Place>,
    free: Vec<u32>,
}

struct Place {
    generation: u32,
    is_there: bool,
    buffer: Box<Vec<u8>>,
}

impl Places {
    /// The place of a key whose buffer is there.
    #[inline(always)]
    fn at(&mut self, key: u64) -> Option<&mut Place> {
        let place = self.all.get_mut(key as u32 as usize)?;
        (place.is_there && place.generation == (key >> 32) as u32).then_some(place)
    }

    /// A place that is free.
    #[inline(always)]
    fn free(&mut self) -> u32 {
        self.free.pop().unwrap_or_else(|| {
            self.all.push(Place {
                generation: 0,
                is_there: false,
                buffer: Box::default(),
            });
            self.all.len() as u32 - 1
        })
    }
}

impl Store for Row {
    type Handle = u64;

    #[inline(always)]
    fn put(&self) -> u64 {
        let mut places = locked(&self.0);
        let number = places.free();
        let place = &mut places.all[number as usize];
        place.generation = place.generation.wrapping_add(1);
        place.is_there = true;
        place.buffer.extend_from_slice(&BYTES);
        u64::from(place.generation) << 32 | u64::from(number)
    }

    #[inline(always)]
    fn read(&self, key: &u64) -> usize {
        let mut places = locked(&self.0);
        places.at(*key).map_or(0, |place| place.buffer.len())
    }

    #[inline(always)]
    fn take(&self, key: u64) -> bool {
        let mut places = locked(&self.0);
        let Some(place) = places.at(key) else {
            return false;
        };
        place.is_there = false;
        place.buffer.clear();
        places.free.push(key as u32);
        true
    }
}

impl Keyed for Row {
    fn word(key: u64) -> u64 {
        key
    }

    fn key(word: u64) -> u64 {
        word
    }
}

/// A queue of boxed spare buffers behind a lock. A thread owns what it takes, so there are no keys.
#[derive(Default)]
pub struct Queue(Mutex<VecDeque<Box<Vec<u8>>>>);

impl Store for Queue {
    type Handle = Box<Vec<u8>>;

    #[inline(always)]
    fn put(&self) -> Box<Vec<u8>> {
        let spare = locked(&self.0).pop_front();
        let mut buffer = spare.unwrap_or_default();
        buffer.extend_from_slice(&BYTES);
        buffer
    }

    #[inline(always)]
    fn read(&self, buffer: &Box<Vec<u8>>) -> usize {
        black_box(buffer).len()
    }

    #[inline(always)]
    fn take(&self, mut buffer: Box<Vec<u8>>) -> bool {
        buffer.clear();
        locked(&self.0).push_back(buffer);
        true
    }
}

/// A stack of spare buffers behind a lock. A thread owns what it takes, so there are no keys.
#[derive(Default)]
pub struct Stack(Mutex<Vec<Vec<u8>>>);

impl Store for Stack {
    type Handle = Vec<u8>;

    #[inline(always)]
    fn put(&self) -> Vec<u8> {
        let spare = locked(&self.0).pop();
        let mut buffer = spare.unwrap_or_default();
        buffer.extend_from_slice(&BYTES);
        buffer
    }

    #[inline(always)]
    fn read(&self, buffer: &Vec<u8>) -> usize {
        black_box(buffer).len()
    }

    #[inline(always)]
    fn take(&self, mut buffer: Vec<u8>) -> bool {
        buffer.clear();
        locked(&self.0).push(buffer);
        true
    }
}

type SharedBuffer = Arc<Mutex<Vec<u8>>>;

thread_local! {
    /// This thread's spare buffers.
    static SPARE: RefCell<Vec<SharedBuffer>> = const { RefCell::new(Vec::new()) };
}

/// A list of spare buffers for each thread, which keeps those that the thread takes away.
pub struct Local;

impl Store for Local {
    type Handle = SharedBuffer;

    #[inline(always)]
    fn put(&self) -> SharedBuffer {
        let spare = SPARE.with_borrow_mut(Vec::pop);
        let buffer = spare.unwrap_or_default();
        locked(&buffer).extend_from_slice(&BYTES);
        buffer
    }

    /// A clone of the handle is made and dropped, as where the buffer is lent to another part of a program.
    #[inline(always)]
    fn read(&self, buffer: &SharedBuffer) -> usize {
        locked(&Arc::clone(buffer)).len()
    }

    /// Where another handle is left, the buffer isn't kept.
    #[inline(always)]
    fn take(&self, mut buffer: SharedBuffer) -> bool {
        let Some(lock) = Arc::get_mut(&mut buffer) else {
            return true;
        };
        lock.get_mut()
            .expect("no thread panics under a lock")
            .clear();
        SPARE.with_borrow_mut(|spare| spare.push(buffer));
        true
    }
}

/// A fresh buffer each time, which an `Arc` shares.
pub struct Arcs;

impl Store for Arcs {
    type Handle = Arc<Vec<u8>>;

    /// The allocation is hidden from the compiler, which would leave it out.
    #[inline(always)]
    fn put(&self) -> Arc<Vec<u8>> {
        black_box(Arc::new(BYTES.to_vec()))
    }

    /// A clone of the handle is made and dropped, as where the buffer is lent to another part of a program.
    #[inline(always)]
    fn read(&self, buffer: &Arc<Vec<u8>>) -> usize {
        black_box(&Arc::clone(buffer)).len()
    }

    #[inline(always)]
    fn take(&self, buffer: Arc<Vec<u8>>) -> bool {
        drop(buffer);
        true
    }
}
