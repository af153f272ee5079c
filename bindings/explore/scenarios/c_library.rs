//! The C library that cargo builds, as a program calls it: its exported calls, a pool that any thread calls, an owned reference.
use explorer::{reads, writes};
use std::cell::UnsafeCell;
use std::ffi::c_void;
use std::sync::atomic::{AtomicU32, Ordering};
use std::{ptr, slice};

extern crate pardz_c as _;

// As pardz.h has them.

#[repr(C)]
struct PoolShape([u32; 5]);

#[repr(C)]
struct Slot {
    at: *mut (),
    full: u64,
}

#[repr(C)]
#[derive(Clone, Copy)]
pub struct Lent {
    pub at: *const u8,
    pub len: usize,
    pub key: u64,
    pub lane: u32,
}

#[repr(C)]
#[derive(Debug, Default, PartialEq)]
pub struct Census {
    pub free: u32,
    pub unopened: u32,
    pub filling: u32,
    pub present: u32,
    pub marked: u32,
    pub retired: u32,
}

#[repr(C)]
struct Limits {
    places: u64,
    threads: u32,
    first_tag: u32,
    tags: u32,
    last_generation: u32,
}

/// What the objects of a pool are.
#[repr(C)]
struct Objects {
    size: usize,
    zeroed: u32,
    empty: Option<extern "C" fn(*mut c_void, *mut c_void, usize)>,
    end: Option<extern "C" fn(*mut c_void, *mut c_void, usize)>,
    context: *mut c_void,
}

/// How many objects were emptied since a pool of them was opened, and how many ended.
pub static EMPTIED: AtomicU32 = AtomicU32::new(0);
pub static ENDED: AtomicU32 = AtomicU32::new(0);

extern "C" fn empty(_: *mut c_void, at: *mut c_void, _: usize) {
    writes(at, "an object that is emptied");
    EMPTIED.fetch_add(1, Ordering::Relaxed);
}

extern "C" fn end(_: *mut c_void, at: *mut c_void, _: usize) {
    writes(at, "an object that ends");
    ENDED.fetch_add(1, Ordering::Relaxed);
}

/// A reference of no lane.
#[repr(C)]
#[derive(Clone, Copy)]
pub struct CRef {
    at: *const u8,
    len: usize,
    key: u64,
}

impl CRef {
    const NONE: CRef = CRef {
        at: ptr::null(),
        len: 99,
        key: 99,
    };

    pub fn look(&self, text: &str) {
        look(self.at, self.len, text);
    }
}

/// A filling of no lane.
#[repr(C)]
#[derive(Clone, Copy)]
pub struct CFilling {
    at: *mut u8,
    key: u64,
}

impl CFilling {
    pub const NONE: CFilling = CFilling {
        at: ptr::null_mut(),
        key: 0,
    };
}

const OK: u32 = 0;
const EMPTY_LANE: u32 = 2;
pub const NO_FILLING: u32 = 6;
pub const NO_REFERENCE: u32 = 7;
pub const GONE: u32 = 8;
const SHARED: u32 = 14;
pub const BUSY: u32 = 15;

extern "C" {
    fn pardz_attach(shape: *const PoolShape, pool: *mut Slot) -> u32;
    fn pardz_share(pool: *const Slot, other: *mut Slot) -> u32;
    fn pardz_unshare(pool: *mut Slot) -> u32;
    fn pardz_pool_put(
        pool: *const Slot,
        from: u32,
        bytes: *const u8,
        len: usize,
        key: *mut u64,
    ) -> u32;
    fn pardz_pool_get(pool: *const Slot, from: u32, key: u64, lent: *mut Lent) -> u32;
    fn pardz_pool_release(pool: *const Slot, lent: *const Lent) -> u32;
    fn pardz_pool_clear(pool: *const Slot, from: u32, key: u64) -> u32;
    fn pardz_pool_census(pool: *const Slot, census: *mut Census) -> u32;
    fn pardz_detach(pool: *mut Slot, census: *mut Census) -> u32;
    fn pardz_grow(limits: *const Limits, pool: *mut Slot) -> u32;
    fn pardz_open_sized(limits: *const Limits, objects: *const Objects, pool: *mut Slot) -> u32;
    fn pardz_any_put(pool: *const Slot, bytes: *const u8, len: usize, key: *mut u64) -> u32;
    fn pardz_any_create(pool: *const Slot, filling: *mut CFilling) -> u32;
    fn pardz_any_append(
        pool: *const Slot,
        filling: *mut CFilling,
        bytes: *const u8,
        len: usize,
    ) -> u32;
    fn pardz_any_publish(pool: *const Slot, filling: *mut CFilling, key: *mut u64) -> u32;
    fn pardz_any_drop(pool: *const Slot, filling: *mut CFilling) -> u32;
    fn pardz_any_get(pool: *const Slot, key: u64, to: *mut CRef) -> u32;
    fn pardz_any_clone(pool: *const Slot, of: *const CRef, to: *mut CRef) -> u32;
    fn pardz_any_release(pool: *const Slot, of: *mut CRef) -> u32;
    fn pardz_any_own(pool: *const Slot, of: *const CRef, owned: *mut Slot) -> u32;
    fn pardz_any_clear(pool: *const Slot, key: u64) -> u32;
    fn pardz_own(pool: *const Slot, from: u32, key: u64, owned: *mut Slot) -> u32;
    fn pardz_own_again(owned: *const Slot, other: *mut Slot) -> u32;
    fn pardz_owned_bytes(owned: *const Slot, at: *mut *const u8, len: *mut usize) -> u32;
    fn pardz_disown(owned: *mut Slot) -> u32;
}

/// What a call answers, or its code.
pub type Answer<V = ()> = Result<V, u32>;

fn answer(code: u32) -> Answer {
    match code {
        OK => Ok(()),
        code => Err(code),
    }
}

/// Calls from a lane on, until one serves it.
pub fn wait<V>(from: u32, call: impl Fn(u32) -> Answer<V>) -> Answer<V> {
    loop {
        match call(from) {
            Err(BUSY) => explorer::yield_now(),
            other => return other,
        }
    }
}

/// The bytes of a key are these.
pub fn look(at: *const u8, len: usize, text: &str) {
    reads(at, "lent bytes");
    // SAFETY: what a call lent stands there until the reference is given back.
    let bytes = unsafe { slice::from_raw_parts(at, len) };
    assert_eq!(bytes, text.as_bytes(), "the bytes of a key");
}

/// A pool of the C library's.
pub struct CPool(UnsafeCell<Slot>);

// SAFETY: the scenarios keep the duties that the header names.
unsafe impl Sync for CPool {}
// SAFETY: as above.
unsafe impl Send for CPool {}

impl CPool {
    pub fn empty() -> CPool {
        CPool(UnsafeCell::new(EMPTY))
    }

    pub fn attach(&self, lanes: u32, places: u32) {
        let shape = PoolShape([lanes, places, 1, u32::MAX, 0]);
        // SAFETY: the slot is empty, and no other thread uses it.
        assert_eq!(unsafe { pardz_attach(&shape, self.0.get()) }, OK);
    }

    /// The other slot has the pool too.
    pub fn share(&self, other: &CPool) {
        // SAFETY: the other slot is empty, and no other thread uses it.
        assert_eq!(unsafe { pardz_share(self.0.get(), other.0.get()) }, OK);
    }

    pub fn unshare(&self) {
        // SAFETY: no other thread uses the slot.
        assert_eq!(unsafe { pardz_unshare(self.0.get()) }, OK);
    }

    /// A detach as soon as no other slot has the pool.
    pub fn detach_last(&self) -> Answer<Census> {
        loop {
            match self.detach() {
                Err(SHARED) => explorer::yield_now(),
                other => return other,
            }
        }
    }

    pub fn put(&self, from: u32, text: &str) -> Answer<u64> {
        let mut key = 0;
        // SAFETY: the bytes and the key stand there.
        let code =
            unsafe { pardz_pool_put(self.0.get(), from, text.as_ptr(), text.len(), &mut key) };
        answer(code).map(|()| key)
    }

    pub fn get(&self, from: u32, key: u64) -> Answer<Lent> {
        let mut lent = Lent {
            at: ptr::null(),
            len: 99,
            key: 0,
            lane: 99,
        };
        // SAFETY: a reference stands there.
        let answer = answer(unsafe { pardz_pool_get(self.0.get(), from, key, &mut lent) });
        assert!(
            answer.is_ok() || (lent.at.is_null() && lent.len == 99 && lent.lane == 99),
            "a refused get writes"
        );
        answer.map(|()| lent)
    }

    pub fn release(&self, lent: &Lent) -> Answer {
        // SAFETY: a reference stands there.
        answer(unsafe { pardz_pool_release(self.0.get(), lent) })
    }

    pub fn clear(&self, from: u32, key: u64) -> Answer {
        // SAFETY: the slot is the world's.
        answer(unsafe { pardz_pool_clear(self.0.get(), from, key) })
    }

    pub fn census(&self) -> Census {
        let mut census = Census::default();
        // SAFETY: the census stands there.
        assert_eq!(unsafe { pardz_pool_census(self.0.get(), &mut census) }, OK);
        census
    }

    pub fn detach(&self) -> Answer<Census> {
        let mut census = Census::default();
        // SAFETY: one thread does so, when no call is under way, or can't begin.
        answer(unsafe { pardz_detach(self.0.get(), &mut census) }).map(|()| census)
    }

    pub fn own(&self, from: u32, key: u64) -> Answer<OwnedSlot> {
        let owned = OwnedSlot::default();
        // SAFETY: the slot is empty.
        answer(unsafe { pardz_own(self.0.get(), from, key, owned.0.get()) }).map(|()| owned)
    }
}

const LIMITS: Limits = Limits {
    places: u64::MAX,
    threads: u32::MAX,
    first_tag: 0,
    tags: 256,
    last_generation: u32::MAX,
};

/// Calls by any thread.
impl CPool {
    pub fn grow(&self) {
        // SAFETY: the slot is empty, and no other thread uses it.
        assert_eq!(unsafe { pardz_grow(&LIMITS, self.0.get()) }, OK);
    }

    /// A pool of objects of this size.
    pub fn grow_of(&self, size: usize) {
        EMPTIED.store(0, Ordering::Relaxed);
        ENDED.store(0, Ordering::Relaxed);
        let objects = Objects {
            size,
            zeroed: 1,
            empty: Some(empty),
            end: Some(end),
            context: ptr::null_mut(),
        };
        // SAFETY: as above.
        let code = unsafe { pardz_open_sized(&LIMITS, &objects, self.0.get()) };
        assert_eq!(code, OK);
    }

    pub fn any_put(&self, text: &str) -> Answer<u64> {
        let mut key = 0;
        // SAFETY: the bytes and the key stand there.
        let code = unsafe { pardz_any_put(self.0.get(), text.as_ptr(), text.len(), &mut key) };
        answer(code).map(|()| key)
    }

    pub fn any_create(&self) -> Answer<CFilling> {
        let mut filling = CFilling::NONE;
        // SAFETY: a filling stands there.
        answer(unsafe { pardz_any_create(self.0.get(), &mut filling) }).map(|()| filling)
    }

    pub fn any_append(&self, filling: &mut CFilling, text: &str) -> Answer {
        // SAFETY: the filling and the bytes stand there.
        answer(unsafe { pardz_any_append(self.0.get(), filling, text.as_ptr(), text.len()) })
    }

    pub fn any_publish(&self, filling: &mut CFilling) -> Answer<u64> {
        let mut key = 0;
        // SAFETY: the filling and the key stand there.
        answer(unsafe { pardz_any_publish(self.0.get(), filling, &mut key) }).map(|()| key)
    }

    pub fn any_drop(&self, filling: &mut CFilling) -> Answer {
        // SAFETY: the filling stands there.
        answer(unsafe { pardz_any_drop(self.0.get(), filling) })
    }

    pub fn any_get(&self, key: u64) -> Answer<CRef> {
        let mut found = CRef::NONE;
        // SAFETY: a reference stands there.
        answer(unsafe { pardz_any_get(self.0.get(), key, &mut found) }).map(|()| found)
    }

    pub fn any_clone(&self, of: &CRef) -> Answer<CRef> {
        let mut more = CRef::NONE;
        // SAFETY: both references stand there.
        answer(unsafe { pardz_any_clone(self.0.get(), of, &mut more) }).map(|()| more)
    }

    pub fn any_release(&self, of: &mut CRef) -> Answer {
        // SAFETY: a reference stands there.
        answer(unsafe { pardz_any_release(self.0.get(), of) })
    }

    pub fn any_own(&self, of: &CRef) -> Answer<OwnedSlot> {
        let owned = OwnedSlot::default();
        // SAFETY: the reference stands there, and the slot is empty.
        answer(unsafe { pardz_any_own(self.0.get(), of, owned.0.get()) }).map(|()| owned)
    }

    pub fn any_clear(&self, key: u64) -> Answer {
        // SAFETY: the slot is the world's.
        answer(unsafe { pardz_any_clear(self.0.get(), key) })
    }
}

const EMPTY: Slot = Slot {
    at: ptr::null_mut(),
    full: 0,
};

/// An owned reference of the C library's.
pub struct OwnedSlot(UnsafeCell<Slot>);

// SAFETY: as of `CPool`.
unsafe impl Sync for OwnedSlot {}
// SAFETY: as of `CPool`.
unsafe impl Send for OwnedSlot {}

impl Default for OwnedSlot {
    fn default() -> OwnedSlot {
        OwnedSlot(UnsafeCell::new(EMPTY))
    }
}

impl OwnedSlot {
    pub fn again(&self) -> OwnedSlot {
        let other = OwnedSlot::default();
        // SAFETY: the other slot is empty.
        assert_eq!(unsafe { pardz_own_again(self.0.get(), other.0.get()) }, OK);
        other
    }

    pub fn look(&self, text: &str) {
        let (mut at, mut len) = (ptr::null(), 0);
        // SAFETY: both stand there.
        let code = unsafe { pardz_owned_bytes(self.0.get(), &mut at, &mut len) };
        assert_eq!(code, OK);
        look(at, len, text);
    }

    pub fn disown(&self) {
        // SAFETY: one thread has the slot.
        let codes = unsafe { [pardz_disown(self.0.get()), pardz_disown(self.0.get())] };
        assert_eq!(codes, [OK, EMPTY_LANE]);
    }
}
