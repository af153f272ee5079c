//! The calls of `pardz.h`, each with the code of its answer.
//!
//! The header says what each asks of a program, and nothing here tests it: that a slot is empty, or one that the library filled; that a
//! pointer leads to so much memory as the call reads or writes, is never null, and isn't used by others meanwhile. So pointers to one value are
//! references here.
use crate::code::{code, must, Answer, Refusal};
use crate::content::{Grows, Kind};
use crate::handles::{get, lend, lend_room, wrote, Out, OwnedSlot, PoolFilling, PoolLent, PoolRef};
use crate::lane::{self, LaneSlot, NUMBERS};
use crate::share::Share;
use crate::store::{self, PoolLimits, PoolSlot, Store};
use pardz::{Census, Shape};
use std::ffi::{c_char, c_void};
use std::mem;
use std::ptr;
use std::slice;

/// Writes what a call answers.
fn tell<V>(to: Out<V>, value: V) -> Answer {
    to.write(value);
    Ok(())
}

/// So many values of a program, which stand there for the time of the call, or none.
macro_rules! row {
    (mut $at:ident, $count:ident) => {
        match $count {
            0 => &mut [],
            // SAFETY: asked of the program.
            _ => unsafe { slice::from_raw_parts_mut($at, $count) },
        }
    };
    ($at:expr, $count:ident) => {
        match $count {
            0 => &[],
            // SAFETY: asked of the program.
            _ => unsafe { slice::from_raw_parts($at.cast::<u8>(), $count) },
        }
    };
}

/// A call of the pool of a slot, whatever that has.
macro_rules! by {
    ($slot:ident => $call:expr) => {
        match &**$slot.get()? {
            Store::Objects(objects) => {
                let $slot = &objects.0;
                $call
            }
            Store::Lanes(_, opened) => {
                let $slot = &opened.pool;
                $call
            }
            Store::Buffers($slot) => $call,
        }
    };
}

macro_rules! calls {
    ($($name:ident($($parameter:ident: $of:ty),*) $call:block)*) => {$(
        #[no_mangle]
        pub(crate) unsafe extern "C" fn $name($($parameter: $of),*) -> u32 {
            code(|| $call)
        }
    )*};
}

calls! {
    // By a lane.
    pardz_open_numbered(shape: &Shape, lanes: *mut LaneSlot, count: usize, number: u64) { lane::open_into(shape, number, row!(mut lanes, count)) }
    pardz_create(lane: &mut LaneSlot, key: Out<u64>) { tell(key, lane.get_mut()?.create()?) }
    pardz_append(lane: &mut LaneSlot, key: u64, bytes: *const c_void, len: usize) {
        Ok(lane.get_mut()?.filling(key)?.append(row!(bytes, len))?)
    }
    pardz_room(lane: &mut LaneSlot, key: u64, count: usize, at: Out<*mut u8>) { lend_room(at, lane.get_mut()?.filling(key)?.room(count)?) }
    pardz_wrote(lane: &mut LaneSlot, key: u64, count: usize) { wrote(lane.get_mut()?.filling(key)?, count) }
    pardz_publish(lane: &mut LaneSlot, key: u64) { lane.get_mut()?.take(key).map(|filling| _ = filling.publish()) }
    pardz_downgrade(lane: &mut LaneSlot, key: u64) { lane.get_mut()?.downgrade(key) }
    pardz_put(lane: &mut LaneSlot, bytes: *const c_void, len: usize, key: Out<u64>) { tell(key, lane.get_mut()?.put(row!(bytes, len))?) }
    pardz_leave(lane: &mut LaneSlot, key: u64) { lane.get_mut()?.take(key).map(mem::forget) }
    pardz_get(lane: &mut LaneSlot, key: u64, at: Out<*const u8>, len: Out<usize>) { tell(len, lend(at, lane.get_mut()?.get(key)?)) }
    pardz_read(lane: &mut LaneSlot, key: u64, at: Out<*const u8>, len: Out<usize>) { tell(len, lend(at, lane.get_mut()?.read(key)?)) }
    pardz_release(lane: &mut LaneSlot, key: u64) { lane.get_mut()?.release(key) }
    pardz_clear(lane: &mut LaneSlot, key: u64) { lane.get_mut()?.clear(key) }
    pardz_numbers(lane: &mut LaneSlot, numbers: *mut u32, count: usize) {
        let stats = lane.get()?.stats(count);
        // SAFETY: they are so many numbers, and the program has room for as many as it says.
        unsafe { ptr::from_ref(&stats).cast::<u32>().copy_to_nonoverlapping(numbers, count.min(NUMBERS)) };
        Ok(())
    }
    pardz_join(into: &mut LaneSlot, lane: &mut LaneSlot) { lane::join(into, lane) }
    pardz_close(lane: &mut LaneSlot, census: Out<Census>) { tell(census, lane::close(lane)?) }

    // By a lane of a pool, for the one call.
    pardz_attach(shape: &Shape, pool: &mut PoolSlot) { pool.fill(1, || Store::attach(shape)) }
    pardz_share(pool: &PoolSlot, other: &mut PoolSlot) { pool.share(other) }
    pardz_unshare(pool: &mut PoolSlot) { pool.take().map(drop) }
    pardz_pool_put(pool: &PoolSlot, from: u32, bytes: *const c_void, len: usize, key: Out<u64>) {
        tell(key, pool.get()?.by_any(from, |lane| lane.put(row!(bytes, len)))?)
    }
    pardz_pool_get(pool: &PoolSlot, from: u32, key: u64, to: Out<PoolLent>) {
        let (bytes, lane) = pool.get()?.by_any(from, |lane| Ok((lane.get(key)?, lane.number)))?;
        PoolLent::write(to, key, bytes, lane)
    }
    pardz_pool_release(pool: &PoolSlot, lent: &PoolLent) { pool.get()?.release(lent.lane, lent.held.key) }
    pardz_pool_clear(pool: &PoolSlot, from: u32, key: u64) { pool.get()?.by_any(from, |lane| lane.clear(key)) }
    pardz_pool_census(pool: &PoolSlot, census: Out<Census>) { by!(pool => tell(census, pool.census())) }
    pardz_detach(pool: &mut PoolSlot, census: Out<Census>) { tell(census, store::detach(pool)?) }

    // By any thread.
    pardz_grow(limits: &PoolLimits, pool: &mut PoolSlot) { pool.fill(1, || Store::grow(limits)) }
    pardz_open_sized(limits: &PoolLimits, kind: &Kind, pool: &mut PoolSlot) { pool.fill(1, || Store::grow_of(limits, kind)) }
    pardz_any_put(pool: &PoolSlot, bytes: *const c_void, len: usize, key: Out<u64>) { tell(key, pool.get()?.put(row!(bytes, len))?) }
    pardz_any_create(pool: &PoolSlot, filling: Out<PoolFilling>) { tell(filling, pool.get()?.create()?) }
    pardz_any_append(pool: &PoolSlot, filling: &PoolFilling, bytes: *const c_void, len: usize) {
        by!(pool => Ok(filling.held(pool)?.growing()?.append(row!(bytes, len))?))
    }
    pardz_any_room(pool: &PoolSlot, filling: &PoolFilling, count: usize, at: Out<*mut u8>) {
        by!(pool => lend_room(at, filling.held(pool)?.growing()?.room(count)?))
    }
    pardz_any_wrote(pool: &PoolSlot, filling: &PoolFilling, count: usize) {
        by!(pool => wrote(filling.held(pool)?.growing()?, count))
    }
    pardz_any_publish(pool: &PoolSlot, filling: &mut PoolFilling, key: Out<u64>) {
        by!(pool => tell(key, filling.take(pool)?.publish().into()))
    }
    pardz_any_downgrade(pool: &PoolSlot, filling: &mut PoolFilling, to: Out<PoolRef>) {
        by!(pool => PoolRef::hand(filling.take(pool)?.downgrade(), to))
    }
    pardz_any_drop(pool: &PoolSlot, filling: &mut PoolFilling) { by!(pool => filling.take(pool).map(drop)) }
    pardz_any_get(pool: &PoolSlot, key: u64, to: Out<PoolRef>) { by!(pool => PoolRef::hand(get(pool, key)?, to)) }
    pardz_any_clone(pool: &PoolSlot, reference: &PoolRef, to: Out<PoolRef>) { by!(pool => PoolRef::hand(reference.held(pool)?.try_clone()?, to)) }
    pardz_any_release(pool: &PoolSlot, reference: &mut PoolRef) { by!(pool => reference.take(pool).map(drop)) }
    pardz_any_own(pool: &PoolSlot, reference: &PoolRef, owned: &mut OwnedSlot) {
        by!(pool => owned.fill(reference.key, || Share::new(reference.held(pool)?.try_clone()?.into_owned().into())))
    }
    pardz_any_clear(pool: &PoolSlot, key: u64) { by!(pool => must(pool.clear(key.try_into()?), Refusal::Gone)) }

    // References that a program owns.
    pardz_own(pool: &PoolSlot, _from: u32, key: u64, owned: &mut OwnedSlot) {
        by!(pool => owned.fill(key, || Share::new(get(pool, key)?.into_owned().into())))
    }
    pardz_own_again(owned: &OwnedSlot, other: &mut OwnedSlot) { owned.share(other) }
    pardz_owned_bytes(owned: &OwnedSlot, at: Out<*const u8>, len: Out<usize>) { tell(len, lend(at, &owned.get()?[..])) }
    pardz_disown(owned: &mut OwnedSlot) { owned.take().map(drop) }
}

/// The library's version, as a text of C.
#[no_mangle]
pub(crate) extern "C" fn pardz_version() -> *const c_char {
    concat!(env!("CARGO_PKG_VERSION"), "\0").as_ptr().cast()
}
