//! What a program has of a buffer or an object, before and after it is published.
use crate::code::{must, Answer, Refusal};
use crate::content::Owned;
use crate::share::Share;
use crate::slot::Slot;
use pardz::{Buffer, Clear, Filling, Key, Pool, Ref};
use std::mem::{ManuallyDrop, MaybeUninit};
use std::ops::{Deref, DerefMut};
use std::ptr::addr_of;

/// Where a call writes if it goes well.
pub(crate) type Out<'o, V> = &'o mut MaybeUninit<V>;

/// One that isn't published yet.
#[repr(C)]
pub(crate) struct PoolFilling {
    /// Where an object of a fixed size stands.
    pub(crate) at: *mut u8,
    /// 0 where it has ended.
    pub(crate) key: u64,
}

/// A reference that any thread releases, and where the bytes are.
#[repr(C)]
pub(crate) struct PoolRef {
    /// What was there before, where there are no bytes.
    pub(crate) at: MaybeUninit<*const u8>,
    pub(crate) len: usize,
    /// 0 once it is released.
    pub(crate) key: u64,
}

/// One that a lane of a pool keeps.
#[repr(C)]
pub(crate) struct PoolLent {
    pub(crate) held: PoolRef,
    pub(crate) lane: u32,
}

/// The slot of one that keeps the pool's memory.
pub(crate) type OwnedSlot = Slot<Share<Owned>>;

/// What a program has by its key alone: the library forgot it.
macro_rules! by_key {
    ($kept:ident: $of:ident by $from_key:ident, or $none:ident) => {
        impl $kept {
            /// What it has.
            #[inline]
            pub(crate) fn held<'p, T: Clear>(
                &self,
                pool: &'p Pool<T>,
            ) -> Answer<ManuallyDrop<$of<'p, T>>> {
                let key = Key::try_from(self.key).or(Err(Refusal::$none))?;
                // SAFETY: `hand` forgot it, and it wasn't taken back, since there is a key.
                Ok(ManuallyDrop::new(unsafe { pool.$from_key(key) }))
            }

            /// Takes it back.
            #[inline]
            pub(crate) fn take<'p, T: Clear>(&mut self, pool: &'p Pool<T>) -> Answer<$of<'p, T>> {
                let held = self.held(pool)?;
                self.key = 0;
                Ok(ManuallyDrop::into_inner(held))
            }
        }
    };
}

by_key!(PoolFilling: Filling by filling_from_key, or NoFilling);
by_key!(PoolRef: Ref by ref_from_key, or NoReference);

impl PoolFilling {
    /// Hands a filling to a program, where it is forgotten.
    #[inline]
    pub(crate) fn hand<T: Clear + DerefMut<Target = [u8]>>(filling: Filling<T>) -> PoolFilling {
        let mut filling = ManuallyDrop::new(filling);
        PoolFilling {
            at: filling.as_mut_ptr(),
            key: filling.key().into(),
        }
    }
}

impl PoolRef {
    /// One to these bytes. Where there are none, the address stays that of what was there.
    ///
    /// # Safety
    ///
    /// There is memory of one.
    #[inline]
    unsafe fn over(old: *const PoolRef, key: u64, bytes: *const [u8]) -> PoolRef {
        // SAFETY: the caller's; it may be anything.
        let mut at = unsafe { addr_of!((*old).at).read() };
        let len = lend(&mut at, bytes);
        PoolRef { at, len, key }
    }

    /// Hands a reference to a program, where it is forgotten.
    #[inline]
    pub(crate) fn hand<T: Clear + Deref<Target = [u8]>>(
        reference: Ref<'_, T>,
        to: Out<PoolRef>,
    ) -> Answer {
        let key = reference.key().into();
        // SAFETY: there is memory for it.
        to.write(unsafe { PoolRef::over(to.as_ptr(), key, &**reference.leak()) });
        Ok(())
    }
}

impl PoolLent {
    pub(crate) fn write(to: Out<PoolLent>, key: u64, bytes: *const [u8], lane: u32) -> Answer {
        // SAFETY: there is memory for it, which begins with that of a `PoolRef`.
        let held = unsafe { PoolRef::over(to.as_ptr().cast(), key, bytes) };
        to.write(PoolLent { held, lane });
        Ok(())
    }
}

/// A reference to a key.
#[inline]
pub(crate) fn get<T: Clear>(pool: &Pool<T>, key: u64) -> Answer<Ref<'_, T>> {
    pool.try_get(key.try_into()?)?.ok_or(Refusal::Gone)
}

/// Tells where bytes are, and answers how many. No address is written where there are none.
#[inline]
pub(crate) fn lend(at: Out<*const u8>, bytes: *const [u8]) -> usize {
    if bytes.len() != 0 {
        at.write(bytes.cast());
    }
    bytes.len()
}

/// Tells where room is, if there is some.
pub(crate) fn lend_room(at: Out<*mut u8>, room: &mut [u8]) -> Answer {
    if !room.is_empty() {
        at.write(room.as_mut_ptr());
    }
    Ok(())
}

/// The first so many bytes of its room are its own, and the others aren't.
pub(crate) fn wrote(buffer: &mut Buffer, count: usize) -> Answer {
    must(count <= buffer.lent(), Refusal::Room)?;
    buffer.wrote(count);
    Ok(())
}
