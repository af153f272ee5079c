//! Objects whose program is told when they are emptied, of a fixed size or not; and owned references to them, or to plain buffers.
use crate::code::{Answer, Refusal};
use crate::share::Share;
use pardz::{Buffer, Clear, OwnedRef};
use std::ffi::c_void;
use std::mem;
use std::ops::{Deref, DerefMut};

/// A function of the program's: it is given the kind's context, and an object with its size.
type Hook = unsafe extern "C" fn(*mut c_void, *mut c_void, usize);

/// What the objects of a pool are.
#[derive(Clone, Copy)]
#[repr(C)]
pub(crate) struct Kind {
    /// 0 where they are buffers of any length.
    pub(crate) size: usize,
    /// Whether each begins with zeros, and not with what the last one left in its place.
    pub(crate) zeroed: u32,
    pub(crate) empty: Option<Hook>,
    pub(crate) end: Option<Hook>,
    pub(crate) context: *mut c_void,
}

// SAFETY: the header says that any thread calls the hooks, and several at once.
unsafe impl Send for Kind {}
// SAFETY: as above.
unsafe impl Sync for Kind {}

/// An object, which stands in a buffer; or a place that never had one.
pub(crate) struct Object {
    bytes: Buffer,
    /// Whether it was begun, and not emptied since.
    is_begun: bool,
    kind: Share<Kind>,
}

impl Object {
    pub(crate) fn new(kind: &Share<Kind>) -> Object {
        Object {
            bytes: Buffer::new(),
            is_begun: false,
            kind: kind.clone(),
        }
    }

    pub(crate) fn begin(&mut self) -> Answer {
        if self.len() < self.kind.size {
            self.bytes.room(self.kind.size)?;
            self.bytes.wrote(self.kind.size);
        } else if self.kind.zeroed != 0 {
            self.fill(0);
        }
        self.is_begun = true;
        Ok(())
    }

    /// Is these bytes, which are as many as its size, if it has one.
    pub(crate) fn set(&mut self, bytes: &[u8]) -> Answer {
        match self.kind.size {
            0 => self.bytes.append(bytes)?,
            _ => self.copy_from_slice(bytes),
        }
        Ok(())
    }

    /// Tells the program of its bytes, if there are some.
    fn tell(&mut self, hook: Option<Hook>) {
        if let (Some(hook), false) = (hook, self.is_empty()) {
            // SAFETY: the header says what is asked of a hook, and the object is this call's alone.
            unsafe { hook(self.kind.context, self.as_mut_ptr().cast(), self.len()) };
        }
    }
}

impl Clear for Object {
    fn clear(&mut self) {
        if mem::take(&mut self.is_begun) {
            self.tell(self.kind.empty);
        }
        if self.kind.size == 0 {
            self.bytes.truncate(0);
        }
    }
}

impl Drop for Object {
    fn drop(&mut self) {
        self.clear();
        self.tell(self.kind.end);
    }
}

impl Deref for Object {
    type Target = [u8];

    fn deref(&self) -> &[u8] {
        &self.bytes
    }
}

impl DerefMut for Object {
    fn deref_mut(&mut self) -> &mut [u8] {
        &mut self.bytes
    }
}

/// What is appended to, unless it has a fixed size.
pub(crate) trait Grows {
    fn growing(&mut self) -> Answer<&mut Buffer>;
}

impl Grows for Buffer {
    #[inline(always)]
    fn growing(&mut self) -> Answer<&mut Buffer> {
        Ok(self)
    }
}

impl Grows for Object {
    fn growing(&mut self) -> Answer<&mut Buffer> {
        match self.kind.size {
            0 => Ok(&mut self.bytes),
            _ => Err(Refusal::Room),
        }
    }
}

/// A reference that keeps the pool's memory.
pub(crate) enum Owned {
    Buffer(OwnedRef<Buffer>),
    Object(OwnedRef<Object>),
}

impl Deref for Owned {
    type Target = [u8];

    fn deref(&self) -> &[u8] {
        match self {
            Owned::Buffer(reference) => reference,
            Owned::Object(reference) => reference,
        }
    }
}

impl From<OwnedRef<Buffer>> for Owned {
    fn from(reference: OwnedRef<Buffer>) -> Owned {
        Owned::Buffer(reference)
    }
}

impl From<OwnedRef<Object>> for Owned {
    fn from(reference: OwnedRef<Object>) -> Owned {
        Owned::Object(reference)
    }
}
