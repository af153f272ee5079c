//! A row of bytes that grows, and each byte of which is written: zeros at first.
use crate::errors::MemoryRefused;
use std::ops::{Deref, DerefMut};

/// (All of its memory is written, so that it needs no more than a box: then a buffer has three words, and two places one line of the cache.)
#[derive(Default)]
pub(crate) struct Bytes(Option<Box<[u8]>>);

impl Bytes {
    /// None, without memory.
    pub(crate) const fn new() -> Bytes {
        Bytes(None)
    }

    /// So many at least, and twice as many as before. Those that were there stay.
    pub(crate) fn grow(&mut self, least: usize) -> Result<(), MemoryRefused> {
        let mut bytes = self.0.take().map_or_else(Vec::new, Vec::from);
        let before = bytes.len();
        let count = least.max(2 * before);
        let reserved = bytes.try_reserve_exact(count - before);
        if reserved.is_ok() {
            bytes.resize(count, 0);
        }
        self.0 = Some(bytes.into_boxed_slice());
        reserved.map_err(|_| MemoryRefused)
    }
}

impl Deref for Bytes {
    type Target = [u8];

    #[inline(always)]
    fn deref(&self) -> &[u8] {
        self.0.as_deref().unwrap_or_default()
    }
}

impl DerefMut for Bytes {
    #[inline(always)]
    fn deref_mut(&mut self) -> &mut [u8] {
        self.0.as_deref_mut().unwrap_or_default()
    }
}

#[cfg(test)]
mod tests {
    use super::*;

    /// Memory that was used before, which an allocator gives again.
    #[test]
    fn each_byte_is_zero_at_first() {
        for count in [1, 72, 1000, 100_000] {
            drop(vec![7_u8; count]);
            let mut bytes = Bytes::new();
            bytes.grow(count).expect("memory");
            assert_eq!(*bytes, vec![0; count]);
            bytes.fill(7);
            drop(vec![7_u8; 2 * count]);
            bytes.grow(count + 1).expect("memory");
            assert_eq!(bytes[..count], vec![7; count]);
            assert_eq!(bytes[count..], vec![0; count]);
        }
    }
}
