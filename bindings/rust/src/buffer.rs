//! Buffers of bytes.
use crate::bytes::Bytes;
use crate::clear::{Clear, Plain};
use crate::errors::MemoryRefused;
use std::alloc::{handle_alloc_error, Layout};
use std::borrow::{Borrow, BorrowMut};
use std::fmt;
use std::io::{self, Read, Write};
use std::mem;
use std::ops::{Deref, DerefMut};

/// A buffer of bytes, which is appended to by [`append`](Buffer::append), as an [`io::Write`] or as a [`fmt::Write`], or written to
/// in place by [`room`](Buffer::room); it is read as a slice. It answers a refusal of memory, where a `Vec<u8>` ends the process
/// (but for [`Extend`], which does so too).
///
/// ```
/// use pardz::{Buffer, Pool};
/// use std::io::Write;
///
/// let pool = Pool::<Buffer>::new();
/// let mut filling = pool.create()?;
/// write!(filling, "{}-{}", 1, 2)?;
/// filling.append(b"-3")?;
/// assert_eq!(filling[..], *b"1-2-3");
/// let key = filling.publish();
/// assert_eq!(pool.get(key).expect("published")[..], *b"1-2-3");
/// # Ok::<(), Box<dyn std::error::Error>>(())
/// ```
#[derive(Default)]
pub struct Buffer {
    /// Its bytes, and behind them those for which there is room; and last, of room that was lent, how much that is.
    bytes: Bytes,
    /// How many bytes it has; and by `LENT` that room behind them is lent.
    len: usize,
}

/// In `len`. (No buffer has so many bytes.)
const LENT: usize = 1 << (usize::BITS - 1);

/// How many bytes say how much room was lent.
const TOLD: usize = mem::size_of::<usize>();

impl Buffer {
    /// An empty buffer without memory.
    pub const fn new() -> Buffer {
        Buffer {
            bytes: Bytes::new(),
            len: 0,
        }
    }

    /// How many bytes it has.
    #[inline]
    pub fn len(&self) -> usize {
        self.len & !LENT
    }

    /// Whether it has none.
    #[inline]
    pub fn is_empty(&self) -> bool {
        self.len() == 0
    }

    /// How many bytes it can have without taking memory.
    #[inline]
    pub fn capacity(&self) -> usize {
        self.bytes.len().saturating_sub(TOLD)
    }

    /// Where it is told how much room was lent, if there is memory.
    fn told(&mut self) -> Option<&mut [u8; TOLD]> {
        self.bytes.last_chunk_mut()
    }

    /// Ends what was lent, and answers how much that was.
    fn end_room(&mut self) -> usize {
        let lent = self.lent();
        self.len &= !LENT;
        lent
    }

    /// Takes memory for so many bytes more, where it has less. What [`room`](Buffer::room) lent ends.
    ///
    /// # Errors
    ///
    /// [`MemoryRefused`]: the bytes are then as before.
    ///
    /// ```
    /// let mut bytes = pardz::Buffer::new();
    /// bytes.reserve(100)?;
    /// assert!(bytes.is_empty() && bytes.capacity() >= 100);
    /// # Ok::<(), pardz::MemoryRefused>(())
    /// ```
    #[inline]
    pub fn reserve(&mut self, count: usize) -> Result<(), MemoryRefused> {
        self.len &= !LENT;
        if self.bytes.len() - self.len < count.saturating_add(TOLD) {
            return self.grow(count);
        }
        Ok(())
    }

    /// Makes room for so many bytes more. Apart, for it is rare.
    #[cold]
    #[inline(never)]
    fn grow(&mut self, count: usize) -> Result<(), MemoryRefused> {
        // (Without memory there isn't even the room that is told of.)
        if count == 0 {
            return Ok(());
        }
        let all = self.len.checked_add(count);
        let all = all.and_then(|all| all.checked_add(TOLD));
        self.bytes.grow(all.ok_or(MemoryRefused)?)
    }

    /// Appends bytes.
    ///
    /// # Errors
    ///
    /// [`MemoryRefused`]: the bytes are then as before.
    #[inline]
    pub fn append(&mut self, bytes: &[u8]) -> Result<(), MemoryRefused> {
        let begin = self.len();
        self.reserve(bytes.len())?;
        let end = begin + bytes.len();
        self.bytes[begin..end].copy_from_slice(bytes);
        self.len = end;
        Ok(())
    }

    /// Has these bytes alone. Where memory is refused, it is empty.
    #[inline]
    pub(crate) fn set(&mut self, bytes: &[u8]) -> Result<(), MemoryRefused> {
        self.len = 0;
        if self.bytes.len() < bytes.len().saturating_add(TOLD) {
            return self.set_apart(bytes);
        }
        self.copy(bytes)
    }

    /// The same where there is less memory. Apart, for it is rare.
    #[cold]
    #[inline(never)]
    fn set_apart(&mut self, bytes: &[u8]) -> Result<(), MemoryRefused> {
        self.grow(bytes.len())?;
        self.copy(bytes)
    }

    /// The same where there is memory.
    #[inline(always)]
    fn copy(&mut self, bytes: &[u8]) -> Result<(), MemoryRefused> {
        self.bytes[..bytes.len()].copy_from_slice(bytes);
        self.len = bytes.len();
        Ok(())
    }

    /// So many bytes behind those of the buffer, to be written in place. They are zeros at first, and belong to the buffer only
    /// as far as [`wrote`](Buffer::wrote) says so.
    ///
    /// # Errors
    ///
    /// [`MemoryRefused`]: the bytes are then as before, and an earlier room has ended.
    ///
    /// ```
    /// # let pool = pardz::Pool::<pardz::Buffer>::new();
    /// let mut filling = pool.create()?;
    /// let room = filling.room(1500)?;
    /// room[..5].copy_from_slice(b"hello"); // as a read from a socket does
    /// filling.wrote(5);
    /// assert_eq!(filling[..], *b"hello");
    /// # Ok::<(), Box<dyn std::error::Error>>(())
    /// ```
    pub fn room(&mut self, count: usize) -> Result<&mut [u8], MemoryRefused> {
        self.reserve(count)?;
        let begin = self.len;
        if let Some(told) = self.told() {
            *told = count.to_ne_bytes();
            self.len |= LENT;
        }
        let room = &mut self.bytes[begin..begin + count];
        room.fill(0);
        Ok(room)
    }

    /// The first `count` bytes of the last [`room`](Buffer::room) belong to the buffer, and the others don't.
    ///
    /// # Panics
    ///
    /// Where that room was smaller.
    pub fn wrote(&mut self, count: usize) {
        let lent = self.end_room();
        assert!(count <= lent, "{count} bytes of a room of {lent}");
        self.len += count;
    }

    /// How many bytes the last [`room`](Buffer::room) lent; 0 where it has ended, by a [`wrote`](Buffer::wrote) or by bytes that were appended.
    ///
    /// ```
    /// let mut bytes = pardz::Buffer::new();
    /// bytes.room(100)?[0] = b'a';
    /// assert_eq!(bytes.lent(), 100);
    /// bytes.wrote(1);
    /// assert_eq!(bytes.lent(), 0);
    /// # Ok::<(), pardz::MemoryRefused>(())
    /// ```
    #[inline]
    pub fn lent(&self) -> usize {
        let told = self.bytes.last_chunk().filter(|_| self.len & LENT != 0);
        told.map_or(0, |told| usize::from_ne_bytes(*told))
    }

    /// Appends what one read gives, at most so many bytes, with no copy between. Answers how many it gave.
    ///
    /// # Errors
    ///
    /// Those of the reader; [`io::ErrorKind::OutOfMemory`] where memory was refused. The bytes are then as before.
    ///
    /// ```
    /// # let pool = pardz::Pool::<pardz::Buffer>::new();
    /// let mut filling = pool.create()?;
    /// assert_eq!(filling.read_from(&mut &b"from a file"[..], 4096)?, 11);
    /// assert_eq!(filling[..], *b"from a file");
    /// # Ok::<(), Box<dyn std::error::Error>>(())
    /// ```
    pub fn read_from(&mut self, reader: &mut impl Read, most: usize) -> io::Result<usize> {
        let count = reader.read(self.room(most)?)?;
        self.wrote(count);
        Ok(count)
    }

    /// Keeps the first `count` bytes, and drops the others. The memory stays.
    pub fn truncate(&mut self, count: usize) {
        self.len = self.len().min(count);
    }
}

/// Keeps its memory.
impl Clear for Buffer {
    #[inline]
    fn clear(&mut self) {
        self.len = 0;
    }

    #[inline(always)]
    fn plain() -> Plain {
        Plain(true)
    }
}

impl Deref for Buffer {
    type Target = [u8];

    #[inline]
    fn deref(&self) -> &[u8] {
        &self.bytes[..self.len()]
    }
}

/// Its bytes are written in place: a `Buffer` is a `&mut [u8]`, as long as it is.
///
/// ```
/// let mut bytes = pardz::Buffer::new();
/// bytes.append(b"abc")?;
/// bytes[1] = b'x';
/// bytes.reverse();
/// assert_eq!(bytes[..], *b"cxa");
/// # Ok::<(), pardz::MemoryRefused>(())
/// ```
impl DerefMut for Buffer {
    #[inline]
    fn deref_mut(&mut self) -> &mut [u8] {
        let len = self.len();
        &mut self.bytes[..len]
    }
}

impl AsMut<[u8]> for Buffer {
    #[inline]
    fn as_mut(&mut self) -> &mut [u8] {
        self
    }
}

impl BorrowMut<[u8]> for Buffer {
    #[inline]
    fn borrow_mut(&mut self) -> &mut [u8] {
        self
    }
}

impl AsRef<[u8]> for Buffer {
    #[inline]
    fn as_ref(&self) -> &[u8] {
        self
    }
}

impl Borrow<[u8]> for Buffer {
    #[inline]
    fn borrow(&self) -> &[u8] {
        self
    }
}

impl Write for Buffer {
    #[inline]
    fn write(&mut self, bytes: &[u8]) -> io::Result<usize> {
        self.append(bytes)?;
        Ok(bytes.len())
    }

    #[inline]
    fn write_all(&mut self, bytes: &[u8]) -> io::Result<()> {
        Ok(self.append(bytes)?)
    }

    fn flush(&mut self) -> io::Result<()> {
        Ok(())
    }
}

impl fmt::Write for Buffer {
    fn write_str(&mut self, text: &str) -> fmt::Result {
        Ok(self.append(text.as_bytes())?)
    }
}

impl Extend<u8> for Buffer {
    fn extend<I: IntoIterator<Item = u8>>(&mut self, bytes: I) {
        let mut bytes = bytes.into_iter();
        let has_capacity = self.reserve(bytes.size_hint().0).is_ok();
        if !has_capacity || !bytes.all(|byte| self.append(&[byte]).is_ok()) {
            handle_alloc_error(Layout::new::<u8>());
        }
    }
}

impl<'b> Extend<&'b u8> for Buffer {
    fn extend<I: IntoIterator<Item = &'b u8>>(&mut self, bytes: I) {
        self.extend(bytes.into_iter().copied());
    }
}

impl PartialEq for Buffer {
    fn eq(&self, other: &Buffer) -> bool {
        self[..] == other[..]
    }
}

impl Eq for Buffer {}

impl PartialEq<[u8]> for Buffer {
    fn eq(&self, other: &[u8]) -> bool {
        self[..] == *other
    }
}

impl<const N: usize> PartialEq<[u8; N]> for Buffer {
    fn eq(&self, other: &[u8; N]) -> bool {
        self[..] == *other
    }
}

/// As its bytes: so that a map keyed by buffers is asked with a slice.
impl std::hash::Hash for Buffer {
    fn hash<H: std::hash::Hasher>(&self, state: &mut H) {
        self[..].hash(state);
    }
}

impl fmt::Debug for Buffer {
    fn fmt(&self, f: &mut fmt::Formatter<'_>) -> fmt::Result {
        write!(f, "\"{}\"", self.escape_ascii())
    }
}
