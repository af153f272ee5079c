//! Keys.
use crate::erased::keybits;
use crate::errors::KeyError;
use std::fmt;
use std::num::NonZeroU64;
use std::str::FromStr;

/// The name of a published object: a plain number, which may be sent to any thread and kept for as long as one likes. Once it is
/// cleared it is never found again.
///
/// It is told and read back as a number, and isn't 0: so an `Option<Key>` has 8 bytes. A number that is no key of a pool finds
/// nothing there.
///
/// From the lowest bit on it has the slot (12 bits), the page (4), the shard (8), the generation (32) and the tag (8): so the lowest 24
/// name the place, by which a table of the program's own may be kept.
///
/// ```
/// use pardz::Key;
///
/// let key = Key::try_from(16_777_216)?;
/// assert_eq!(u64::from(key), 16_777_216);
/// assert_eq!(key.to_string(), "16777216");
/// assert_eq!("16777216".parse(), Ok(key));
/// assert!(Key::try_from(0).is_err());
/// assert_eq!(std::mem::size_of::<Option<Key>>(), 8);
/// # Ok::<(), pardz::KeyError>(())
/// ```
#[derive(Clone, Copy, Debug, PartialEq, Eq, Hash, PartialOrd, Ord)]
#[must_use = "an object is found and cleared by its key"]
#[repr(transparent)]
pub struct Key(NonZeroU64);

/// Where a key has its generation.
const GENERATION: u32 = 24;

impl Key {
    /// The key of generation 1 of a place.
    pub(crate) fn first(tag: u8, shard: u8, page: usize, slot: usize) -> u64 {
        let place = keybits::Place {
            shard,
            page: page as u8,
            slot: slot as u16,
        };
        match keybits::Key::pack_tagged(tag, place, 1) {
            Some(key) => key.number(),
            None => unreachable!("a key can name each place of a pool"),
        }
    }

    /// The key of a place at a generation from 1 on; the first one is that of generation 1.
    #[inline(always)]
    pub(crate) fn at(first: u64, generation: u64) -> Key {
        debug_assert!(first >> GENERATION != 0 && (1..=u64::from(u32::MAX)).contains(&generation));
        let number = first + ((generation - 1) << GENERATION);
        match NonZeroU64::new(number) {
            Some(number) => Key(number),
            None => unreachable!("a key has a generation"),
        }
    }

    #[inline(always)]
    pub(crate) fn number(self) -> u64 {
        self.0.get()
    }
}

impl From<NonZeroU64> for Key {
    #[inline]
    fn from(number: NonZeroU64) -> Key {
        Key(number)
    }
}

impl From<Key> for NonZeroU64 {
    #[inline]
    fn from(key: Key) -> NonZeroU64 {
        key.0
    }
}

impl From<Key> for u64 {
    #[inline]
    fn from(key: Key) -> u64 {
        key.0.get()
    }
}

impl TryFrom<u64> for Key {
    type Error = KeyError;

    #[inline]
    fn try_from(number: u64) -> Result<Key, KeyError> {
        NonZeroU64::new(number).map(Key).ok_or(KeyError)
    }
}

impl FromStr for Key {
    type Err = KeyError;

    fn from_str(text: &str) -> Result<Key, KeyError> {
        text.parse().map(Key).map_err(|_| KeyError)
    }
}

impl fmt::Display for Key {
    fn fmt(&self, f: &mut fmt::Formatter<'_>) -> fmt::Result {
        self.0.fmt(f)
    }
}

#[cfg(test)]
mod tests {
    use super::*;

    #[test]
    fn texts() {
        for text in ["", "0", "-1", "x", "18446744073709551616", "1 "] {
            assert_eq!(text.parse::<Key>(), Err(KeyError), "{text:?}");
        }
        let largest = Key::try_from(u64::MAX).unwrap();
        assert_eq!("18446744073709551615".parse(), Ok(largest));
        assert_eq!(format!("{largest:>22}"), "  18446744073709551615");
    }
}
