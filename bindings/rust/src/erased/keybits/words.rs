// Made from crates/keybits/src/words.rt by tools/erase/erase.py: change that file, not this one.

//! Lifecycle words, and what each step makes of one.

use crate::erased::keybits::place::generation_of;

/// What a publish adds to an idle lifecycle word, which is then present.
pub const PUBLISHED_BIT: u64 = 1;

/// The bit that a mark sets in a present lifecycle word, which is then marked.
pub const MARK_BIT: u64 = 2;

/// What a reference adds to a lifecycle word, whose count has the bits 2 to 31.
pub const ONE_COUNT: u64 = 1 << 2;

/// What a generation adds to a lifecycle word, which has it in the bits 32 to 63.
pub const ONE_GENERATION: u64 = 1 << 32;

/// Whether a place's object can be got.
#[derive(Clone, Copy, Debug, PartialEq, Eq)]
pub enum State {
    /// Its place has no published object.
    Idle,
    /// It is published and can be got.
    Present,
    /// Its place has used up its generations, and no object is published there any more.
    Retired,
    /// It is published and can be got no more; the last who refers to it clears it.
    Marked,
}

impl State {
    /// The two lowest bits of a word in this state.
    #[inline]
    fn bits(self) -> u64 {
        self as u64
    }

    /// The state that these two bits stand for.
    #[inline]
    fn of_bits(bits: u64) -> State {
        match bits {
            0 => State::Idle,
            1 => State::Present,
            2 => State::Retired,
            _ => State::Marked,
        }
    }
}

/// What the lifecycle word of a place says.
#[derive(Clone, Copy, Debug, PartialEq, Eq)]
pub struct Life {
    /// The generation of the published object, or of the one that is published next.
    pub generation: u32,
    /// How many references to the place there are, of all lanes, and calls under way that will leave
    /// it again. A word has room for 0 to 1073741823.
    pub count: u32,
    /// Whether the place's object can be got.
    pub state: State,
}

impl Life {
    /// The word that says this of a place, for a count of at most 1073741823: the state has the bits
    /// 0 and 1, the count 2 to 31 and the generation 32 to 63.
    #[inline]
    pub fn word(&self) -> u64 {
        self.state.bits() + (u64::from(self.count) << 2) + (u64::from(self.generation) << 32)
    }

    /// What a word says of a place. It is the inverse of `word`.
    #[inline]
    pub fn of_word(word: u64) -> Life {
        Life {
            generation: (word >> 32) as u32,
            count: (word >> 2 & 0x3fff_ffff) as u32,
            state: State::of_bits(word & 0b11),
        }
    }
}

/// Whether the step of a get or a clear that counts itself, and finds this word, hits the key: the
/// key's generation, and PRESENT.
#[inline]
pub fn is_hit(key: u64, word: u64) -> bool {
    // One comparison, once compiled: the key's word with any count is no more than that much greater.
    let present = claimable(generation_of(key)) - MARK_BIT;
    let counted = word.wrapping_sub(present);
    counted < ONE_GENERATION && counted % ONE_COUNT == 0
}

/// Whether a place with this lifecycle word is PRESENT: its object can be got.
#[inline]
pub fn is_present(word: u64) -> bool {
    Life::of_word(word).state == State::Present
}

/// Whether the one who takes one from the count, and finds this word, owes a claim: MARKED with
/// count 1.
#[inline]
pub fn owes_claim(word: u64) -> bool {
    let life = Life::of_word(word);
    life.state == State::Marked && life.count == 1
}

/// The one lifecycle word from which a claim of this generation succeeds: MARKED, with count 0.
#[inline]
pub fn claimable(generation: u32) -> u64 {
    let life = Life {
        generation,
        count: 0,
        state: State::Marked,
    };
    life.word()
}

/// The lifecycle word after a marked place with count 0 was claimed: idle at the next generation, or
/// retired where its generation isn't below the last.
#[inline]
pub fn claimed(word: u64, last_generation: u32) -> u64 {
    if word >> 32 < u64::from(last_generation) {
        word + (ONE_GENERATION - 3)
    } else {
        word - 1
    }
}
