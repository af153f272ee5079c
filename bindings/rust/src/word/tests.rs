use super::*;
use crate::erased::seatcalls::{Ended, Guest, GuestRef};
use crate::limits::Limits;

const LAST: u32 = 2;
/// Of slot 5 at generation 1, and of generation 2.
const KEY: u64 = 0x100_0005;
const NEXT: u64 = 0x200_0005;

fn word(value: u64) -> Word {
    Word(AtomicU64::new(value))
}

fn value(word: &Word) -> u64 {
    word.0.load(Relaxed)
}

fn shape() -> Shape {
    Limits::new().last_generation(LAST).segment_shape(0)
}

fn kept(ended: Ended) -> Option<Claim> {
    match ended {
        Ended::Free(_) => None,
        Ended::Kept(claim) => Some(claim),
    }
}

/// Whether there is a reference then; else what the get claimed.
fn get(word: &Word, key: u64) -> Result<(), Option<Claim>> {
    let got = Guest {}.get_or_keep(&word.grid(&shape(), 0), key);
    got.map(|_| ()).map_err(kept)
}

fn release(word: &Word, key: u64) -> Option<Claim> {
    kept(GuestRef { start: 0, key }.release_or_keep(&word.grid(&shape(), 0)))
}

fn clear(word: &Word, seen: u64, key: u64) -> (bool, Option<Claim>) {
    let (hides, ended) = Guest {}.clear_or_keep(&word.grid(&shape(), seen), key);
    (hides, kept(ended))
}

#[test]
fn a_life_of_a_place() {
    let word = word(0);
    assert!(matches!(word.taken(), Taken::New));
    word.begin(State::Idle);
    assert_eq!(value(&word), 0x1_0000_0000);
    assert!(!word.has(KEY) && word.is_begun(KEY));
    word.publish();
    assert_eq!(value(&word), 0x1_0000_0001);
    assert!(get(&word, KEY) == Ok(()));
    assert_eq!(value(&word), 0x1_0000_0005);
    assert!(word.has(KEY) && word.is_held(KEY) && !word.has(NEXT));
    assert!(clear(&word, value(&word), KEY) == (true, None));
    assert_eq!(value(&word), 0x1_0000_0007);
    assert!(clear(&word, value(&word), KEY) == (false, None));
    assert!(get(&word, KEY) == Err(None));
    assert_eq!(word.enter_again(), Ok(()));
    assert!(release(&word, KEY).is_none());
    assert!(release(&word, KEY) == Some(Claim::Reusable));
    assert_eq!(value(&word), 0x2_0000_0000);
    assert!(matches!(word.taken(), Taken::Filled(2)));
    word.publish_held();
    assert_eq!(value(&word), 0x2_0000_0005);
    assert!(release(&word, NEXT).is_none());
    assert!(clear(&word, value(&word), NEXT) == (true, Some(Claim::Retired)));
    assert_eq!(value(&word), 0x2_0000_0002);
    assert!(matches!(word.look(LAST), Look::Retired));
}

#[test]
fn a_filling_that_is_dropped() {
    let idle = word(0x1_0000_0004);
    assert!(idle.skip(1, LAST) == Claim::Reusable);
    assert_eq!(value(&idle), 0x2_0000_0004, "a stray get leaves later");
    assert!(release(&idle, KEY).is_none());
    assert!(idle.skip(2, LAST) == Claim::Retired);
    assert_eq!(value(&idle), 0x2_0000_0002);
}

#[test]
fn a_place_without_an_object() {
    let word = word(0x1_0000_0000);
    word.vacate();
    assert_eq!(value(&word), 0x1_0000_0002);
    assert!(matches!(word.taken(), Taken::Vacant(1)));
    assert!(matches!(word.look(LAST), Look::Vacant));
    word.occupy();
    assert_eq!(value(&word), 0x1_0000_0000);
}

/// 2^28 references, of which each is 4.
#[test]
fn as_many_references_as_there_may_be() {
    let full = word(0x1_4000_0001);
    let shape = shape();
    assert!(full.look_for(KEY, &shape).is_some_and(|it| it.is_full()));
    assert_eq!(full.enter_again(), Err(GetError::References));
    assert_eq!(value(&full), 0x1_4000_0001);
    assert!(clear(&full, value(&full), KEY) == (true, None));
    let one_less = word(0x1_3fff_fffd);
    assert!(one_less
        .look_for(KEY, &shape)
        .is_some_and(|it| !it.is_full()));
    assert!(get(&one_less, KEY) == Ok(()));
    assert_eq!(value(&one_less), 0x1_4000_0001);
}

/// What the look in front found isn't there any more.
#[test]
fn a_clear_while_others_step() {
    let word = word(0x1_0000_0009);
    let seen = value(&word);
    assert!(release(&word, KEY).is_none());
    assert!(clear(&word, seen, KEY) == (true, None));
    assert_eq!(value(&word), 0x1_0000_0007);
    assert!(clear(&word, 0x1_0000_0005, KEY) == (false, None));
    assert!(clear(&word, 0x2_0000_0005, NEXT) == (false, None));
    assert_eq!(value(&word), 0x1_0000_0007);
    assert!(release(&word, KEY) == Some(Claim::Reusable));
    assert!(clear(&word, 0x1_0000_0003, KEY) == (false, None));
    assert_eq!(value(&word), 0x2_0000_0000);
}

/// A get that counted itself is the last who leaves a word that was marked in between, of its key or of the next.
#[test]
fn a_get_that_claims() {
    for (key, found) in [
        (KEY, 0x1_0000_0003),
        (KEY, 0x2_0000_0003),
        (NEXT, 0x2_0000_0003),
    ] {
        let word = word(found);
        let claim = if found >> 32 == 1 {
            Claim::Reusable
        } else {
            Claim::Retired
        };
        assert!(get(&word, key) == Err(Some(claim)));
        assert_eq!(
            value(&word),
            0x2_0000_0000 | u64::from(claim == Claim::Retired) << 1
        );
    }
}

/// Of a pool: that of a downgrade is one of them. Beyond the most nothing but a further one is refused.
#[test]
fn references_of_a_pools_object() {
    let pool = crate::Pool::<String>::new();
    let filling = pool.create().expect("a place");
    let key = filling.key();
    let borrowed = pool.borrowed().expect("it has memory");
    let word = &borrowed.place(key).expect("it is open").word;
    word.0.fetch_add(ONE_COUNT * ((1 << 28) - 1), Relaxed);
    let held = filling.downgrade();
    assert_eq!(pool.try_get(key).err(), Some(GetError::References));
    assert_eq!(pool.try_get_owned(key).err(), Some(GetError::References));
    assert_eq!(held.try_clone().err(), Some(GetError::References));
    word.0.fetch_sub(ONE_COUNT, Relaxed);
    let last = pool.get(key).expect("there is room for one");
    assert_eq!(held.try_clone().err(), Some(GetError::References));
    assert!(pool.clear(key) && pool.get(key).is_none());
    word.0.fetch_sub(ONE_COUNT * ((1 << 28) - 2), Relaxed);
    drop((held, last));
    assert_eq!(pool.census().free, 64);
}
