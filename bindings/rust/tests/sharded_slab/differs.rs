//! What sharded-slab does otherwise.
use super::*;

#[test]
fn a_clear_passes_by_what_is_being_filled() {
    let pool = texts();
    for _ in 0..3 {
        let mut filling = pool.create().expect("room");
        let key = filling.key();
        filling.push_str("abc");
        assert!(!pool.clear(key));
        assert_eq!(filling, "abc".to_string());
        drop(filling);
        assert!(pool.clear(key));
    }
}

#[test]
fn one_clear_alone_says_yes() {
    let pool = texts();
    let key = put(&pool, "abc");
    let text = pool.get(key).expect("published");
    assert!(pool.clear(key));
    assert!(!pool.clear(key));
    assert_eq!(text, "abc".to_string());
}

#[test]
fn what_panics_is_not_published() {
    let pool = Pool::<Item>::new();
    let (closure, filling) = (Arc::new(Fate::default()), Arc::new(Fate::default()));
    let panicked = catch_unwind(AssertUnwindSafe(|| {
        pool.create_with(|item| {
            *item = Item(closure.clone());
            let mut other = pool.create().expect("room");
            *other = Item(filling.clone());
            panic!("on purpose")
        })
    }));
    assert!(panicked.is_err());
    assert_eq!(closure.cleared(), 1);
    // By its drop, as any other.
    assert_eq!(filling.cleared(), 0);
}

#[test]
fn a_create_while_a_thread_ends() {
    let _limit = limit();
    struct Last(Arc<Pool<String>>);
    impl Drop for Last {
        fn drop(&mut self) {
            let key = put(&self.0, "last");
            assert_eq!(self.0.get(key).expect("published"), "last".to_string());
            assert!(self.0.clear(key));
        }
    }
    thread_local! {
        static LAST: OnceLock<Last> = const { OnceLock::new() };
    }
    let pool = texts();
    for uses_it_first in [true, false] {
        let pool = pool.clone();
        join([thread::spawn(move || {
            if uses_it_first {
                put(&pool, "first");
            }
            LAST.with(|last| last.set(Last(pool.clone())).map_err(|_| ()).expect("unset"));
            put(&pool, "second");
        })]);
    }
}
