//! Owned references and fillings.
use super::*;

#[test]
fn owned_references_travel() {
    let _limit = limit();
    for _ in 0..ROUNDS {
        let pool = texts();
        let keys = [put(&pool, "hello"), put(&pool, "goodbye")];
        let [one, two] = keys.map(|key| pool.clone().get_owned(key).expect("published"));
        assert!(pool.clear(keys[0]));
        let first = thread::spawn(move || assert_eq!(one, "hello".to_string()));
        let second = {
            let pool = pool.clone();
            thread::spawn(move || {
                assert_eq!(two, "goodbye".to_string());
                assert!(pool.clear(two.key()));
                assert_eq!(two, "goodbye".to_string());
            })
        };
        join([first, second]);
        assert!(keys.iter().all(|&key| pool.get(key).is_none()));
    }
}

#[test]
fn owned_references_outlive_the_pool() {
    let _limit = limit();
    for _ in 0..ROUNDS {
        let pool = texts();
        let keys = [put(&pool, "hello"), put(&pool, "goodbye")];
        let get = |key| pool.clone().get_owned(key).expect("published");
        let (one, two, kept) = (get(keys[0]), get(keys[1]), get(keys[0]));
        drop(pool);
        join([
            thread::spawn(move || assert_eq!(one, "hello".to_string())),
            thread::spawn(move || assert_eq!(two, "goodbye".to_string())),
        ]);
        assert_eq!(kept, "hello".to_string());
    }
}

#[test]
fn the_last_owned_reference_drops_the_pool() {
    let _limit = limit();
    let (pool, key, fate) = one_item();
    let item = pool.clone().get_owned(key).expect("published");
    drop(pool);
    assert_eq!(fate.cleared(), 0);
    join([thread::spawn(move || drop(item))]);
    assert!(fate.dropped.load(SeqCst));
}

#[test]
fn owned_references_come_back() {
    let _limit = limit();
    let pool = texts();
    for _ in 0..ROUNDS {
        let keys = [put(&pool, "hello"), put(&pool, "world")];
        let one = pool.clone().get_owned(keys[0]).expect("published");
        let (first, second) = (pool.clone(), pool.clone());
        let threads = [
            thread::spawn(move || {
                first.clear(one.key());
                one
            }),
            thread::spawn(move || {
                let two = second.clone().get_owned(keys[1]).expect("published");
                second.clear(keys[0]);
                two
            }),
        ];
        let back: Vec<OwnedRef<String>> = join(threads);
        assert_eq!(back[0], "hello".to_string());
        assert_eq!(back[1], "world".to_string());
        assert!(pool.get(keys[0]).is_none());
        assert!(pool.clear(keys[1]));
    }
}

#[test]
fn owned_references_end_on_other_threads() {
    let _limit = limit();
    for _ in 0..ROUNDS {
        let pool = texts();
        let key = put(&pool, "hello");
        let mine = pool.clone().get_owned(key).expect("published");
        let other = {
            let pool = pool.clone();
            thread::spawn(move || {
                let second_key = put(&pool, "goodbye");
                let second = pool.clone().get_owned(second_key).expect("published");
                let inner = {
                    let pool = pool.clone();
                    thread::spawn(move || {
                        assert_eq!(second, "goodbye".to_string());
                        assert!(pool.clear(key));
                    })
                };
                assert_eq!(mine, "hello".to_string());
                assert!(pool.clear(second_key));
                (inner, second_key)
            })
        };
        let (inner, second_key) = join([other]).remove(0);
        join([
            inner,
            reader(&pool, key, "hello"),
            reader(&pool, second_key, "goodbye"),
        ]);
        assert!(pool.get(key).is_none() && pool.get(second_key).is_none());
    }
}

#[test]
fn owned_fillings_travel() {
    let _limit = limit();
    let pool = texts();
    for _ in 0..ROUNDS {
        let mut filling: OwnedRefMut<String> = pool.clone().create_owned().expect("room");
        let key = filling.key();
        let early = reader(&pool, key, "Hello world");
        filling.push_str("Hello ");
        let publisher = thread::spawn(move || filling.push_str("world"));
        join([early, publisher]);
        assert_eq!(pool.get(key).expect("published"), "Hello world".to_string());
        assert!(pool.clear(key));
    }
}

#[test]
fn an_owned_filling_becomes_a_reference() {
    let _limit = limit();
    let pool = texts();
    for _ in 0..ROUNDS {
        let mut filling = pool.clone().create_owned().expect("room");
        filling.push_str("abc");
        let key = filling.key();
        let early = reader(&pool, key, "abc");
        let text = filling.downgrade();
        let late = {
            let pool = pool.clone();
            thread::spawn(move || assert_eq!(pool.get(key).expect("published"), "abc".to_string()))
        };
        join([early, late]);
        assert!(join([clearer(&pool, key)])[0]);
        assert_eq!(text, "abc".to_string());
        drop(text);
        assert!(pool.get(key).is_none());
    }
}

#[test]
fn a_clear_meets_a_publish() {
    let _limit = limit();
    for _ in 0..ROUNDS {
        let pool = texts();
        let mut filling = pool.clone().create_owned().expect("room");
        filling.push_str("abc");
        let key = filling.key();
        let publisher = thread::spawn(move || assert_eq!(filling.downgrade(), "abc".to_string()));
        let clear = clearer(&pool, key);
        join([publisher, reader(&pool, key, "abc")]);
        let cleared = join([clear])[0];
        assert_eq!(pool.get(key).is_none(), cleared);
    }
}

#[test]
fn an_owned_filling_outlives_the_pool() {
    let pool = texts();
    let mut filling = pool.clone().create_owned().expect("room");
    drop(pool);
    filling.push_str("abc");
    assert_eq!(filling, "abc".to_string());
    assert_eq!(filling.downgrade(), "abc".to_string());
}
