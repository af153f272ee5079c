//! Keys by a `Config`.
use super::*;

#[test]
fn reserved_bits_are_left_alone() {
    assert_eq!(Pool::<String, Packed>::USED_BITS, 54);
    assert_eq!(Pool::<String>::USED_BITS, 64);
    let pool = Arc::new(Pool::<String>::new_with_config::<Packed>());
    let keys: Vec<usize> = (0..1000)
        .map(|number| put(&pool, &number.to_string()))
        .collect();
    assert!(keys.iter().all(|key| key >> 54 == 0));
    let flags = 5 << 54;
    for (number, &key) in keys.iter().enumerate() {
        assert_eq!(pool.get(key).expect("published"), number.to_string());
        let owned = pool.clone().get_owned(key).expect("published");
        assert_eq!(
            (owned.key(), &*pool.get(key | flags).expect("published")),
            (key, &*owned)
        );
    }
    assert!(keys.iter().all(|&key| pool.clear(key)));
    assert!(keys.iter().all(|&key| pool.get(key).is_none()));
    assert!(pool.get(0).is_none() && !pool.clear(0));
}
