//! What the opening of the largest pool writes to, and how far a pool grows.
#![cfg(all(target_os = "linux", target_env = "gnu"))]
use pardz::{Buffer, CreateError, Limits, Pool, Shape};
use std::fs;

/// The memory of the process that was written to, in KiB.
fn written() -> u64 {
    let status = fs::read_to_string("/proc/self/status").expect("a status");
    let line = status.lines().find(|line| line.starts_with("RssAnon:"));
    let word = line.and_then(|line| line.split_whitespace().nth(1));
    word.and_then(|word| word.parse().ok()).expect("a number")
}

#[test]
fn the_largest_pool_opens_on_two_mebibytes() {
    let shape = Shape {
        lanes: 16,
        first_page: 64,
        pages: 6,
        ..Shape::default()
    };
    let before = written();
    let pool = Pool::<Buffer>::open(shape).expect("a pool");
    let opened = written().saturating_sub(before);
    assert!(opened <= 2048, "{opened} KiB were written to");
    assert_eq!(pool.close().unopened, 64_512);
}

/// A pool that may open so many places opens no more, whoever creates; and a place that is given back is found again.
#[test]
fn a_pool_grows_as_far_as_it_may() {
    let pool: Pool<Buffer> = Limits::new().places(64 + 128).open().expect("a pool");
    let mut keys = Vec::new();
    while let Ok(filling) = pool.create() {
        keys.push(filling.publish());
    }
    assert_eq!(keys.len(), 64 + 128);
    assert!(matches!(pool.create(), Err(CreateError::Full)));
    assert!(pool.clear(keys[0]));
    assert!(pool.create().is_ok());
}
