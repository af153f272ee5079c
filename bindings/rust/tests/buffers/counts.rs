//! What is counted, and what is left at the end.
use super::*;

#[test]
fn a_close_counts_what_is_left() {
    let pool = Pool::<Buffer>::open(Shape {
        last_generation: 2,
        ..shape(2)
    })
    .unwrap();
    let (lane, other) = (pool.lane().unwrap(), pool.lane().unwrap());
    for _ in 0..2 {
        drop(lane.create().unwrap());
    }
    _ = put(&lane, b"present");
    let held = put(&lane, b"present too, with a reference");
    let marked = put(&lane, b"marked");
    std::mem::forget(other.get(held).unwrap());
    std::mem::forget(other.get(marked).unwrap());
    assert!(lane.clear(marked));
    std::mem::forget(lane.create().unwrap());
    std::mem::forget(lane.create().unwrap());
    std::mem::forget(other);
    drop(lane);
    let now = pool.census();
    let census = pool.close();
    assert_eq!(now, census);
    assert_eq!((census.present, census.marked, census.filling), (2, 1, 2));
    assert_eq!(census.free + census.unopened + census.retired, 24 - 5);
}

/// On four threads at once the numbers add up at each look; at the end they are what the close counts.
#[test]
fn a_census_beside_calls() {
    let pool = Pool::<Buffer>::open(shape(4)).unwrap();
    let sum = |census: pardz::Census| {
        let idle = census.free + census.unopened + census.filling;
        idle + census.present + census.marked + census.retired
    };
    let _limit = limit();
    let lanes = [(); 3].map(|()| pool.lane().unwrap());
    thread::scope(|scope| {
        let threads = lanes.map(|lane| {
            scope.spawn(move || {
                let mut keys = Vec::new();
                for round in 0..2000 {
                    match lane.put(&[1; 20]) {
                        Ok(key) => keys.push(key),
                        Err(_) => keys.drain(..6).for_each(|key| assert!(lane.clear(key))),
                    }
                    if round % 7 == 0 {
                        drop(lane.create());
                    }
                }
            })
        });
        while !threads.iter().all(thread::ScopedJoinHandle::is_finished) {
            assert_eq!(sum(pool.census()), 48);
        }
    });
    let now = pool.census();
    assert!(now.present > 0 && now.filling == 0, "{now:?}");
    assert_eq!(now, pool.close());
}

#[test]
fn a_place_is_retired() {
    let pool = Pool::<Buffer>::open(Shape {
        last_generation: 3,
        ..single(1)
    })
    .unwrap();
    let lane = pool.lane().unwrap();
    for _ in 0..3 {
        drop(lane.create().unwrap());
    }
    assert_eq!(lane.create().err(), Some(CreateError::Full));
    drop(lane);
    assert_eq!(pool.close().retired, 1);
}

#[test]
fn a_pool_that_is_dropped_is_closed() {
    for _ in 0..100 {
        let pool = Pool::<Buffer>::open(shape(4)).unwrap();
        let lane = pool.lane().unwrap();
        _ = put(&lane, &[1; 500]);
        std::mem::forget(lane.create().unwrap());
    }
}
