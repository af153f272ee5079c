//! Calls while a thread ends.
use super::*;

/// Calls from the destructor of a thread-local, when the thread has left its shard already.
struct Caller;

impl Drop for Caller {
    fn drop(&mut self) {
        let key = links().put_with(|_| ()).unwrap();
        assert!(links().get(key).is_some());
        assert!(links().clear(key));
        drop(links().create().unwrap());
        CALLS.fetch_add(1, SeqCst);
    }
}

static CALLS: AtomicUsize = AtomicUsize::new(0);

thread_local! {
    static CALLER: Caller = const { Caller };
}

#[test]
fn calls_while_a_thread_ends() {
    let _limit = limit();
    for _ in 0..50 {
        thread::spawn(|| {
            CALLER.with(|_| ());
            let key = links().put_with(|_| ()).unwrap();
            assert!(links().clear(key));
        })
        .join()
        .unwrap();
    }
    assert_eq!(CALLS.load(SeqCst), 50);
}

#[test]
fn pools_end_before_their_threads() {
    for round in 0..50 {
        let pools: Vec<_> = (0..4)
            .map(|_| Pool::<Vec<u64>>::open(shape(2, 4, 1)).unwrap())
            .collect();
        // One after the other, and in turn.
        (0..10).for_each(|number| use_once(&pools[number as usize % 4], round + number));
        let moved = pools.into_iter().map(Box::new).collect::<Vec<_>>();
        moved.iter().for_each(|pool| use_once(pool, round));
        assert!(moved.into_iter().all(|pool| pool.close().present == 0));
    }
}
