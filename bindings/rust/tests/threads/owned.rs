//! Owned handles.
use super::*;

#[test]
fn owned_handles_travel() {
    let _limit = limit();
    let pool = Arc::new(Pool::<Vec<u64>>::new());
    let (send, receive) = mpsc::channel::<OwnedRef<Vec<u64>>>();
    let reader = thread::spawn(move || receive.into_iter().map(|list| list[0]).sum::<u64>());
    for number in 0..1000 {
        let mut filling = pool.create_owned().unwrap();
        filling.push(number);
        let filled = thread::scope(|scope| match number % 100 {
            0 => scope.spawn(move || filling.publish()).join().unwrap(),
            _ => filling.publish(),
        });
        let list = pool.get_owned(filled).unwrap();
        assert!(pool.clear(filled));
        assert!(pool.get_owned(filled).is_none());
        send.send(list).unwrap();
    }
    drop(send);
    assert_eq!(reader.join().unwrap(), 499_500);
    assert_eq!(pool.census().marked, 0);
    let filling = pool.create_owned().unwrap();
    thread::spawn(move || drop(filling)).join().unwrap();
    let census = Arc::into_inner(pool).unwrap().close();
    assert_eq!((census.present, census.marked, census.filling), (0, 0, 0));
}

/// An object that tells when it was emptied.
#[derive(Default)]
struct Told {
    emptied: Option<Arc<AtomicUsize>>,
    dropped: Option<Arc<AtomicUsize>>,
}

impl Clear for Told {
    fn clear(&mut self) {
        if let Some(emptied) = self.emptied.take() {
            emptied.fetch_add(1, SeqCst);
        }
    }
}

impl Drop for Told {
    fn drop(&mut self) {
        if let Some(dropped) = &self.dropped {
            dropped.fetch_add(1, SeqCst);
        }
    }
}

#[test]
fn clones_live_on_when_the_key_is_cleared() {
    let _limit = limit();
    let pool = Arc::new(Pool::<Told>::new());
    let emptied = Arc::new(AtomicUsize::new(0));
    let key = pool
        .put_with(|told| told.emptied = Some(Arc::clone(&emptied)))
        .unwrap();
    let first = pool.get_owned(key).unwrap();
    let second = first.clone();
    assert!(pool.clear(key));
    let third = second.clone();
    drop((first, second));
    assert!(third.emptied.is_some());
    thread::spawn(move || {
        let fourth = third.clone();
        drop(third);
        assert_eq!(fourth.key(), key);
        assert!(fourth.emptied.is_some());
    })
    .join()
    .unwrap();
    assert_eq!(emptied.load(SeqCst), 1);
}

#[test]
fn the_last_handle_drops_the_pool() {
    let _limit = limit();
    let pool = Arc::new(Pool::<Told>::new());
    let (emptied, dropped) = (Arc::new(AtomicUsize::new(0)), Arc::new(AtomicUsize::new(0)));
    let fill = |told: &mut Told| {
        told.emptied = Some(Arc::clone(&emptied));
        told.dropped = Some(Arc::clone(&dropped));
    };
    let key = pool.put_with(fill).unwrap();
    let told = pool.get_owned(key).unwrap();
    assert!(pool.clear(key));
    let filling: OwnedFilling<Told> = pool.create_owned().unwrap();
    drop(pool);
    thread::spawn(move || {
        drop(told);
        drop(filling);
    })
    .join()
    .unwrap();
    assert_eq!(emptied.load(SeqCst), 1);
    assert_eq!(dropped.load(SeqCst), 1);
}

/// A handle of each key, of which each thread gets a fifth.
fn handles_of_five_threads(pool: &Pool<Told>, keys: &[Key]) -> Vec<Vec<OwnedRef<Told>>> {
    thread::scope(|scope| {
        let threads = [0, 1, 2, 3, 4].map(|part| {
            scope.spawn(move || {
                let keys = keys.iter().skip(part).step_by(5);
                keys.map(|key| pool.get_owned(*key).unwrap()).collect()
            })
        });
        threads.map(|thread| thread.join().unwrap()).into()
    })
}

/// Handles of several shards outlive the pool, on several threads; memory goes with the last of them.
#[test]
fn handles_outlive_the_pool() {
    let _limit = limit();
    for close in [false, true] {
        let pool = Pool::<Told>::new();
        let dropped = Arc::new(AtomicUsize::new(0));
        let keys: Vec<_> = (0..3000)
            .map(|_| {
                let fill = |told: &mut Told| told.dropped = Some(Arc::clone(&dropped));
                pool.put_with(fill).unwrap()
            })
            .collect();
        let handles = handles_of_five_threads(&pool, &keys);
        let filling = pool.create_owned().unwrap();
        assert!(keys[..10].iter().all(|key| pool.clear(*key)));
        if close {
            let census = pool.close();
            assert_eq!((census.present, census.marked), (2990, 10));
            assert_eq!(census.filling, 1);
        } else {
            drop(pool);
        }
        assert_eq!(dropped.load(SeqCst), 0);
        let more = handles[0][1].clone();
        let threads = handles.into_iter().map(|part| thread::spawn(|| drop(part)));
        for thread in threads.collect::<Vec<_>>() {
            thread.join().unwrap();
        }
        assert_eq!(dropped.load(SeqCst), 0);
        drop(filling.downgrade());
        drop(more);
        assert_eq!(dropped.load(SeqCst), 3000);
    }
}

/// The pool and its handles go at once, on several threads.
#[test]
fn handles_and_the_pool_end_at_once() {
    let _limit = limit();
    let dropped = Arc::new(AtomicUsize::new(0));
    for round in 0..300 {
        let pool = Pool::<Told>::open(shape(1 + round % 8, 8, 1)).unwrap();
        let fill = |told: &mut Told| told.dropped = Some(Arc::clone(&dropped));
        let key = pool.put_with(fill).unwrap();
        let handles: Vec<_> = (0..3).map(|_| pool.get_owned(key).unwrap()).collect();
        assert!(round % 2 == 0 || pool.clear(key));
        let ends = handles.into_iter().map(|handle| (Some(handle), None));
        at_once(ends.chain([(None, Some(pool))]).map(|end| {
            move || {
                let (handle, pool) = end;
                drop((handle.clone(), handle));
                drop(pool);
            }
        }));
    }
    assert_eq!(dropped.load(SeqCst), 300);
}

#[test]
fn handles_as_bytes_and_across_threads() {
    fn travels<T: Send + Sync + 'static>(_: &T) {}
    let pool = Arc::new(Pool::<pardz::Buffer>::new());
    let filling = pool.create_owned().unwrap();
    travels(&filling);
    let bytes = filling.downgrade();
    travels(&bytes);
    let slice: &[u8] = bytes.as_ref();
    assert!(slice.is_empty());
}

// Calls within the objects' own code.
