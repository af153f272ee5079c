//! A clear that takes lanes, and lanes that let go of each other's objects.
use super::*;

/// Lets go of the next one by a lane that it takes for that.
#[derive(Default)]
struct Taker {
    pool: Weak<Pool<Taker>>,
    next: Option<Key>,
}

impl Clear for Taker {
    fn clear(&mut self) {
        let pool = std::mem::take(&mut self.pool).upgrade();
        if let (Some(pool), Some(next)) = (pool, self.next.take()) {
            let lane = pool.lane().unwrap();
            assert!(lane.clear(next));
            assert!(lane.get(next).is_none());
        }
    }
}

#[test]
fn a_clear_takes_another_lane() {
    let pool = Arc::new(Pool::<Taker>::open(shape(4, 4, 1)).unwrap());
    let lane = pool.lane().unwrap();
    for _ in 0..50 {
        let mut last = None;
        for _ in 0..3 {
            let fill = |taker: &mut Taker| {
                taker.pool = Arc::downgrade(&pool);
                taker.next = last;
            };
            last = Some(lane.put_with(fill).unwrap());
        }
        assert!(lane.clear(last.unwrap()));
        assert_eq!(pool.census().present, 0);
    }
    drop(lane);
    assert_eq!(Arc::into_inner(pool).unwrap().close().free, 4);
}

/// Publishes a link that is to let go of one that another thread lent, and lends it. Without a place for it, lets go of that one itself.
fn take_over(lane: &Lane<'_, Link>, lent: &Mutex<Vec<Key>>) {
    let next = lock(lent).pop();
    let Ok(mut link) = lane.create() else {
        next.into_iter().for_each(|next| assert!(lane.clear(next)));
        return;
    };
    link.next = next;
    let key = link.publish();
    lock(lent).push(key);
}

/// Objects of four threads let go of each other's, by whichever lane empties them.
#[test]
fn threads_let_go_of_each_others() {
    const ROUNDS: usize = 2000;
    let pool = Arc::new(Pool::<Link>::open(shape(4, 8, 2)).unwrap());
    let lent = Arc::new(Mutex::new(Vec::<Key>::new()));
    let _limit = limit();
    // (All lanes at once: one that came home would be given again.)
    let lanes = [(); 4].map(|()| pool.lane_owned().unwrap());
    let threads = lanes.map(|lane| {
        let lent = Arc::clone(&lent);
        thread::spawn(move || {
            LANE.with(|place| assert!(place.set(lane).is_ok()));
            LANE.with(|lane| {
                let lane = lane.get().unwrap();
                for _ in 0..ROUNDS {
                    take_over(lane.lane(), &lent);
                }
            });
        })
    });
    for thread in threads {
        thread.join().unwrap();
    }
    let lane = pool.lane_owned().unwrap();
    thread::spawn(move || {
        LANE.with(|place| assert!(place.set(lane).is_ok()));
        LANE.with(|lane| {
            for key in lock(&lent).drain(..) {
                assert!(lane.get().unwrap().clear(key));
            }
        });
    })
    .join()
    .unwrap();
    let census = Arc::into_inner(pool).unwrap().close();
    assert_eq!((census.present, census.marked, census.filling), (0, 0, 0));
}
