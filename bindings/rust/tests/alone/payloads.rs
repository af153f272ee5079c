//! Panics within panics: of objects, of payloads, and while a thread unwinds.
use super::*;

/// A panic's payload, whose drop panics: also while its thread unwinds, which ends the process.
struct Bomb(&'static str);

impl Drop for Bomb {
    fn drop(&mut self) {
        panic!("the payload is dropped");
    }
}

/// Whether the work panics. The payload is left, as it may be a bomb.
pub(crate) fn panics<R>(work: impl FnOnce() -> R) -> bool {
    match catch_unwind(AssertUnwindSafe(work)) {
        Ok(_) => false,
        Err(payload) => {
            mem::forget(payload);
            true
        }
    }
}

/// What the work panics with.
pub(crate) fn payload_of<R>(work: impl FnOnce() -> R) -> &'static str {
    let Err(payload) = catch_unwind(AssertUnwindSafe(work)) else {
        panic!("it doesn't panic");
    };
    let told = payload.downcast_ref::<Bomb>().map(|bomb| bomb.0);
    mem::forget(payload);
    told.expect("a bomb")
}

/// How many nodes were emptied.
static EMPTIED: AtomicUsize = AtomicUsize::new(0);

/// Lets go of others when it is emptied, and panics with a bomb.
#[derive(Default)]
struct Node {
    held: Option<OwnedRef<Node>>,
    keys: Vec<Key>,
    text: String,
    explodes: bool,
    name: &'static str,
}

fn nodes() -> &'static Pool<Node> {
    static NODES: OnceLock<Pool<Node>> = OnceLock::new();
    NODES.get_or_init(Pool::new)
}

impl Clear for Node {
    fn clear(&mut self) {
        self.held = None;
        self.keys
            .drain(..)
            .for_each(|key| assert!(nodes().clear(key)));
        self.text.clear();
        EMPTIED.fetch_add(1, SeqCst);
        if mem::take(&mut self.explodes) {
            panic_any(Bomb(self.name));
        }
    }
}

/// Published, held and cleared: the reference is the last to let go.
fn cleared(fill: impl FnOnce(&mut Node)) -> OwnedRef<Node> {
    let key = nodes().put_with(fill).unwrap();
    let held = nodes().get_owned(key).unwrap();
    assert!(nodes().clear(key));
    held
}

/// The pool works on, by all ways.
fn works_on() {
    for text in ["one", "two"] {
        let fill = |node: &mut Node| node.text.push_str(text);
        drop(cleared(fill));
        let key = nodes().put_with(fill).unwrap();
        let (held, owned) = (nodes().get(key).unwrap(), nodes().get_owned(key).unwrap());
        assert!(nodes().clear(key));
        assert_eq!((&*held.text, &*owned.text), (text, text));
    }
}

#[test]
fn two_payloads_of_one_release() {
    alone("payloads::two_payloads_of_one_release", || {
        let inner = cleared(|node| node.explodes = true);
        let outer = cleared(|node| {
            node.held = Some(inner);
            node.explodes = true;
        });
        assert!(panics(|| drop(outer)));
        let third = cleared(|node| node.text.push_str("third"));
        drop(third);
        works_on();
    });
}

#[test]
fn two_payloads_of_one_clear() {
    alone("payloads::two_payloads_of_one_clear", || {
        let exploding = |keys| {
            let fill = |node: &mut Node| {
                node.keys = keys;
                node.explodes = true;
            };
            nodes().put_with(fill).unwrap()
        };
        let inner = vec![exploding(vec![]), exploding(vec![])];
        let outer = exploding(inner);
        assert!(panics(|| nodes().clear(outer)));
        works_on();
    });
}

fn exploding(name: &'static str, fill: impl FnOnce(&mut Node)) -> impl FnOnce(&mut Node) {
    move |node| {
        fill(node);
        node.explodes = true;
        node.name = name;
    }
}

/// Of several panics of one call the first is handed on, and all objects are emptied: by an owned handle.
#[test]
fn the_first_of_several_payloads_of_a_release() {
    alone(
        "payloads::the_first_of_several_payloads_of_a_release",
        || {
            let quiet = cleared(|node| node.text.push_str("quiet"));
            let third = cleared(exploding("third", |node| node.held = Some(quiet)));
            let second = cleared(exploding("second", |node| node.held = Some(third)));
            let first = cleared(exploding("first", |node| node.held = Some(second)));
            EMPTIED.store(0, SeqCst);
            assert_eq!(payload_of(|| drop(first)), "first");
            assert_eq!(EMPTIED.load(SeqCst), 4);
            works_on();
        },
    );
}

/// The same by a clear.
#[test]
fn the_first_of_several_payloads_of_a_clear() {
    alone("payloads::the_first_of_several_payloads_of_a_clear", || {
        let quiet = nodes().put_with(|node| node.text.push_str("quiet"));
        let others =
            ["second", "third"].map(|name| nodes().put_with(exploding(name, |_| ())).unwrap());
        let keys = vec![others[0], others[1], quiet.unwrap()];
        let first = nodes().put_with(exploding("first", |node| node.keys = keys));
        EMPTIED.store(0, SeqCst);
        assert_eq!(payload_of(|| nodes().clear(first.unwrap())), "first");
        assert_eq!(EMPTIED.load(SeqCst), 4);
        works_on();
    });
}

/// Clears a key when it is dropped.
struct Clears(Key);

impl Drop for Clears {
    fn drop(&mut self) {
        assert!(nodes().clear(self.0));
    }
}

fn explodes(node: &mut Node) {
    node.explodes = true;
}

/// Panics, and lets go of an object then, which explodes.
const WAYS: [fn(); 5] = [
    || {
        let _clears = Clears(nodes().put_with(explodes).unwrap());
        panic!("with a clear");
    },
    || {
        let _held = cleared(explodes);
        panic!("with an owned reference");
    },
    || {
        let key = nodes().put_with(explodes).unwrap();
        let _held = nodes().get(key).unwrap();
        assert!(nodes().clear(key));
        panic!("with a reference");
    },
    || {
        let mut filling = nodes().create().unwrap();
        filling.explodes = true;
        panic!("with a filling");
    },
    || {
        let mut filling = nodes().create_owned().unwrap();
        filling.explodes = true;
        panic!("with an owned filling");
    },
];

/// What is let go of while the thread unwinds panics itself: that goes no further, by each way.
#[test]
fn payloads_while_unwinding() {
    alone("payloads::payloads_while_unwinding", || {
        for way in WAYS {
            assert!(panics(way));
            works_on();
        }
    });
}

/// Parts of a list that panic when they are dropped, while the thread unwinds: as what a `clear` of one's own does.
#[test]
fn parts_of_lists_while_unwinding() {
    struct Part;
    impl Drop for Part {
        fn drop(&mut self) {
            panic!("a part is dropped");
        }
    }
    fn of<T: Clear + Default + Extend<Part>>() {
        let pool = Pool::<T>::open(shape(1, 1, 1)).unwrap();
        let lane = pool.lane().unwrap();
        assert!(panics(|| lane.put_with(|list| {
            list.extend([Part]);
            panic!("on purpose")
        })));
        let key = lane.put_with(|list| list.extend([Part])).unwrap();
        assert!(panics(|| {
            let _held = lane.get(key).unwrap();
            assert!(lane.clear(key));
            panic!("on purpose")
        }));
        drop(lane);
        assert_eq!(pool.close().free, 1);
    }
    alone("payloads::parts_of_lists_while_unwinding", || {
        of::<Vec<Part>>();
        of::<VecDeque<Part>>();
    });
}

/// An object whose `clear` and whose drop panic, both with bombs, while the thread unwinds.
#[test]
fn a_clear_and_a_drop_while_unwinding() {
    #[derive(Default)]
    struct Worst(bool);
    impl Clear for Worst {
        fn clear(&mut self) {
            if self.0 {
                panic_any(Bomb("clear"));
            }
        }
    }
    impl Drop for Worst {
        fn drop(&mut self) {
            if self.0 {
                panic_any(Bomb("drop"));
            }
        }
    }
    alone("payloads::a_clear_and_a_drop_while_unwinding", || {
        let pool = Pool::<Worst>::open(shape(1, 1, 1)).unwrap();
        for _ in 0..3 {
            assert!(panics(|| {
                let mut filling = pool.create().unwrap();
                filling.0 = true;
                panic!("on purpose");
            }));
        }
        assert_eq!(pool.close().free, 1);
    });
}

/// A clear by a `Lane`, within a drop while the thread unwinds.
#[test]
fn a_lane_clears_while_unwinding() {
    struct Clears<'l, 'p>(&'l pardz::Lane<'p, Node>, Key);
    impl Drop for Clears<'_, '_> {
        fn drop(&mut self) {
            assert!(self.0.clear(self.1));
        }
    }
    alone("payloads::a_lane_clears_while_unwinding", || {
        let pool = Pool::<Node>::open(shape(1, 2, 1)).unwrap();
        let lane = pool.lane().unwrap();
        for _ in 0..5 {
            let key = lane.put_with(|node| node.explodes = true).unwrap();
            assert!(panics(|| {
                let _clears = Clears(&lane, key);
                panic!("on purpose");
            }));
            assert!(lane.get(key).is_none());
            drop([lane.create().unwrap(), lane.create().unwrap()]);
        }
        drop(lane);
        assert_eq!(pool.close().free, 2);
    });
}

/// A filling whose place is left as it is, within a drop while the thread unwinds.
#[test]
fn a_filling_is_forgotten_while_unwinding() {
    struct Forgets<'l>(Option<pardz::Filling<'l, Node>>);
    impl Drop for Forgets<'_> {
        fn drop(&mut self) {
            mem::forget(self.0.take().expect("one filling"));
        }
    }
    alone("payloads::a_filling_is_forgotten_while_unwinding", || {
        let pool = Pool::<Node>::open(shape(1, 2, 1)).unwrap();
        let lane = pool.lane().unwrap();
        let mut filling = lane.create().unwrap();
        filling.explodes = true;
        assert!(panics(|| {
            let _forgets = Forgets(Some(filling));
            panic!("on purpose");
        }));
        drop(lane);
        assert_eq!(pool.close().filling, 1);
    });
}
