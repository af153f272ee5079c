//! What a type needs for its objects to be pooled.
use std::collections::{BTreeMap, BTreeSet, BinaryHeap, HashMap, HashSet, VecDeque};
use std::ffi::OsString;
use std::mem;
use std::path::PathBuf;
use std::sync::{Mutex, PoisonError, RwLock};

/// A type whose objects can be emptied in place, so that they keep their memory and are used again.
///
/// ```
/// use pardz::Clear;
///
/// #[derive(Default)]
/// struct Request {
///     path: String,
///     length: Option<usize>,
/// }
///
/// impl Clear for Request {
///     fn clear(&mut self) {
///         self.path.clear();
///         self.length = None;
///     }
/// }
/// ```
pub trait Clear {
    /// Empties the object. It runs when the key was cleared and the last reference is gone, on the thread that let go last, before
    /// its call returns. (That call may also be a get or a clear of the key that was under way then, and finds nothing.)
    ///
    /// Whoever calls it has the object alone, and nothing of the pool is borrowed meanwhile: it may call the pool again, block or panic. The place
    /// is free to be filled once it has returned. What it clears of its own pool is emptied when it has returned, by the same call: so a chain
    /// of any length needs no deeper stack. (Without memory to let one wait, that is emptied at once.)
    ///
    /// Where it panics the object is dropped, and its place is free all the same. Of several panics of one call the first is handed on; where the
    /// thread unwinds already, none is. The payload of one that goes no further is leaked, as its drop might panic in turn.
    ///
    /// A field that it forgets keeps what it had: the next who creates in the place finds it there.
    fn clear(&mut self);

    /// Whether nothing needs to be looked for as it runs.
    #[doc(hidden)]
    #[inline(always)]
    fn plain() -> Plain
    where
        Self: Sized,
    {
        Plain(false)
    }
}

/// Whether a type's `clear` runs no code but this crate's and the standard library's, neither panics nor calls a pool, and clears nothing: so
/// nobody looks for that. (A type of this crate alone can say so.)
#[doc(hidden)]
#[derive(Clone, Copy)]
pub struct Plain(pub(crate) bool);

/// Keeps its capacity.
impl<T> Clear for Vec<T> {
    #[inline]
    fn clear(&mut self) {
        Vec::clear(self);
    }

    #[inline(always)]
    fn plain() -> Plain {
        Plain(!mem::needs_drop::<T>())
    }
}

/// Keeps its capacity.
impl<T> Clear for VecDeque<T> {
    fn clear(&mut self) {
        VecDeque::clear(self);
    }

    #[inline(always)]
    fn plain() -> Plain {
        Plain(!mem::needs_drop::<T>())
    }
}

/// Keeps its capacity.
impl<T> Clear for BinaryHeap<T> {
    fn clear(&mut self) {
        BinaryHeap::clear(self);
    }
}

/// Keeps its capacity.
impl Clear for String {
    #[inline]
    fn clear(&mut self) {
        String::clear(self);
    }

    #[inline(always)]
    fn plain() -> Plain {
        Plain(true)
    }
}

/// Keeps its capacity.
impl Clear for OsString {
    fn clear(&mut self) {
        OsString::clear(self);
    }
}

/// Keeps its capacity.
impl Clear for PathBuf {
    fn clear(&mut self) {
        PathBuf::clear(self);
    }
}

/// Keeps its capacity.
impl<K, V, S> Clear for HashMap<K, V, S> {
    fn clear(&mut self) {
        HashMap::clear(self);
    }
}

/// Keeps its capacity.
impl<K, S> Clear for HashSet<K, S> {
    fn clear(&mut self) {
        HashSet::clear(self);
    }
}

/// Keeps no memory: the map of the standard library has none to keep.
impl<K, V> Clear for BTreeMap<K, V> {
    fn clear(&mut self) {
        BTreeMap::clear(self);
    }
}

/// Keeps no memory: the set of the standard library has none to keep.
impl<K> Clear for BTreeSet<K> {
    fn clear(&mut self) {
        BTreeSet::clear(self);
    }
}

/// Becomes `None`.
impl<T> Clear for Option<T> {
    fn clear(&mut self) {
        *self = None;
    }
}

/// What is in the box is emptied.
impl<T: Clear + ?Sized> Clear for Box<T> {
    fn clear(&mut self) {
        T::clear(self);
    }
}

/// What is under the lock is emptied; a poisoned lock is healed.
impl<T: Clear + ?Sized> Clear for Mutex<T> {
    fn clear(&mut self) {
        self.get_mut()
            .unwrap_or_else(PoisonError::into_inner)
            .clear();
        self.clear_poison();
    }
}

/// What is under the lock is emptied; a poisoned lock is healed.
impl<T: Clear + ?Sized> Clear for RwLock<T> {
    fn clear(&mut self) {
        self.get_mut()
            .unwrap_or_else(PoisonError::into_inner)
            .clear();
        self.clear_poison();
    }
}

macro_rules! clear_of_tuples {
    ($(($($part:ident $number:tt),+))+) => {$(
        /// Each part is emptied, the first at first.
        impl<$($part: Clear),+> Clear for ($($part,)+) {
            fn clear(&mut self) {
                $(self.$number.clear();)+
            }
        }
    )+};
}

clear_of_tuples! {
    (A 0)
    (A 0, B 1)
    (A 0, B 1, C 2)
    (A 0, B 1, C 2, D 3)
    (A 0, B 1, C 2, D 3, E 4)
    (A 0, B 1, C 2, D 3, E 4, F 5)
}

#[cfg(test)]
mod tests {
    use super::*;

    #[test]
    fn what_clears() {
        let mut list = Vec::with_capacity(10);
        list.push(1);
        Clear::clear(&mut list);
        assert_eq!((list.len(), list.capacity()), (0, 10));
        let mut inside = Box::new(Mutex::new(Some(String::from("x"))));
        Clear::clear(&mut inside);
        assert_eq!(*inside.lock().unwrap(), None);
        let mut map = RwLock::new(HashMap::from([(1, 2)]));
        Clear::clear(&mut map);
        assert!(map.read().unwrap().is_empty());
        let (mut set, mut tree) = (HashSet::from([1]), BTreeSet::from([1]));
        Clear::clear(&mut set);
        Clear::clear(&mut tree);
        assert!(set.is_empty() && tree.is_empty());
        let (mut text, mut queue) = (String::from("x"), VecDeque::from([1]));
        Clear::clear(&mut text);
        Clear::clear(&mut queue);
        assert!(text.is_empty() && queue.is_empty());
        let (mut heap, mut map) = (BinaryHeap::from([1]), BTreeMap::from([(1, 2)]));
        Clear::clear(&mut heap);
        Clear::clear(&mut map);
        assert!(heap.is_empty() && map.is_empty());
        let mut any: [Box<dyn Clear>; 1] = [Box::new(String::from("x"))];
        Clear::clear(&mut any[0]);
        let mut parts = (PathBuf::from("a/b"), OsString::from("c"), vec![1]);
        let capacity = parts.0.capacity();
        Clear::clear(&mut parts);
        assert_eq!(parts, (PathBuf::new(), OsString::new(), Vec::new()));
        assert_eq!(parts.0.capacity(), capacity);
        let mut all = (vec![1], vec![2], vec![3], vec![4], vec![5], vec![6]);
        Clear::clear(&mut all);
        assert_eq!(all, Default::default());
        let (mut one, mut two) = ((vec![1],), (vec![1], Some(2)));
        Clear::clear(&mut one);
        Clear::clear(&mut two);
        assert_eq!((one, two), Default::default());
    }

    #[test]
    fn a_poisoned_lock_is_healed() {
        let mut lock = Mutex::new(vec![1]);
        let panicked = std::panic::catch_unwind(std::panic::AssertUnwindSafe(|| {
            let _held = lock.lock().unwrap();
            panic!("on purpose");
        }));
        assert!(panicked.is_err() && lock.is_poisoned());
        Clear::clear(&mut lock);
        assert!(lock.lock().unwrap().is_empty());
    }
}
