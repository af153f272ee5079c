//! The program's allocator: what the threads of a schedule free is looked at, and freed when the schedule has ended.
use crate::run;
use std::alloc::{GlobalAlloc, Layout, System};
use std::cell::Cell;
use std::collections::HashMap;
use std::mem;
use std::ptr;
use std::sync::{Mutex, MutexGuard, PoisonError};

/// What stands in freed memory.
const GONE: u8 = 0xDD;

/// The system's allocator, for the program that runs scenarios.
pub struct Heap;

/// What is known of the memory of a schedule's threads.
struct Known {
    /// What they asked for, by its address, and that nobody has freed yet.
    live: Option<HashMap<usize, usize>>,
    /// What they freed.
    kept: Vec<(usize, Layout)>,
}

static KNOWN: Mutex<Known> = Mutex::new(Known {
    live: None,
    kept: Vec::new(),
});

thread_local! {
    /// Which of this thread's next requests is refused, counted from 1; and how many it made since that was said.
    static REFUSED: Cell<(u32, u32)> = const { Cell::new((0, 0)) };
    /// What is done at that request, in place of refusing it.
    static HOOK: Cell<Option<Hook>> = const { Cell::new(None) };
    /// Whether this thread does something with `KNOWN`, which takes and frees memory itself.
    static KNOWS: Cell<bool> = const { Cell::new(false) };
}

fn known() -> MutexGuard<'static, Known> {
    KNOWN.lock().unwrap_or_else(PoisonError::into_inner)
}

/// Does something with what is known, but within itself.
fn with_known(with: impl FnOnce(&mut Known)) {
    if KNOWS.try_with(|knows| knows.replace(true)) == Ok(false) {
        run::unwatched(|| with(&mut known()));
        KNOWS.set(false);
    }
}

// SAFETY: the system's allocator. Memory that isn't freed at once is freed later, once, by its own layout: before that nobody gets it.
unsafe impl GlobalAlloc for Heap {
    unsafe fn alloc(&self, layout: Layout) -> *mut u8 {
        if is_refused() {
            return ptr::null_mut();
        }
        // SAFETY: the caller's.
        let at = unsafe { System.alloc(layout) };
        begun(at, layout);
        at
    }

    unsafe fn alloc_zeroed(&self, layout: Layout) -> *mut u8 {
        if is_refused() {
            return ptr::null_mut();
        }
        // SAFETY: the caller's.
        let at = unsafe { System.alloc_zeroed(layout) };
        begun(at, layout);
        at
    }

    unsafe fn dealloc(&self, at: *mut u8, layout: Layout) {
        let from = at as usize;
        let watched = run::is_watched();
        if watched && !run::free(from..from + layout.size()) {
            return;
        }
        with_known(|known| {
            known.live.as_mut().map(|live| live.remove(&from));
            if watched {
                known.kept.push((from, layout));
            }
        });
        if watched {
            // SAFETY: the caller gives the memory up.
            unsafe { at.write_bytes(GONE, layout.size()) };
        } else {
            // SAFETY: the caller's.
            unsafe { System.dealloc(at, layout) };
        }
    }
}

type Hook = *const dyn Fn();

/// Does something of which the request of this number, counted from 1, is refused. Answers whether it came so far.
pub fn refusing<R>(number: u32, with: impl FnOnce() -> R) -> (R, bool) {
    REFUSED.set((number, 0));
    let answer = with();
    let (_, requests) = REFUSED.replace((0, 0));
    (answer, requests >= number)
}

/// Does something at whose request of this number the allocator calls the hook. Answers whether it came so far.
pub fn interrupting<'h, R>(
    number: u32,
    hook: &'h (dyn Fn() + 'h),
    with: impl FnOnce() -> R,
) -> (R, bool) {
    // SAFETY: only the lifetime differs, and nobody calls it when this has returned.
    let hook: &'static dyn Fn() = unsafe { mem::transmute(hook) };
    HOOK.set(Some(hook));
    let answer = refusing(number, with);
    HOOK.set(None);
    answer
}

/// Whether the request that a thread of a schedule makes now is to be refused.
fn is_refused() -> bool {
    let (number, requests) = REFUSED.get();
    if number == 0 || !run::is_watched() {
        return false;
    }
    REFUSED.set((number, requests + 1));
    if requests + 1 != number {
        return false;
    }
    match HOOK.take() {
        None => true,
        Some(hook) => {
            // SAFETY: `interrupting` hasn't returned.
            unsafe { (*hook)() };
            false
        }
    }
}

fn begun(at: *mut u8, layout: Layout) {
    if run::is_watched() {
        let from = at as usize;
        run::begin(from..from + layout.size());
        with_known(|known| {
            let live = known.live.get_or_insert_default();
            live.insert(from, layout.size());
        });
    }
}

/// How many pieces of memory, and of how many bytes, a schedule left that has ended. What its threads freed is freed now.
pub(crate) fn settle() -> (usize, usize) {
    let (mut live, mut kept) = (HashMap::new(), Vec::new());
    with_known(|known| {
        live = known.live.take().unwrap_or_default();
        kept = mem::take(&mut known.kept);
    });
    for (at, layout) in kept {
        // SAFETY: it was to be freed by this layout, and is so once.
        unsafe { System.dealloc(at as *mut u8, layout) };
    }
    (live.len(), live.values().sum())
}
