//! A heap that refuses, and counts what isn't given back.
use super::*;

/// The system's memory, which refuses one request within `tried`.
struct Refusing;

#[global_allocator]
static HEAP: Refusing = Refusing;

thread_local! {
    /// Whether a call is looked at.
    pub(crate) static LOOKS: Cell<bool> = const { Cell::new(false) };
    /// How many requests are granted before one is refused.
    pub(crate) static GRANTED: Cell<u32> = const { Cell::new(u32::MAX) };
    pub(crate) static REQUESTS: Cell<u32> = const { Cell::new(0) };
    pub(crate) static REFUSED: Cell<u32> = const { Cell::new(0) };
    /// The blocks of this thread that are not freed.
    pub(crate) static BLOCKS: Cell<isize> = const { Cell::new(0) };
}

/// Whether this request is granted.
fn grants() -> bool {
    if !LOOKS.get() {
        return true;
    }
    REQUESTS.set(REQUESTS.get() + 1);
    match GRANTED.get() {
        0 => {
            GRANTED.set(u32::MAX);
            REFUSED.set(REFUSED.get() + 1);
            false
        }
        left => {
            GRANTED.set(left.saturating_sub(u32::from(left != u32::MAX)));
            true
        }
    }
}

/// A block that was granted counts.
fn counted(block: *mut u8) -> *mut u8 {
    BLOCKS.set(BLOCKS.get() + isize::from(!block.is_null()));
    block
}

// SAFETY: each block is the system's, or null, as a refusal is told.
unsafe impl GlobalAlloc for Refusing {
    unsafe fn alloc(&self, layout: Layout) -> *mut u8 {
        if grants() {
            // SAFETY: the caller keeps what `System` asks.
            counted(unsafe { System.alloc(layout) })
        } else {
            std::ptr::null_mut()
        }
    }

    unsafe fn alloc_zeroed(&self, layout: Layout) -> *mut u8 {
        if grants() {
            // SAFETY: the caller keeps what `System` asks.
            counted(unsafe { System.alloc_zeroed(layout) })
        } else {
            std::ptr::null_mut()
        }
    }

    unsafe fn realloc(&self, block: *mut u8, layout: Layout, size: usize) -> *mut u8 {
        if grants() {
            // SAFETY: the caller keeps what `System` asks.
            unsafe { System.realloc(block, layout, size) }
        } else {
            std::ptr::null_mut()
        }
    }

    unsafe fn dealloc(&self, block: *mut u8, layout: Layout) {
        BLOCKS.set(BLOCKS.get() - 1);
        // SAFETY: the caller keeps what `System` asks.
        unsafe { System.dealloc(block, layout) }
    }
}

/// A call that is looked at.
pub(crate) fn tried<R>(call: impl FnOnce() -> R) -> R {
    LOOKS.set(true);
    let answer = call();
    LOOKS.set(false);
    answer
}

/// A call that asks for no memory.
pub(crate) fn takes_none<R>(call: impl FnOnce() -> R) -> R {
    let before = REQUESTS.get();
    let answer = tried(call);
    assert_eq!(REQUESTS.get(), before, "the call asked for memory");
    answer
}

/// A call that may be refused memory, and then answers this; made once more, it succeeds, as nothing was lost.
pub(crate) fn again<R, E: PartialEq + std::fmt::Debug>(
    refusal: E,
    mut call: impl FnMut() -> Result<R, E>,
) -> R {
    let before = REFUSED.get();
    match tried(&mut call) {
        Ok(answer) => {
            assert_eq!(REFUSED.get(), before, "a refusal was passed over");
            answer
        }
        Err(fault) => {
            assert_eq!(fault, refusal);
            assert_eq!(REFUSED.get(), before + 1, "nothing was refused");
            call().expect("the same call once more")
        }
    }
}
