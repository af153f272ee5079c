//! How much of the heap a store takes.
use crate::stores::Store;
use std::mem;

/// What glibc says of its heap (`mallinfo2`, from 2.33 on).
#[repr(C)]
struct Heap {
    arena: usize,
    free_blocks: usize,
    fast_blocks: usize,
    mapped_blocks: usize,
    mapped_bytes: usize,
    most_bytes: usize,
    fast_bytes: usize,
    used_bytes: usize,
    free_bytes: usize,
    bytes_at_top: usize,
}

extern "C" {
    #[link_name = "mallinfo2"]
    fn heap() -> Heap;
}

/// The bytes of the heap in use, with what the allocator takes for each block.
fn bytes_in_use() -> usize {
    // SAFETY: the function has no conditions, and a `Heap` is its `struct mallinfo2`.
    let heap = unsafe { heap() };
    heap.mapped_bytes + heap.used_bytes
}

/// By how many bytes the heap grows for a fresh store with so many buffers.
pub fn bytes_of<S: Store + Default>(count: u64) -> u64 {
    let mut handles = Vec::with_capacity(count as usize);
    let before = bytes_in_use();
    let store = S::default();
    handles.extend((0..count).map(|_| store.put()));
    let after = bytes_in_use();
    mem::forget((store, handles));
    (after - before) as u64
}
