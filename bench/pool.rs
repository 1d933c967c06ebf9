//! The independent program's desks and messages have their digits on the heap. Built with `--cfg pool`, the heap is this: freed blocks are kept by
//! size and handed out again, in a handful of instructions. What is then left of the difference is not the allocator's.

use std::alloc::{GlobalAlloc, Layout, System};
use std::cell::UnsafeCell;

const SIZES: usize = 16;

/// The last freed block of each size; a freed block's first word is the one freed before it.
struct Pool(UnsafeCell<[*mut u8; SIZES]>);

// The benchmark has one thread.
unsafe impl Sync for Pool {}

#[global_allocator]
static POOL: Pool = Pool(UnsafeCell::new([std::ptr::null_mut(); SIZES]));

fn size(layout: &Layout) -> usize {
    (layout.size() + 15) / 16
}

unsafe impl GlobalAlloc for Pool {
    #[inline]
    unsafe fn alloc(&self, layout: Layout) -> *mut u8 {
        let size = size(&layout);
        if size >= SIZES || layout.align() > 16 {
            return System.alloc(layout);
        }
        let first = &mut (*self.0.get())[size];
        if first.is_null() {
            return System.alloc(Layout::from_size_align_unchecked(size.max(1) * 16, 16));
        }
        let block = *first;
        *first = *block.cast::<*mut u8>();
        block
    }

    #[inline]
    unsafe fn dealloc(&self, block: *mut u8, layout: Layout) {
        let size = size(&layout);
        if size >= SIZES || layout.align() > 16 {
            return System.dealloc(block, layout);
        }
        let first = &mut (*self.0.get())[size];
        *block.cast::<*mut u8>() = *first;
        *first = block;
    }
}
