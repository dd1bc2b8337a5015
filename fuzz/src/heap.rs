//! A heap for one case at a time. Most of the second engine's time would go into
//! allocating and freeing; here the memory of a case is handed out in one
//! direction and taken back all at once.

use std::alloc::{GlobalAlloc, Layout, System};
use std::cell::Cell;
use std::ptr;

/// Enough for nearly every case; what does not fit comes from the system.
const SIZE: usize = 1 << 24;

/// A thread's region: where it begins, how much of it is used, and whether it is
/// in use.
struct Region {
    start: Cell<*mut u8>,
    used: Cell<usize>,
    active: Cell<bool>,
}

thread_local! {
    static REGION: Region = const {
        Region { start: Cell::new(ptr::null_mut()), used: Cell::new(0), active: Cell::new(false) }
    };
}

/// Runs something whose memory is not needed afterwards. What it gives must hold
/// no memory of its own.
pub fn at_once<T: Copy>(run: impl FnOnce() -> T) -> T {
    REGION.with(|region| {
        if region.start.get().is_null() {
            // Safety: the layout is not empty.
            region.start.set(unsafe { System.alloc(Layout::new::<[u128; SIZE / 16]>()) });
        }
        region.active.set(!region.start.get().is_null());
    });
    let result = run();
    REGION.with(|region| {
        region.active.set(false);
        region.used.set(0);
    });
    result
}

struct Heap;

#[global_allocator]
static HEAP: Heap = Heap;

// Safety: a block is handed out once until all are taken back, within the region
// and aligned, or comes from the system and goes back there.
unsafe impl GlobalAlloc for Heap {
    unsafe fn alloc(&self, layout: Layout) -> *mut u8 {
        REGION.with(|region| {
            let start = region.used.get().next_multiple_of(layout.align());
            let end = start + layout.size();
            if !region.active.get() || layout.align() > 16 || end > SIZE {
                return unsafe { System.alloc(layout) };
            }
            region.used.set(end);
            unsafe { region.start.get().add(start) }
        })
    }

    unsafe fn dealloc(&self, block: *mut u8, layout: Layout) {
        REGION.with(|region| {
            let at = (block as usize).wrapping_sub(region.start.get() as usize);
            if at >= SIZE || region.start.get().is_null() {
                unsafe { System.dealloc(block, layout) }
            } else if at + layout.size() == region.used.get() {
                region.used.set(at);
            }
        })
    }
}
