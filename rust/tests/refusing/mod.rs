//! Refuses one allocation of a thread: one that the library asks for, or one that this crate asks
//! for by itself. It stands in the place of the allocator of Rust and of the process's `malloc`.

use std::alloc::{GlobalAlloc, Layout, System};
use std::cell::Cell;
use std::ffi::c_void;
use std::ptr;

/// Who asks for memory.
#[derive(Clone, Copy, PartialEq)]
pub enum By {
    Library,
    Rust,
}

thread_local! {
    // How many allocations are made before one is refused, and whose are counted.
    static LEFT: Cell<usize> = const { Cell::new(usize::MAX) };
    static WHOSE: Cell<By> = const { Cell::new(By::Library) };
    // Who asks now.
    static NOW: Cell<By> = const { Cell::new(By::Library) };
}

extern "C" {
    fn __libc_malloc(size: usize) -> *mut c_void;
    fn __libc_realloc(at: *mut c_void, size: usize) -> *mut c_void;
}

fn is_refused(by: By) -> bool {
    if WHOSE.with(Cell::get) != by {
        return false;
    }
    LEFT.with(|left| {
        let now = left.get();
        left.set(if now == 0 { usize::MAX } else { now - 1 });
        now == 0
    })
}

/// Whether the library asks, and is refused.
fn library_is_refused() -> bool {
    NOW.with(Cell::get) == By::Library && is_refused(By::Library)
}

/// The library's calls come here, as all of the process do.
#[no_mangle]
extern "C" fn malloc(size: usize) -> *mut c_void {
    if library_is_refused() {
        return ptr::null_mut();
    }
    // SAFETY: any size may be asked for.
    unsafe { __libc_malloc(size) }
}

/// # Safety
///
/// As of the system's.
#[no_mangle]
unsafe extern "C" fn realloc(at: *mut c_void, size: usize) -> *mut c_void {
    if library_is_refused() {
        return ptr::null_mut();
    }
    __libc_realloc(at, size)
}

/// What the system gives to Rust, or null if it is refused.
fn in_rust(ask: impl FnOnce() -> *mut u8) -> *mut u8 {
    if is_refused(By::Rust) {
        return ptr::null_mut();
    }
    let before = NOW.with(|now| now.replace(By::Rust));
    let given = ask();
    NOW.with(|now| now.set(before));
    given
}

/// The system's allocator for Rust.
struct Refuses;

// SAFETY: all is the system's allocator's, and a null is an answer.
unsafe impl GlobalAlloc for Refuses {
    unsafe fn alloc(&self, layout: Layout) -> *mut u8 {
        in_rust(|| System.alloc(layout))
    }

    unsafe fn alloc_zeroed(&self, layout: Layout) -> *mut u8 {
        in_rust(|| System.alloc_zeroed(layout))
    }

    unsafe fn realloc(&self, at: *mut u8, layout: Layout, bytes: usize) -> *mut u8 {
        in_rust(|| System.realloc(at, layout, bytes))
    }

    unsafe fn dealloc(&self, at: *mut u8, layout: Layout) {
        System.dealloc(at, layout);
    }
}

#[global_allocator]
static ALLOCATOR: Refuses = Refuses;

/// What the call gives if the allocation of this number is refused, of those that this one asks
/// for, and whether that came to be.
pub fn with_refusal<R>(by: By, number: usize, call: impl FnOnce() -> R) -> (R, bool) {
    WHOSE.with(|whose| whose.set(by));
    LEFT.with(|left| left.set(number));
    let done = call();
    let left = LEFT.with(|left| left.replace(usize::MAX));
    // A count that was passed by begins anew from the greatest number.
    (done, left > number)
}
