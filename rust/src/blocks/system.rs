//! What is asked of the system, by the numbers that Linux has for it on the only processor for
//! which there is an archive.

use std::ptr::{self, NonNull};
use std::sync::atomic::{AtomicBool, Ordering};

#[cfg(not(all(target_os = "linux", target_arch = "x86_64")))]
compile_error!("the archive is for Linux on x86-64");

const PROT_READ: i32 = 1;
const PROT_WRITE: i32 = 2;
const MAP_PRIVATE: i32 = 2;
const MAP_ANONYMOUS: i32 = 0x20;
const MAP_NORESERVE: i32 = 0x4000;
const MADV_DONTNEED: i32 = 4;
const MADV_NOHUGEPAGE: i32 = 15;
const PROCESS_MADVISE: i64 = 440;
const THIS_PROCESS: i32 = -10_000;

/// How many runs one call hands over at most.
const MOST_RUNS: usize = 64;

extern "C" {
    fn mmap(
        at: *mut u8,
        len: usize,
        protection: i32,
        flags: i32,
        file: i32,
        offset: i64,
    ) -> *mut u8;
    fn munmap(at: *mut u8, len: usize) -> i32;
    fn madvise(at: *mut u8, len: usize, advice: i32) -> i32;
    fn syscall(number: i64, ...) -> i64;
}

/// So many bytes of zeros, which take memory as they are touched, or none.
pub fn map(len: usize) -> Option<NonNull<u8>> {
    let flags = MAP_PRIVATE | MAP_ANONYMOUS | MAP_NORESERVE;
    // SAFETY: a new mapping touches no memory that there is.
    let at = unsafe { mmap(ptr::null_mut(), len, PROT_READ | PROT_WRITE, flags, -1, 0) };
    if at as isize == -1 {
        return None;
    }
    // A huge page would be memory for many blocks, used or not. That the system has none is no
    // matter. SAFETY: the mapping was just made, and the advice changes no byte of it.
    unsafe { madvise(at, len, MADV_NOHUGEPAGE) };
    NonNull::new(at)
}

/// # Safety
///
/// The bytes are of mappings of `map`, whole system pages of them, and nobody reads them before
/// they are written again, or minds that they are zeros.
pub unsafe fn release(at: *mut u8, len: usize) {
    madvise(at, len, MADV_DONTNEED);
}

/// Memory that is handed to the system: of many runs by one call, if it takes that.
pub struct Runs {
    runs: [Run; MOST_RUNS],
    len: usize,
}

/// What Linux calls an `iovec`.
#[repr(C)]
#[derive(Clone, Copy)]
struct Run {
    at: *mut u8,
    len: usize,
}

impl Runs {
    /// No run.
    pub fn new() -> Runs {
        let none = Run {
            at: ptr::null_mut(),
            len: 0,
        };
        Runs {
            runs: [none; MOST_RUNS],
            len: 0,
        }
    }

    /// Adds the bytes. Those that begin within the last ones, or right behind, lengthen that run.
    ///
    /// # Safety
    ///
    /// As of `release`, until the runs are released; and bytes that begin within the last ones go
    /// as far at least.
    pub unsafe fn add(&mut self, at: *mut u8, len: usize) {
        if let Some(last) = self.runs[..self.len].last_mut() {
            let before = (at as usize).wrapping_sub(last.at as usize);
            if before <= last.len {
                last.len = before + len;
                return;
            }
        }
        if self.len == MOST_RUNS {
            self.release();
        }
        self.runs[self.len] = Run { at, len };
        self.len += 1;
    }

    /// Hands them to the system.
    pub fn release(&mut self) {
        let runs = &self.runs[..std::mem::take(&mut self.len)];
        if runs.len() > 1 && release_at_once(runs) {
            return;
        }
        for run in runs {
            // SAFETY: who added the bytes said so.
            unsafe { release(run.at, run.len) }
        }
    }
}

/// Whether the system has refused to take runs by one call.
pub static IS_ONE_BY_ONE: AtomicBool = AtomicBool::new(false);

/// Hands the runs to the system by one call, and says whether that took all of them. A system that
/// refuses is not asked again.
fn release_at_once(runs: &[Run]) -> bool {
    if IS_ONE_BY_ONE.load(Ordering::Relaxed) {
        return false;
    }
    let (at, count) = (runs.as_ptr(), runs.len());
    // SAFETY: as of `release`, of each run; and the runs are lent for the call.
    let taken = unsafe { syscall(PROCESS_MADVISE, THIS_PROCESS, at, count, MADV_DONTNEED, 0) };
    if taken < 0 {
        IS_ONE_BY_ONE.store(true, Ordering::Relaxed);
    }
    usize::try_from(taken) == Ok(runs.iter().map(|run| run.len).sum())
}

/// # Safety
///
/// It is a mapping of `map`, of so many bytes, that nobody uses any more.
pub unsafe fn unmap(at: *mut u8, len: usize) {
    munmap(at, len);
}
