//! An asymmetric fence. A thread that passes often has a light one, which costs it nothing; one
//! that passes seldom has a heavy one, by which the system fences every thread of the process that
//! runs, also those that had the light one. So of two threads that each store, have their fence and
//! load what the other has stored, one sees the other's store at least, as if both had a full
//! fence.
//!
//! The heavy one is Linux's `membarrier`, here on x86-64 alone. Elsewhere, and where the system
//! refuses it, there is none, and nobody may rest on a light one.

use std::io::Write;
use std::sync::atomic::{compiler_fence, Ordering};
use std::sync::OnceLock;
use std::{env, io, process};

/// What the process has of it.
#[derive(Clone, Copy, PartialEq)]
enum Fence {
    Missing,
    There,
    /// Agreed to, and refused whenever it is asked for: for a test of what comes of that.
    Refused,
}

/// Whether there are heavy fences. The system is asked once.
pub(super) fn is_there() -> bool {
    asked() != Fence::Missing
}

/// What comes before it in this thread's code is done before what comes after it, as far as the
/// compiler goes; and for the processor too, where another thread has a heavy fence.
#[inline(always)]
#[allow(clippy::inline_always)] // It is no instruction.
pub(super) fn light() {
    compiler_fence(Ordering::SeqCst);
}

/// Has each thread of the process, this one too, do what comes before its fence, light or heavy,
/// before what comes after. Only where there are such fences.
///
/// Where the system refuses one to which it had agreed, as it may once a filter of calls was set
/// up, the process ends: what a seat keeps can't be taken back from it any more, and who wants it
/// would wait for ever.
pub(super) fn heavy() {
    let is_had = || system::fence() || (system::register() && system::fence());
    if asked() == Fence::Refused || !is_had() {
        give_up();
    }
}

#[cold]
fn give_up() -> ! {
    // It is only told where it can be.
    let _ = writeln!(
        io::stderr(),
        "teurlaks: the system refuses membarrier, to which it had agreed; TEURLAKS_FENCE=missing does without"
    );
    process::abort()
}

/// What there is, or what the variable `TEURLAKS_FENCE` says.
fn asked() -> Fence {
    static ASKED: OnceLock<Fence> = OnceLock::new();
    *ASKED.get_or_init(|| {
        let told = env::var("TEURLAKS_FENCE").unwrap_or_default();
        match told.as_str() {
            "missing" => Fence::Missing,
            "refused" => Fence::Refused,
            _ if system::register() => Fence::There,
            _ => Fence::Missing,
        }
    })
}

#[cfg(all(target_os = "linux", target_arch = "x86_64"))]
mod system {
    use std::ffi::{c_int, c_long, c_uint};
    use std::sync::atomic::{fence as full_fence, Ordering};

    const MEMBARRIER: c_long = 324;
    const PRIVATE_EXPEDITED: c_int = 1 << 3;
    const REGISTER_PRIVATE_EXPEDITED: c_int = 1 << 4;

    extern "C" {
        fn syscall(number: c_long, ...) -> c_long;
    }

    /// Whether the system agrees to fence this process.
    pub fn register() -> bool {
        membarrier(REGISTER_PRIVATE_EXPEDITED)
    }

    pub fn fence() -> bool {
        full_fence(Ordering::SeqCst);
        membarrier(PRIVATE_EXPEDITED)
    }

    fn membarrier(command: c_int) -> bool {
        let (flags, processor): (c_uint, c_int) = (0, 0);
        // SAFETY: the call takes these three numbers, and reads and writes no memory of the
        // process.
        let is_done = unsafe { syscall(MEMBARRIER, command, flags, processor) == 0 };
        #[cfg(test)]
        super::tests::count(is_done && command == PRIVATE_EXPEDITED);
        is_done
    }
}

#[cfg(not(all(target_os = "linux", target_arch = "x86_64")))]
mod system {
    pub fn register() -> bool {
        false
    }

    pub fn fence() -> bool {
        false
    }
}

#[cfg(test)]
pub(super) mod tests {
    use crate::arena::{Arena, Seat};
    use crate::{Key, Limits, Refused};
    use std::sync::atomic::{AtomicUsize, Ordering};
    use std::sync::{Mutex, MutexGuard, PoisonError};

    static FENCES: AtomicUsize = AtomicUsize::new(0);

    /// Has a test whose fences count be the only one, since the count is the process's.
    pub fn alone() -> MutexGuard<'static, ()> {
        static ALONE: Mutex<()> = Mutex::new(());
        ALONE.lock().unwrap_or_else(PoisonError::into_inner)
    }

    /// Counts a fence that the system has had.
    pub fn count(is_done: bool) {
        FENCES.fetch_add(usize::from(is_done), Ordering::Relaxed);
    }

    /// How many fences there were since those.
    fn fences(before: usize) -> usize {
        FENCES.load(Ordering::Relaxed) - before
    }

    /// So many values, after which the seat keeps its shard.
    fn fill(seat: &mut Seat<u64>) -> Result<Vec<Key>, Refused> {
        let keys = (0..64).map(|value| seat.insert(value)).collect();
        assert!(seat.keeps_its_shard());
        keys
    }

    #[test]
    fn who_takes_back_has_one_fence() -> Result<(), Refused> {
        if !super::is_there() {
            return Ok(());
        }
        let limits = Limits {
            shards: 3,
            ..Limits::default()
        };
        let _alone = alone();
        let before = fences(0);
        let mut arena = Arena::open(limits)?;
        let (mut first, mut second, third) = (arena.seat()?, arena.seat()?, arena.seat()?);
        let (keys, others) = (fill(&mut first)?, fill(&mut second)?);
        assert!((0..1000).all(|_| first.contains(keys[0])));
        assert_eq!(fences(before), 0, "who keeps its shard has none");
        assert_eq!((third.get(keys[7]), fences(before)), (Some(7), 1));
        assert_eq!((third.get(keys[8]), fences(before)), (Some(8), 1));
        assert_eq!((third.get(others[7]), fences(before)), (Some(7), 2));
        // The steward takes all of them behind one.
        assert!((0..9000).all(|_| first.contains(keys[0]) && second.contains(others[0])));
        assert!(first.keeps_its_shard() && second.keeps_its_shard());
        assert_eq!((arena.totals().live, fences(before)), (128, 3));
        assert!(!first.keeps_its_shard() && !second.keeps_its_shard());
        Ok(())
    }
}
