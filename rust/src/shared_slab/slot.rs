//! One slot of a shared slab: whose value it has, and who may touch that.

use std::sync::atomic::{AtomicU64, Ordering};

/// The value may be pinned. Nobody but the threads that have a pin touch it.
const OPEN: u64 = 1 << 63;

/// The value is removed: nobody pins it any more, and the last pin claims it.
const REMOVED: u64 = 1 << 62;

/// Of a removed value: it is cleared and kept as a spare, and not dropped.
const CLEARED: u64 = 1 << 61;

/// Of a removed value: a thread waits for it, which claims it in place of the last pin.
const AWAITED: u64 = 1 << 60;

/// A slot. Zeros are one that has no value.
///
/// The state is the number of pins in its lower bits, and the flags above. While it is not open it
/// has no pin, and one thread alone may touch it: the one that claimed it or has its vacant entry,
/// and else the one that has the lock of the shard.
#[repr(C)]
pub(super) struct Slot {
    name: AtomicU64,
    state: AtomicU64,
}

/// What is to become of a removed value, for whoever has claimed it.
#[derive(Clone, Copy, Debug, PartialEq, Eq)]
pub(super) enum Claim {
    Drop,
    Clear,
}

/// What came of a pin.
pub(super) enum Pin {
    Held,
    /// The slot is not open, its value is removed, or it has another name. If a value of another
    /// name was removed meanwhile, and this was its last pin, it is claimed.
    Failed(Option<Claim>),
}

impl Slot {
    /// Pins the value if it has this name: it stays where it is until the pin is let go of.
    ///
    /// Any thread may ask at any time, also for a slot whose value went or moved long ago. Only an
    /// open slot is pinned, so the thread that has a closed one may store its state. The pin comes
    /// before the look at the name, which stays what it is while there is a pin.
    #[inline]
    pub fn pin(&self, name: u64) -> Pin {
        // Most often it is open without a pin. To load the state first would fetch its line twice.
        let mut state = OPEN;
        while state & (OPEN | REMOVED) == OPEN {
            match self.replace(state, state + 1) {
                Ok(_) if self.name() == name => return Pin::Held,
                Ok(_) => return Pin::Failed(self.unpin()),
                Err(found) => state = found,
            }
        }
        Pin::Failed(None)
    }

    /// Lets a pin go. Where it was the last one of a removed value, that is claimed.
    #[inline]
    pub fn unpin(&self) -> Option<Claim> {
        let before = self.state.fetch_sub(1, Ordering::Release);
        if before & REMOVED == 0 {
            return None;
        }
        self.claim()
    }

    /// Claims a removed value that nobody pins and nobody waits for. One thread alone does.
    #[cold]
    pub fn claim(&self) -> Option<Claim> {
        if self.close_from(OPEN | REMOVED) {
            return Some(Claim::Drop);
        }
        self.close_from(OPEN | REMOVED | CLEARED)
            .then_some(Claim::Clear)
    }

    /// Claims a removed value for the thread that waits for it, if nobody pins it.
    pub fn claim_awaited(&self) -> bool {
        self.close_from(OPEN | REMOVED | AWAITED)
    }

    /// Closes a slot whose value nobody pins, and says whether it did.
    #[inline]
    pub fn close(&self) -> bool {
        self.close_from(OPEN)
    }

    #[inline]
    fn close_from(&self, state: u64) -> bool {
        self.replace(state, 0).is_ok()
    }

    /// Gives it another state in place of this one, or says which one it has.
    #[inline]
    fn replace(&self, state: u64, by: u64) -> Result<u64, u64> {
        self.state
            .compare_exchange(state, by, Ordering::Acquire, Ordering::Relaxed)
    }

    /// Opens a closed slot, whose name and value are there. Nobody else changes its state.
    #[inline]
    pub fn open(&self) {
        self.state.store(OPEN, Ordering::Release);
    }

    /// Opens a closed slot as `open` does, with a pin for this thread.
    #[inline]
    pub fn open_pinned(&self) {
        self.state.store(OPEN + 1, Ordering::Release);
    }

    /// Pins a value that is live, for whoever has the lock.
    #[inline]
    pub fn pin_live(&self) {
        self.state.fetch_add(1, Ordering::Acquire);
    }

    /// Marks the value of an open slot as removed.
    pub fn remove(&self, then: Claim) {
        let mark = match then {
            Claim::Drop => REMOVED,
            Claim::Clear => REMOVED | CLEARED,
        };
        self.state.fetch_or(mark, Ordering::Release);
    }

    /// Marks the value of an open slot as removed, and as awaited by this thread.
    pub fn remove_awaited(&self) {
        self.state.fetch_or(REMOVED | AWAITED, Ordering::Release);
    }

    /// Whether its value is there and not removed. Whoever has the lock asks.
    #[inline]
    pub fn is_live(&self) -> bool {
        self.state.load(Ordering::Relaxed) & (OPEN | REMOVED) == OPEN
    }

    /// Whether a value is there, be it removed or not. Whoever has the slab alone asks.
    pub fn is_open(&self) -> bool {
        self.state.load(Ordering::Relaxed) & OPEN != 0
    }

    /// The name, or 0 if there is none. Whoever has the lock, a pin or a claim asks.
    #[inline]
    pub fn name(&self) -> u64 {
        self.name.load(Ordering::Relaxed)
    }

    /// Names a closed slot, or takes its name. Whoever has the lock does.
    #[inline]
    pub fn set_name(&self, name: u64) {
        self.name.store(name, Ordering::Relaxed);
    }
}

#[cfg(test)]
mod tests {
    use super::{Claim, Pin, Slot};
    use std::sync::atomic::AtomicU64;

    fn closed(name: u64) -> Slot {
        Slot {
            name: AtomicU64::new(name),
            state: AtomicU64::new(0),
        }
    }

    #[test]
    fn only_an_open_slot_is_pinned() {
        let slot = closed(7);
        assert!(matches!(slot.pin(7), Pin::Failed(None)));
        slot.open();
        assert!(matches!(slot.pin(8), Pin::Failed(None)));
        assert!(slot.close(), "a pin that failed is let go of");
        slot.open_pinned();
        assert!(matches!(slot.pin(7), Pin::Held) && !slot.close());
        assert!(slot.unpin().is_none() && !slot.close());
        assert!(slot.unpin().is_none() && slot.close());
    }

    #[test]
    fn the_last_pin_claims_what_was_removed() {
        for then in [Claim::Drop, Claim::Clear] {
            let slot = closed(7);
            slot.open();
            assert!(matches!(slot.pin(7), Pin::Held) && matches!(slot.pin(7), Pin::Held));
            slot.remove(then);
            assert!(matches!(slot.pin(7), Pin::Failed(None)) && !slot.is_live());
            assert_eq!((slot.unpin(), slot.claim()), (None, None));
            assert_eq!((slot.unpin(), slot.is_open()), (Some(then), false));
        }
    }

    #[test]
    fn what_is_awaited_is_for_the_thread_that_waits() {
        let slot = closed(7);
        slot.open_pinned();
        slot.remove_awaited();
        assert!(!slot.claim_awaited() && slot.unpin().is_none());
        assert!(slot.claim_awaited() && !slot.claim_awaited());
    }
}
