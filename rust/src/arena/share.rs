//! A handle to a steward, and calls that wait where another thread has a lock.

use super::inside;
use super::lane::{AllLanes, Owner, Taker, SLEEP};
use crate::raw;
use std::cell::UnsafeCell;
use std::sync::atomic::{AtomicBool, AtomicU32, AtomicU64, Ordering};
use std::sync::{Arc, Mutex, PoisonError};
use std::time::{Duration, Instant};
use std::{hint, mem, ptr, thread};

/// A handle to the steward of an arena.
pub(super) struct Share {
    // SAFETY: only this module has it, so it is what the library left there until `drop`. A call
    // through `&self` writes to it, and none runs beside another, since the type is not `Sync` and
    // no call calls back.
    handle: UnsafeCell<raw::ShareHandle>,
}

impl Share {
    /// A handle of nothing, which is dropped as any other.
    fn nothing() -> Share {
        Share {
            handle: UnsafeCell::new(raw::ShareHandle {
                at: ptr::null_mut(),
            }),
        }
    }

    /// What the call leaves to a handle of nothing, or the status where that is not `OK`.
    pub fn new(leave: impl FnOnce(*mut raw::ShareHandle) -> u32) -> Result<Share, u32> {
        let share = Share::nothing();
        match leave(share.handle()) {
            raw::OK => Ok(share),
            other => Err(other),
        }
    }

    /// Where the handle is, for one call.
    #[inline]
    pub fn handle(&self) -> *mut raw::ShareHandle {
        self.handle.get()
    }

    /// Takes what the handle has, and leaves it nothing.
    pub fn take(&mut self) -> Share {
        mem::replace(self, Share::nothing())
    }
}

// SAFETY: that a handle may go to another thread is proved in `crates/teurlaks_c` (`unsafe impl
// Send for ShareHandle`, with its proof), and moves of the share order the calls.
unsafe impl Send for Share {}

impl Drop for Share {
    fn drop(&mut self) {
        // SAFETY: the handle has what the library left there, or nothing, and nothing uses it
        // after.
        unsafe { raw::teurlaks_share_drop(self.handle.get()) }
    }
}

/// What a call of a seat or a steward answers.
pub(super) trait Answer {
    fn status(&self) -> u32;
}

impl Answer for u32 {
    #[inline]
    fn status(&self) -> u32 {
        *self
    }
}

macro_rules! answers {
    ($($reply:ident),*) => {
        $(impl Answer for raw::$reply {
            #[inline]
            fn status(&self) -> u32 {
                self.status
            }
        })*
    };
}

answers!(
    PutReply,
    WordsReply,
    NextReply,
    TendReply,
    RetireReply,
    TrimReply,
    GatherReply,
    AdoptReply,
    MarkReply,
    StepReply,
    ForgetReply,
    ArenaTotalsReply
);

/// Where what a call asks for is, and so whose shard it may need.
#[derive(Clone, Copy)]
pub(super) enum Place {
    /// In the caller's own shard, or in the pool.
    Here,
    /// In the shard of this number, or where its keys have moved.
    Named(u32),
    Anywhere,
}

impl Place {
    /// Whether it is the lane's own shard.
    #[inline]
    pub fn is_of(self, lane: &Owner) -> bool {
        match self {
            Place::Here => true,
            Place::Named(shard) => shard == lane.shard(),
            Place::Anywhere => false,
        }
    }
}

/// What the steward of an arena and its seats tell each other: whether the steward waits, and which
/// lanes keep their shards.
///
/// The steward needs all locks at once, which threads that call without a pause hardly ever leave,
/// so these let it go first. It is a hint: who finds what rests on the locks alone.
#[derive(Clone)]
pub(super) struct Turn {
    shared: Arc<Shared>,
}

struct Shared {
    steward_waits: AtomicBool,
    lanes: AllLanes,
    // The steward of an arena that was dropped in a session of its own thread, with a plan that is
    // still open.
    left: Mutex<Option<Share>>,
    has_left: AtomicBool,
    // How often the steward has asked the seats to retire groups, and how many each of them: the
    // halves of a number.
    asked: AtomicU64,
    // How many seats have done what was asked last.
    helpers: AtomicU32,
}

/// What the steward has asked its seats for.
#[derive(Clone, Copy)]
pub(super) struct Asked {
    /// How often it has asked, of which no two times that follow each other have the same number.
    pub round: u32,
    /// How many groups each seat is to retire.
    pub most: u32,
}

impl Turn {
    /// That of an arena of so many shards, with the owners of their lanes.
    pub fn new(shards: u32) -> (Turn, Vec<Owner>) {
        let (lanes, owners) = AllLanes::new(shards);
        let shared = Shared {
            steward_waits: AtomicBool::new(false),
            lanes,
            left: Mutex::new(None),
            has_left: AtomicBool::new(false),
            asked: AtomicU64::new(0),
            helpers: AtomicU32::new(0),
        };
        let shared = Arc::new(shared);
        (Turn { shared }, owners)
    }

    /// Whether both are of one arena.
    pub fn is_of(&self, other: &Turn) -> bool {
        Arc::ptr_eq(&self.shared, &other.shared)
    }

    /// Makes the call of a seat that keeps no shard, again and again while another thread has a
    /// lock that it needs: it has changed nothing then. It is `BUSY` after all when it would wait
    /// for a session, and its thread is in one.
    #[inline]
    pub fn at_seat<A: Answer>(
        &self,
        lane: &Owner,
        place: Place,
        mut call: impl FnMut(*mut raw::ShareHandle) -> A,
    ) -> A {
        lane.let_go();
        if self.steward_waits() {
            self.let_steward();
        }
        let answer = lane.alone(&mut call);
        if answer.status() == raw::BUSY {
            self.insist(Taker::Seat, place, || lane.alone(&mut call))
        } else {
            answer
        }
    }

    /// The same of the steward's.
    pub fn at_steward<A: Answer>(&self, mut call: impl FnMut() -> A) -> A {
        let answer = call();
        if answer.status() != raw::BUSY {
            return answer;
        }
        self.shared.steward_waits.store(true, Ordering::Relaxed);
        let answer = self.insist(Taker::Steward, Place::Anywhere, call);
        self.shared.steward_waits.store(false, Ordering::Relaxed);
        answer
    }

    /// Whether the steward waits.
    #[inline]
    pub fn steward_waits(&self) -> bool {
        self.shared.steward_waits.load(Ordering::Relaxed)
    }

    /// Asks the seats to retire so many groups each.
    pub fn ask(&self, most: u32) {
        let round = self.asked().round.wrapping_add(1);
        let asked = u64::from(round) << 32 | u64::from(most);
        self.shared.helpers.store(0, Ordering::Relaxed);
        self.shared.asked.store(asked, Ordering::Relaxed);
    }

    /// Notes that one more seat has done what was asked.
    pub fn note_helped(&self) {
        self.shared.helpers.fetch_add(1, Ordering::Relaxed);
    }

    /// How many seats have done what was asked last.
    pub fn helpers(&self) -> u32 {
        self.shared.helpers.load(Ordering::Relaxed)
    }

    /// What the steward has asked for last.
    // Each half is cut out of the number.
    #[allow(clippy::cast_possible_truncation)]
    pub fn asked(&self) -> Asked {
        let asked = self.shared.asked.load(Ordering::Relaxed);
        Asked {
            round: (asked >> 32) as u32,
            most: asked as u32,
        }
    }

    /// Leaves the steward with its open plan to whoever next leaves a session. All interleavings of
    /// a small model are tried (`models/left_plans.py`).
    pub fn leave_plan(&self, steward: Share) {
        *self
            .shared
            .left
            .lock()
            .unwrap_or_else(PoisonError::into_inner) = Some(steward);
        self.shared.has_left.store(true, Ordering::Relaxed);
    }

    /// Closes the plan of a steward that was left, if there is one and this thread need not wait
    /// for a session.
    #[inline]
    pub fn close_left_plan(&self) {
        if self.shared.has_left.load(Ordering::Relaxed) {
            self.close_plan_of_left();
        }
    }

    /// Whoever else is at it will be done without this thread, which might be in another session.
    #[cold]
    fn close_plan_of_left(&self) {
        let Ok(mut left) = self.shared.left.try_lock() else {
            return;
        };
        if let Some(steward) = left.take() {
            // SAFETY: the handle has a steward, and who has the lock alone calls it.
            let status =
                self.at_steward(|| unsafe { raw::teurlaks_steward_close(steward.handle()) });
            if status == raw::BUSY {
                *left = Some(steward);
            } else {
                self.shared.has_left.store(false, Ordering::Relaxed);
            }
        }
    }

    /// Lets others run while the steward waits, for a while at most: it may wait for a processor
    /// too.
    #[cold]
    fn let_steward(&self) {
        for _ in 0..MOST_YIELDS {
            thread::yield_now();
            if !self.steward_waits() {
                return;
            }
        }
    }

    /// Makes the call that met a lock until it has it. What lanes keep is taken back before: a lock
    /// that is met may be that of a kept shard.
    #[cold]
    fn insist<A: Answer>(&self, by: Taker, place: Place, mut call: impl FnMut() -> A) -> A {
        let mut patience = Patience::new();
        loop {
            let is_in_vain = self.waits_in_vain(place, &patience);
            if !self.take_back(by, place, &patience) && !is_in_vain {
                patience.wait();
            }
            let answer = call();
            if answer.status() != raw::BUSY || is_in_vain {
                return answer;
            }
        }
    }

    /// Whether the call may wait for ever, since its thread is in a session: of the shard that it
    /// needs, or of another one, while some thread that may wait for this one is in a session here.
    fn waits_in_vain(&self, place: Place, patience: &Patience) -> bool {
        if !inside::is_in_session() {
            return false;
        }
        let lanes = &self.shared.lanes;
        let is_own = match place {
            // No other session has the lock of a seat's own shard, or the pool's.
            Place::Here => return false,
            Place::Named(shard) => lanes.is_in_session_here(shard),
            Place::Anywhere => lanes.any_in_session_here(),
        };
        is_own && patience.is_worn() || patience.is_spent() && lanes.any_in_session()
    }

    /// Takes back what lanes keep of what the call may need, and says whether there was any. Where
    /// the key's shard is not kept, mostly a thread has its lock for a moment: that what the key
    /// names is in another lane's shard is thought of later.
    fn take_back(&self, by: Taker, place: Place, patience: &Patience) -> bool {
        let lanes = &self.shared.lanes;
        match place {
            Place::Here => false,
            Place::Named(shard) => {
                lanes.take_back(by, shard) || patience.is_tried() && lanes.take_all_back(by)
            }
            Place::Anywhere => lanes.take_all_back(by),
        }
    }
}

/// Says why a call gives nothing back that has no word for a refusal.
#[cold]
pub(super) fn no_wait_in_a_session() -> ! {
    panic!("the call would wait for a session, and its thread is in one: drop that first, or make the call by it");
}

/// How often a seat lets others run before a call, while the steward waits.
const MOST_YIELDS: u32 = 32;

/// How often a call pauses, twice as long each time, before it lets others run.
const MOST_PAUSES: u32 = 4;

/// How often it waits before it looks for what it needs elsewhere.
const SOME_WAITS: u32 = 8;

/// How often it waits before it sleeps.
const MOST_WAITS: u32 = 32;

/// A call that has waited so often, and slept for so long by the clock, takes what it waits for to
/// be a session. On a busy machine few sleeps take that long; on an idle one many take less.
const MOST_SLEEPS: u32 = 1 << 9;
const LONGEST: Duration = Duration::from_millis(300);

/// Waits longer and longer. The library itself looks at a lock 50 times before it answers that
/// another thread has it.
struct Patience {
    times: u32,
    // When it first slept.
    asleep: Option<Instant>,
}

impl Patience {
    fn new() -> Patience {
        Patience {
            times: 0,
            asleep: None,
        }
    }

    /// Whether it has waited for longer than most locks are held.
    fn is_tried(&self) -> bool {
        self.times >= SOME_WAITS
    }

    /// Whether it has waited until it would sleep.
    fn is_worn(&self) -> bool {
        self.times >= MOST_WAITS
    }

    /// Whether it has waited for longer than a lock is held that is in no session.
    fn is_spent(&self) -> bool {
        self.times >= MOST_SLEEPS && self.asleep.is_some_and(|since| since.elapsed() >= LONGEST)
    }

    fn wait(&mut self) {
        match self.times {
            few if few < MOST_PAUSES => (0..1 << few).for_each(|_| hint::spin_loop()),
            some if some < MOST_WAITS => thread::yield_now(),
            _ => {
                self.asleep.get_or_insert_with(Instant::now);
                thread::sleep(SLEEP);
            }
        }
        self.times = self.times.saturating_add(1);
    }
}
