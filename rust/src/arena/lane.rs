//! The proved seat of one shard, which may keep that shard between calls until somebody else wants
//! it.
//!
//! A call that takes the shard's lock and gives it back pays for two atomic exchanges. A seat that
//! has made some calls on its own shard therefore keeps it out of its lock, as a session does, and
//! whoever else needs the shard takes it back: this is biased locking. Neither side may use the
//! handle while the other does, and the owner, who makes all the calls, has to pay next to nothing
//! for that. So the owner's half of the agreement is two plain stores and a load around each call,
//! and the taker pays for both by a heavy fence ([`fence`]).
//!
//! The rules:
//!
//! - The door changes under the lock `taking` alone. It is open, or the owner keeps the shard
//!   (`KEPT`), or keeps it and somebody wants it (`WANTED`). Only the owner closes it. Each time
//!   begins a new keeping, which has a number.
//! - While the door is open, the handle is the owner's alone.
//! - While it is not, the owner uses the handle under `taking`, or else it says that it is in a
//!   call, has a light fence, sees that nobody wants the shard, makes the call, and says that it is
//!   out of it.
//! - An owner that sees its shard wanted opens the door itself, under `taking` and in no call.
//! - A taker says under `taking` that the shard is wanted, and notes the keeping. It gives `taking`
//!   back and has a heavy fence. Then it has `taking` again and looks once more. When the door is
//!   still closed, in the same keeping, it waits until the owner is in no call, pauses the handle
//!   and opens the door.
//! - A taker that finds another keeping leaves the shard alone: it has to want that anew, behind a
//!   new fence.
//!
//! That they never both use it: an owner that uses it under `taking`, or while the door is open,
//! meets no taker. One that begins a call looks at the door before the taker's heavy fence or after
//! it. Within one keeping the door stays wanted once it is. So an owner that looks after the fence
//! sees the shard wanted, and makes no call, or the door open, and the taker is done. If before,
//! what it had stored before that look, that it is in a call, the taker sees, and waits for the end
//! of the call. What either wrote the other sees: the end of a call is a release that the taker
//! acquires, and the door's opening one that the owner acquires.
//!
//! That nobody waits for ever: the owner is in no call while it waits for a lock, and no call of
//! the library waits. Who takes from several lanes wants them all behind one fence, and then has
//! one lock at a time, under which it waits for one call. So a seat whose call is over goes on,
//! whoever else is waited for.
//!
//! `rust/models/kept_shards.py` goes over all interleavings of these steps, and reads here that
//! they stand as it has them.

use super::fence;
use super::inside;
use crate::core::MOST_SHARDS;
use crate::raw;
use std::cell::{Cell, UnsafeCell};
use std::marker::PhantomData;
use std::ptr;
use std::sync::atomic::{AtomicBool, AtomicU32, AtomicU64, AtomicU8, Ordering};
use std::sync::{Arc, Mutex, MutexGuard, PoisonError};
use std::time::Duration;
use std::{hint, thread};

/// The shard is at its lock, or in a session.
const OPEN: u8 = 0;

/// The owner keeps the shard until it is taken back.
const KEPT: u8 = 1;

/// Besides, somebody takes it back.
const WANTED: u8 = 2;

/// How many calls on its own shard a lane makes before it keeps that.
const FIRST: u32 = 64;

/// How many it makes after the shard was taken back. It is twice as many each further time that a
/// seat takes it, up to the most of these: a taker waits for some microseconds, and the owner soon
/// has won more.
const AFTER_TAKEN: u32 = 1 << 12;
const MOST_AFTER_TAKEN: u32 = 1 << 18;

/// For a lane that is not to keep its shard.
const NEVER: u32 = u32::MAX;

/// How often a taker looks whether the owner's call is over, before it lets others run.
const LOOKS: u32 = 100;

/// How often it lets others run before it sleeps. By a sleep also a real-time thread lets an owner
/// run that waits for its processor.
const MOST_TURNS: u32 = 32;

/// How long a thread sleeps at a time that waits for another: that one waits for a processor then,
/// or marks.
pub(super) const SLEEP: Duration = Duration::from_micros(20);

/// What is in it is on cache lines of its own, of which processors fetch two at a time.
#[repr(align(128))]
struct Apart<T>(T);

/// One shard's seat, for all who may use it.
pub(super) struct Lane {
    owner: Apart<OwnerSide>,
    door: Apart<Door>,
}

/// What the owner writes at each call.
struct OwnerSide {
    in_call: AtomicBool,
    // How many calls of its own shard are left before it keeps that. Only who may use the handle
    // writes it.
    left: AtomicU32,
    handle: UnsafeCell<raw::ShareHandle>,
}

/// What others look at, and is seldom written to.
struct Door {
    state: AtomicU8,
    // The first shard of the seat that has the lane. It is a hint.
    seat: AtomicU8,
    // The thread that has the shard in a session, or 0. It says for whom a call would wait.
    session: AtomicU64,
    taking: Mutex<Terms>,
}

/// What is known of the door under its lock alone.
struct Terms {
    // How often the owner has kept the shard.
    keepings: u64,
    // How many calls it waits when a seat next takes the shard back.
    penalty: u32,
    // How many it makes, once this keeping is over, before the next one: as the first who wants the
    // shard says.
    left: u32,
}

impl Terms {
    fn new() -> Terms {
        Terms {
            keepings: 0,
            penalty: AFTER_TAKEN,
            left: FIRST,
        }
    }

    /// Says how many calls the owner makes after this taker.
    fn note_taker(&mut self, by: Taker) {
        self.left = match by {
            Taker::Steward => AFTER_TAKEN,
            Taker::Seat => self.penalty,
        };
        if let Taker::Seat = by {
            self.penalty = MOST_AFTER_TAKEN.min(2 * self.penalty);
        }
    }
}

// SAFETY: that a handle may be used by another thread, one at a time, is proved in
// `crates/teurlaks_c` (`unsafe impl Send for ShareHandle`, with its proof). That no two use it at
// once, and that the uses are ordered, is what the rules at the head of this module are for.
unsafe impl Send for Lane {}
// SAFETY: as above.
unsafe impl Sync for Lane {}

impl Lane {
    fn new() -> Lane {
        Lane {
            owner: Apart(OwnerSide {
                in_call: AtomicBool::new(false),
                left: AtomicU32::new(FIRST),
                handle: UnsafeCell::new(raw::ShareHandle {
                    at: ptr::null_mut(),
                }),
            }),
            door: Apart(Door {
                state: AtomicU8::new(OPEN),
                seat: AtomicU8::new(0),
                session: AtomicU64::new(inside::NO_THREAD),
                taking: Mutex::new(Terms::new()),
            }),
        }
    }

    /// Whether its shard is kept, as far as this thread knows.
    #[inline]
    fn is_kept(&self) -> bool {
        self.door.0.state.load(Ordering::Relaxed) & KEPT != 0
    }

    fn is_wanted(&self) -> bool {
        self.door.0.state.load(Ordering::Relaxed) & WANTED != 0
    }

    fn lock(&self) -> MutexGuard<'_, Terms> {
        self.door
            .0
            .taking
            .lock()
            .unwrap_or_else(PoisonError::into_inner)
    }

    /// Says that its shard is wanted, if it is kept, and gives the number of this keeping.
    fn want(&self, by: Taker) -> Option<u64> {
        let mut terms = self.lock();
        if !self.is_kept() {
            return None;
        }
        if !self.is_wanted() {
            terms.note_taker(by);
            self.door.0.state.store(KEPT | WANTED, Ordering::Relaxed);
        }
        Some(terms.keepings)
    }

    /// Takes the shard back that was wanted in the keeping of this number, unless that is over.
    ///
    /// # Safety
    ///
    /// The caller had a heavy fence after that want, and is in no call.
    unsafe fn take(&self, keeping: u64) {
        let terms = self.lock();
        if self.is_kept() && terms.keepings == keeping {
            self.await_call();
            // SAFETY: this thread has the lock, and had a heavy fence after the shard was wanted in
            // this keeping. The owner's last look at the door that missed this was before the
            // fence, so the wait was for that call, too; and each later look finds the shard
            // wanted, until the door is open.
            unsafe { self.open(terms.left) };
        }
    }

    fn seat(&self) -> u8 {
        self.door.0.seat.load(Ordering::Relaxed)
    }

    /// The thread that has the shard in a session, as far as this one knows.
    fn session(&self) -> u64 {
        self.door.0.session.load(Ordering::Relaxed)
    }

    /// Gives the shard back to its lock, and has the owner make so many calls before it keeps it
    /// again.
    ///
    /// # Safety
    ///
    /// The caller has the lock `taking`, and the owner is in no call and in none before it has seen
    /// that the door is open.
    unsafe fn open(&self, left: u32) {
        // SAFETY: the handle is the caller's, and has a seat, since its shard is kept.
        let status = unsafe { raw::teurlaks_seat_pause(self.owner.0.handle.get()) };
        debug_assert_eq!(status, raw::OK, "what is kept has a seat");
        self.owner.0.left.store(left, Ordering::Relaxed);
        self.door.0.state.store(OPEN, Ordering::Release);
    }

    fn is_in_call(&self) -> bool {
        self.owner.0.in_call.load(Ordering::Acquire)
    }

    /// Waits until the owner is in no call.
    fn await_call(&self) {
        let mut turns = 0;
        while (0..LOOKS).all(|_| self.is_in_call_still()) {
            if turns < MOST_TURNS {
                thread::yield_now();
                turns += 1;
            } else {
                thread::sleep(SLEEP);
            }
        }
    }

    /// Whether it is, after a pause if so.
    fn is_in_call_still(&self) -> bool {
        let is_in_call = self.is_in_call();
        if is_in_call {
            hint::spin_loop();
        }
        is_in_call
    }
}

/// Who takes shards back.
#[derive(Clone, Copy)]
pub(super) enum Taker {
    Seat,
    /// It takes all behind one fence, and so costs each of them little.
    Steward,
}

/// All lanes of an arena, by the numbers of their shards.
pub(super) struct AllLanes(Box<[Arc<Lane>]>);

impl AllLanes {
    /// So many lanes, and for each its owner, which has no seat yet.
    pub fn new(shards: u32) -> (AllLanes, Vec<Owner>) {
        let lanes: Box<[_]> = (0..shards).map(|_| Arc::new(Lane::new())).collect();
        let owners = lanes
            .iter()
            .zip(0..)
            .map(|(lane, shard)| Owner::new(lane, shard));
        let owners = owners.collect();
        (AllLanes(lanes), owners)
    }

    /// Takes the shard of this number back, where it is kept, with the others of its seat, which
    /// are asked for as well mostly. It says whether there was any that it wanted. The caller is in
    /// no call.
    pub fn take_back(&self, by: Taker, shard: u32) -> bool {
        let named = self.0.get(shard as usize).filter(|lane| lane.is_kept());
        named.is_some_and(|named| take_back(by, &self.0, |lane| lane.seat() == named.seat()))
    }

    /// Takes back all shards that are kept, and says whether there was any that it wanted. The
    /// caller is in no call.
    pub fn take_all_back(&self, by: Taker) -> bool {
        self.0.iter().any(|lane| lane.is_kept()) && take_back(by, &self.0, |_| true)
    }

    /// Whether this thread has the shard of this number in a session.
    pub fn is_in_session_here(&self, shard: u32) -> bool {
        let thread = inside::this_thread();
        self.0
            .get(shard as usize)
            .is_some_and(|lane| lane.session() == thread)
    }

    /// Whether this thread has any shard in a session.
    pub fn any_in_session_here(&self) -> bool {
        let thread = inside::this_thread();
        self.0.iter().any(|lane| lane.session() == thread)
    }

    /// Whether any shard is in a session, of whichever thread.
    pub fn any_in_session(&self) -> bool {
        self.0
            .iter()
            .any(|lane| lane.session() != inside::NO_THREAD)
    }
}

/// Takes back which of these are meant and kept, behind one fence, and says whether there was any
/// that it wanted. It waits for the call of one lane at a time: the owners of the others open their
/// doors themselves, or make no call that it has to wait for.
#[cold]
fn take_back(by: Taker, lanes: &[Arc<Lane>], is_meant: impl Fn(&Lane) -> bool) -> bool {
    let mut keepings: [Option<u64>; MOST_SHARDS] = [None; MOST_SHARDS];
    for (lane, keeping) in lanes.iter().zip(&mut keepings) {
        if lane.is_kept() && is_meant(lane) {
            *keeping = lane.want(by);
        }
    }
    if keepings.iter().all(Option::is_none) {
        return false;
    }
    fence::heavy();
    for (lane, keeping) in lanes.iter().zip(keepings) {
        if let Some(keeping) = keeping {
            // SAFETY: the fence came after the want.
            unsafe { lane.take(keeping) };
        }
    }
    true
}

/// The one who makes the calls of a lane: there is one for each, and it is of one thread at a time.
pub(super) struct Owner {
    lane: Arc<Lane>,
    shard: u8,
    // It is not `Sync`.
    one_thread: PhantomData<Cell<()>>,
}

/// A call that an owner makes: nobody else uses the handle until it is dropped.
pub(super) struct InCall<'o> {
    lane: &'o Lane,
    /// Whether the lane keeps its shard.
    pub keeps: bool,
}

impl InCall<'_> {
    #[inline]
    pub fn handle(&self) -> *mut raw::ShareHandle {
        self.lane.owner.0.handle.get()
    }
}

impl Drop for InCall<'_> {
    #[inline]
    fn drop(&mut self) {
        self.lane.owner.0.in_call.store(false, Ordering::Release);
    }
}

impl Owner {
    /// The owner of the lane, whose handle has nothing yet. There is no other one.
    fn new(lane: &Arc<Lane>, shard: u8) -> Owner {
        Owner {
            lane: Arc::clone(lane),
            shard,
            one_thread: PhantomData,
        }
    }

    /// Which shard it is most probably of: the one that its steward hands out then. What is called
    /// rests on no such number.
    #[inline]
    pub fn shard(&self) -> u32 {
        self.shard.into()
    }

    /// Says that it has its place at the seat with this lane.
    pub fn sit_with(&self, first: &Owner) {
        self.lane.door.0.seat.store(first.shard, Ordering::Relaxed);
    }

    /// Begins a call, but where somebody takes the shard back.
    #[inline]
    pub fn enter(&self) -> Option<InCall<'_>> {
        let lane = &*self.lane;
        lane.owner.0.in_call.store(true, Ordering::Relaxed);
        fence::light();
        let state = lane.door.0.state.load(Ordering::Acquire);
        let in_call = InCall {
            lane,
            keeps: state == KEPT,
        };
        // Dropped here, it says that the owner is in no call after all.
        (state & WANTED == 0).then_some(in_call)
    }

    /// The handle, while it has a session that the seat began: the lane does not keep its shard
    /// then, the door is open, and nobody takes it.
    #[inline]
    pub fn handle_in_session(&self) -> *mut raw::ShareHandle {
        debug_assert_eq!(self.lane.door.0.state.load(Ordering::Relaxed), OPEN);
        self.lane.owner.0.handle.get()
    }

    /// Makes a call that needs no lock, in whichever state.
    #[inline]
    pub fn at_once<A>(&self, call: impl FnOnce(*mut raw::ShareHandle) -> A) -> A {
        if self.is_open() {
            return call(self.lane.owner.0.handle.get());
        }
        match self.enter() {
            Some(in_call) => call(in_call.handle()),
            None => self.alone(call),
        }
    }

    /// Makes a call on the handle once the shard is not kept any more, and nobody is about to take
    /// it.
    #[inline]
    pub fn alone<A>(&self, call: impl FnOnce(*mut raw::ShareHandle) -> A) -> A {
        self.let_go();
        // The door is open, and so the handle is the owner's alone.
        call(self.lane.owner.0.handle.get())
    }

    /// Lets go of the shard, where it is kept, and else waits until nobody takes it.
    #[inline]
    pub fn let_go(&self) {
        self.open_door(|lane, terms| {
            let left = if lane.is_wanted() { terms.left } else { FIRST };
            // SAFETY: this is the owner, it has the lock, and it is in no call.
            unsafe { lane.open(left) };
        });
    }

    /// Whether it kept the shard: if so, it goes on as a session, which nobody takes back.
    pub fn goes_on_as_session(&self) -> bool {
        let mut kept = false;
        self.open_door(|lane, _| {
            kept = true;
            lane.door.0.state.store(OPEN, Ordering::Release);
        });
        kept
    }

    /// Whether the door is open, and so the handle the owner's alone until it closes that: only the
    /// owner does, and this sees what a taker did before.
    #[inline]
    fn is_open(&self) -> bool {
        self.lane.door.0.state.load(Ordering::Acquire) == OPEN
    }

    /// Opens the door so, where it is not open once nobody takes the shard.
    #[inline]
    fn open_door(&self, open: impl FnOnce(&Lane, &Terms)) {
        if !self.is_open() {
            self.open_closed_door(open);
        }
    }

    #[cold]
    fn open_closed_door(&self, open: impl FnOnce(&Lane, &Terms)) {
        let terms = self.lane.lock();
        if self.lane.is_kept() {
            open(&self.lane, &terms);
        }
    }

    /// Says that this thread has the shard in a session, or that nobody has.
    pub fn note_session(&self, thread: u64) {
        self.lane.door.0.session.store(thread, Ordering::Relaxed);
    }

    /// Counts a call of its own shard that was made while the door was open, and says whether it
    /// may keep that now.
    #[inline]
    pub fn count(&self) -> bool {
        let left = self
            .lane
            .owner
            .0
            .left
            .load(Ordering::Relaxed)
            .wrapping_sub(1);
        self.lane.owner.0.left.store(left, Ordering::Relaxed);
        left == 0
    }

    /// Puts off when it may keep the shard.
    pub fn count_anew(&self) {
        self.lane.owner.0.left.store(FIRST, Ordering::Relaxed);
    }

    /// Keeps the shard from now on, where it can: no other thread has it, it may be taken back, and
    /// the arena is not recorded.
    #[cold]
    pub fn keep(&self) {
        if !fence::is_there() {
            self.lane.owner.0.left.store(NEVER, Ordering::Relaxed);
            return;
        }
        let mut terms = self.lane.lock();
        // SAFETY: the handle has a seat, and this is the owner, who has the lock.
        let status = unsafe { raw::teurlaks_seat_session(self.lane.owner.0.handle.get()) };
        self.count_anew();
        match status {
            raw::OK => {
                terms.keepings += 1;
                self.lane.door.0.state.store(KEPT, Ordering::Release);
            }
            raw::BUSY => {}
            _ => self.lane.owner.0.left.store(NEVER, Ordering::Relaxed),
        }
    }

    /// Whether the lane keeps its shard.
    pub fn keeps(&self) -> bool {
        self.lane.is_kept()
    }

    /// Has the call leave a seat to the handle, which has nothing, or gives the status where that
    /// is not `OK`.
    pub fn sit(&self, leave: impl FnOnce(*mut raw::ShareHandle) -> u32) -> Result<(), u32> {
        self.count_anew();
        match self.alone(leave) {
            raw::OK => Ok(()),
            other => Err(other),
        }
    }
}

impl Drop for Owner {
    fn drop(&mut self) {
        // SAFETY: the handle has what the library left there, or nothing, and nobody uses it after:
        // no taker does while the door is open.
        self.alone(|handle| unsafe { raw::teurlaks_share_drop(handle) });
        // A session that was forgotten is over.
        self.note_session(inside::NO_THREAD);
    }
}

#[cfg(test)]
mod tests;
