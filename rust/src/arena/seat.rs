//! What a thread does at its seat.

use super::inside::{Inside, NO_THREAD};
use super::keys::Keys;
use super::lane::Owner;
use super::lanes::Lanes;
use super::session::Session;
use super::share::{no_wait_in_a_session, Answer, Place, Turn};
use crate::bytes::MOST_WORDS;
use crate::core::{done, was_put, was_set};
use crate::names::{Group, Key};
use crate::raw;
use crate::refused::Refused;
use crate::store::write_words;
use std::alloc::{handle_alloc_error, Layout};
use std::cell::Cell;
use std::fmt;
use std::marker::PhantomData;
use std::mem::MaybeUninit;
use std::ptr::NonNull;

/// How many pages of a shard are brought to others while it is locked.
const GATHERED: usize = 16;

/// A thread's place at an [`Arena`](super::Arena): it keeps values in the shard of the seat, or in
/// several in turn, and reads, sets and frees those of all shards.
///
/// It may go to another thread (`Send`), and is of one thread at a time (not `Sync`). A call that
/// needs a lock which another thread has waits for it: it pauses, lets others run, and then sleeps
/// for 20 microseconds at a time. Most calls hold a lock for well below a microsecond; a mark holds
/// all of them for as long as it plans. While the steward waits for a lock, each call of a seat
/// lets others run before it begins, up to 32 times. A call whose thread is in a session waits for
/// no session ([`Seat::session`]).
///
/// A seat that has made 64 calls on its own shard keeps that until somebody else asks for it, so
/// that calls on what is there take no lock. Whoever does ask takes the shard back, in some
/// microseconds and also while the seat's thread sleeps; the seat then keeps it again after 4,096
/// calls, and after twice as many each time, up to 262,144. Nobody sees anything of that but by the
/// clock. It needs a system that can fence all threads of a process, which is Linux on x86-64
/// (`membarrier`); elsewhere, and in a recorded arena, a seat keeps no shard, and each call takes
/// the lock.
///
/// A seat that its thread is done with goes back by [`Arena::take_back`](super::Arena::take_back).
/// One that is dropped is not handed out again. Its shard takes no further value then, and its
/// values stay, under keys that each other seat finds. Their pages stay too, until they are empty,
/// so [`Seat::end`] leaves them to the pool before, from where they are folded onto others. What
/// other threads have left to it ([`Seat::free_later`]) nobody frees any more once it is gone.
pub struct Seat<T> {
    lanes: Lanes,
    turn: Turn,
    // Whether the lane whose turn it is has a session. No lane keeps its shard meanwhile.
    inside: Inside,
    // The round of the last help with a compaction, and how many groups it left to the pool.
    pub(super) helped: u32,
    pub(super) retired: usize,
    // Whether inserts take so few slots that pages share pages of the system.
    pub(super) has_small_pages: bool,
    // A value of any other type is none of this arena, whatever its lifetime: it is read at all
    // seats.
    values: PhantomData<Cell<T>>,
}

impl<T> Seat<T> {
    /// The seat that has these shards.
    pub(super) fn new(lanes: Lanes, turn: Turn, has_small_pages: bool) -> Seat<T> {
        Seat {
            lanes,
            turn,
            inside: Inside::nothing(),
            helped: 0,
            retired: 0,
            has_small_pages,
            values: PhantomData,
        }
    }

    /// Keeps the seat's shard for this thread over many calls, until the session is dropped, and
    /// nobody takes it back: a call on what is in that shard takes no lock then, from the first one
    /// on and on each system. It waits until no other thread has the shard. The session is of this
    /// thread: it is not `Send`.
    ///
    /// Whoever else wants the shard waits meanwhile: those who look up, set or free a value there,
    /// and the steward, whose mark, close, forgetting and totals want all shards. So a session is
    /// for a burst of calls and is not kept while its thread does something else. A session lets go
    /// of its shard for a moment where the steward waits, and where a call needs a lock that
    /// another thread has, so that two sessions never wait for each other.
    ///
    /// While a thread is in a session of an arena, it makes its calls on that arena by the session.
    /// Another one may need the shard of the session, and it does not wait for that:
    ///
    /// - at another seat `set` and `tend` are refused with [`Refused::Busy`]; and `get`,
    ///   `contains`, `free`, `remove` and a step of `keys` panic;
    /// - of the arena a mark, a step, a close, a mesh and a forgetting are refused so; and `totals`
    ///   and a step of `keys` panic;
    /// - an arena that is dropped leaves a plan that is open to the thread, which closes it when it
    ///   leaves the session.
    ///
    /// The same comes of a call that has waited for some 0.3 seconds, while its thread is in a
    /// session, also of another arena, and there is a session of another thread in the arena that
    /// is called. So two threads that wait for each other's sessions come to an end.
    ///
    /// A session that is forgotten ([`std::mem::forget`]) goes on until its seat is dropped, as one
    /// of the thread that began it.
    ///
    /// In a recorded arena ([`Arena::open_recorded`](super::Arena::open_recorded)) a session keeps
    /// no shard, and makes its calls as the seat does, each with its receipt.
    ///
    /// ```
    /// use teurlaks::arena::Arena;
    /// use teurlaks::Limits;
    ///
    /// let mut arena = Arena::open(Limits::default())?;
    /// let mut seat = arena.seat()?;
    /// let mut session = seat.session();
    /// let key = session.insert(7)?;
    /// assert_eq!(session.get(key), Some(7));
    /// assert!(session.free(key));
    /// drop(session); // from now on others find the shard free
    /// assert_eq!(seat.get(key), None);
    /// # Ok::<(), teurlaks::Refused>(())
    /// ```
    pub fn session(&mut self) -> Session<'_, T> {
        self.lanes.others().iter().for_each(Owner::let_go);
        if self.lanes.here().goes_on_as_session() {
            self.begin_inside();
        } else {
            self.hold();
        }
        Session::new(self)
    }

    /// Notes that the lane whose turn it is has a session.
    fn begin_inside(&self) {
        self.lanes.here().note_session(self.inside.begin());
    }

    /// Notes that it has none.
    fn end_inside(&self) {
        self.lanes.here().note_session(NO_THREAD);
        self.inside.end();
    }

    /// Has the lane whose turn it is begin a session, once no other thread has the shard. A
    /// recorded seat has none.
    fn hold(&self) {
        let status = self.turn.at_seat(self.lanes.here(), Place::Here, |handle| {
            // SAFETY: the handle has a seat, and no other call runs on it.
            unsafe { raw::teurlaks_seat_session(handle) }
        });
        debug_assert!(
            matches!(status, raw::OK | raw::CONFIG),
            "the handle has a seat"
        );
        if status == raw::OK {
            self.begin_inside();
        }
    }

    /// Lets others at the shard, if it has a session.
    pub(super) fn pause(&self) {
        if !self.inside.is_in_session() {
            return;
        }
        // SAFETY: as in `hold`.
        let status = self
            .lanes
            .here()
            .alone(|handle| unsafe { raw::teurlaks_seat_pause(handle) });
        debug_assert_eq!(status, raw::OK, "the handle has a seat");
        self.end_inside();
        self.turn.close_left_plan();
    }

    /// Makes a call on what is in the shard whose turn it is.
    // Inlined, its answer stays in registers: a free with a put takes 40 instructions less of some
    // 400.
    #[allow(clippy::inline_always)]
    #[inline(always)]
    fn ask_here<A: Answer>(&self, call: impl FnMut(*mut raw::ShareHandle) -> A) -> A {
        if self.inside.is_in_session() {
            return self.ask_in_session(Place::Here, call);
        }
        self.ask(self.lanes.here(), Place::Here, call)
    }

    /// Makes a call on what the key names, by the lane that has its shard, where the seat has that.
    // Inlined, as `ask_here` is.
    #[allow(clippy::inline_always)]
    #[inline(always)]
    fn ask_of<A: Answer>(&self, key: Key, call: impl FnMut(*mut raw::ShareHandle) -> A) -> A {
        let place = Place::Named(key.shard());
        if self.inside.is_in_session() {
            return self.ask_in_session(place, call);
        }
        let lane = if self.lanes.is_one() {
            self.lanes.here()
        } else {
            self.lanes.of(key.shard())
        };
        self.ask(lane, place, call)
    }

    /// Makes a call that takes no lock where it is on the lane's own shard and the lane keeps that.
    /// There is no session.
    // Inlined, as `ask_here` is.
    #[allow(clippy::inline_always)]
    #[inline(always)]
    fn ask<A: Answer>(
        &self,
        lane: &Owner,
        place: Place,
        mut call: impl FnMut(*mut raw::ShareHandle) -> A,
    ) -> A {
        if let Some(in_call) = lane.enter() {
            if in_call.keeps || !self.turn.steward_waits() {
                let answer = call(in_call.handle());
                let keeps = in_call.keeps;
                drop(in_call);
                if answer.status() != raw::BUSY {
                    if !keeps && place.is_of(lane) && lane.count() {
                        self.keep(lane);
                    }
                    return answer;
                }
            }
        }
        self.ask_paused(lane, place, call)
    }

    /// Makes a call that goes by the session, whose shard nobody takes back.
    // Inlined, as `ask_here` is.
    #[allow(clippy::inline_always)]
    #[inline(always)]
    fn ask_in_session<A: Answer>(
        &self,
        place: Place,
        mut call: impl FnMut(*mut raw::ShareHandle) -> A,
    ) -> A {
        let lane = self.lanes.here();
        if !self.turn.steward_waits() {
            let answer = call(lane.handle_in_session());
            if answer.status() != raw::BUSY {
                return answer;
            }
        }
        self.ask_paused(lane, place, call)
    }

    /// Has the lane keep its shard, where the steward does not wait.
    #[cold]
    fn keep(&self, lane: &Owner) {
        if self.turn.steward_waits() {
            lane.count_anew();
        } else {
            lane.keep();
        }
    }

    /// Makes a call for which the library ends the session, where there is one, and begins another.
    #[inline]
    fn ask_seat<A: Answer>(
        &self,
        lane: &Owner,
        place: Place,
        call: impl FnMut(*mut raw::ShareHandle) -> A,
    ) -> A {
        if self.inside.is_in_session() {
            return self.ask_paused(lane, place, call);
        }
        self.turn.at_seat(lane, place, call)
    }

    /// Lets go of the shard, makes the call as a seat does, and goes on with the session, where
    /// there is one.
    #[cold]
    fn ask_paused<A: Answer>(
        &self,
        lane: &Owner,
        place: Place,
        call: impl FnMut(*mut raw::ShareHandle) -> A,
    ) -> A {
        let in_session = self.inside.is_in_session();
        if in_session {
            self.pause();
        }
        let answer = self.turn.at_seat(lane, place, call);
        if in_session {
            self.hold();
        }
        answer
    }

    /// Has the next of the seat's shards take its turn, in the session, too, where there is one.
    #[cold]
    fn next_lane(&mut self) {
        let in_session = self.inside.is_in_session();
        if in_session {
            self.pause();
        }
        self.lanes.turn();
        if in_session {
            self.hold();
        }
    }

    /// Whether the seat keeps the shard whose turn it is, until somebody else wants it: for tests.
    #[doc(hidden)]
    #[must_use]
    pub fn keeps_its_shard(&self) -> bool {
        self.lanes.here().keeps()
    }

    pub(super) fn lanes(&mut self) -> &mut Lanes {
        &mut self.lanes
    }

    pub(super) fn into_lanes(self) -> Lanes {
        self.lanes
    }

    pub(super) fn turn(&self) -> &Turn {
        &self.turn
    }
}

/// Whether the status says that the key was live.
#[inline]
fn was_live(status: u32) -> bool {
    match status {
        raw::OK => true,
        raw::NONE => false,
        other => {
            answer_nothing(other);
            false
        }
    }
}

/// What comes of a status that a call can't answer. A recorded arena that is refused memory for a
/// receipt ends the process.
///
/// # Panics
///
/// If the call would wait for a session, and its thread is in one.
#[cold]
fn answer_nothing(status: u32) {
    match status {
        raw::OUT_OF_MEMORY => handle_alloc_error(Layout::new::<[u64; 6]>()),
        raw::BUSY => no_wait_in_a_session(),
        _ => {}
    }
}

impl<T: Copy> Seat<T> {
    /// Keeps a value in the shard of the seat, and gives its key, which was never given out before.
    ///
    /// # Errors
    ///
    /// - [`Refused::PagesSpent`]: no page of the shard, or of any that the seat has, has a usable
    ///   slot, and it may have no further one ([`Limits::pages`](crate::Limits::pages)), or has
    ///   opened as many as it may in its life ([`Limits::spans`](crate::Limits::spans));
    /// - [`Refused::Ended`]: the shard has ended;
    /// - [`Refused::OutOfMemory`]: none of these holds, and memory was refused.
    // Inlined, as `ask` is.
    #[doc(alias = "put")]
    #[allow(clippy::inline_always)]
    #[inline(always)]
    pub fn insert(&mut self, value: T) -> Result<Key, Refused> {
        match self.insert_here(value) {
            Ok(key) => {
                if self.lanes.count() {
                    self.next_lane();
                }
                Ok(key)
            }
            Err(Refused::PagesSpent) => self.insert_beyond(value),
            refused => refused,
        }
    }

    /// Keeps a value in the shard whose turn it is.
    // Inlined, as `ask` is.
    #[allow(clippy::inline_always)]
    #[inline(always)]
    fn insert_here(&mut self, value: T) -> Result<Key, Refused> {
        let mut words = [MaybeUninit::uninit(); MOST_WORDS];
        let len = write_words(&mut words, value);
        let first = words.as_ptr().cast();
        // SAFETY: the handle has a seat, no other call runs on it, and so many words stand there.
        was_put(
            self.ask_here(move |handle| unsafe {
                raw::teurlaks_seat_put_words(handle, first, len)
            }),
        )
    }

    /// Keeps a value in the next of the seat's other shards that has room, whose turn it is then.
    #[cold]
    fn insert_beyond(&mut self, value: T) -> Result<Key, Refused> {
        for _ in 1..self.lanes.len() {
            self.next_lane();
            match self.insert_here(value) {
                Err(Refused::PagesSpent) => {}
                done => return done,
            }
        }
        Err(Refused::PagesSpent)
    }

    /// The value of the key, where it is live, of whichever shard.
    ///
    /// # Panics
    ///
    /// If it would wait for a session, and its thread is in one ([`Seat::session`]).
    #[inline]
    #[must_use]
    pub fn get(&self, key: Key) -> Option<T> {
        let mut words = [MaybeUninit::<u128>::uninit(); MOST_WORDS];
        let first = words.as_mut_ptr().cast();
        // SAFETY: as in `insert_here`, and there is room for 16 words.
        let got = self.ask_of(key, move |handle| unsafe {
            raw::teurlaks_seat_get_words(handle, key.raw(), first, MOST_WORDS)
        });
        // SAFETY: the library is proved to find what was put or set, and at all seats only values
        // of this type were.
        was_live(got.status).then(|| unsafe { words.as_ptr().cast::<T>().read_unaligned() })
    }

    /// Sets the key to the value in place, and says whether it did: where it is live. It takes no
    /// memory.
    ///
    /// # Errors
    ///
    /// - [`Refused::Busy`]: it would wait for a session, and its thread is in one
    ///   ([`Seat::session`]);
    /// - else as of [`Core::set`](crate::Core::set).
    #[inline]
    pub fn set(&mut self, key: Key, value: T) -> Result<bool, Refused> {
        let mut words = [MaybeUninit::uninit(); MOST_WORDS];
        let len = write_words(&mut words, value);
        let first = words.as_ptr().cast();
        // SAFETY: as in `insert_here`.
        was_set(self.ask_of(key, move |handle| unsafe {
            raw::teurlaks_seat_set_words(handle, key.raw(), first, len)
        }))
    }

    /// Frees the key, and gives its value, where it was live: that of a moment before, which
    /// another thread may have set since. Of threads that take out one key, one gets a value.
    ///
    /// # Panics
    ///
    /// If it would wait for a session, and its thread is in one ([`Seat::session`]).
    #[inline]
    pub fn remove(&mut self, key: Key) -> Option<T> {
        let value = self.get(key)?;
        self.free(key).then_some(value)
    }
}

impl<T> Seat<T> {
    /// Whether the key is live, of whichever shard.
    ///
    /// # Panics
    ///
    /// If it would wait for a session, and its thread is in one ([`Seat::session`]).
    #[inline]
    #[must_use]
    pub fn contains(&self, key: Key) -> bool {
        let none = NonNull::dangling().as_ptr();
        // SAFETY: as in `insert_here`, and there is no room, into which nothing is written.
        let got = self.ask_of(key, move |handle| unsafe {
            raw::teurlaks_seat_get_words(handle, key.raw(), none, 0)
        });
        got.status == raw::TOO_SMALL || was_live(got.status)
    }

    /// The live keys of all shards, one after another, as [`Arena::keys`](super::Arena::keys) gives
    /// them. A step panics if it would wait for a session, and its thread is in one
    /// ([`Seat::session`]).
    pub fn keys(&self) -> Keys<'_> {
        Keys::of_seat(self.lanes.here(), &self.turn)
    }

    /// Frees the key, and says whether it was live. The key finds nothing from then on, at any
    /// seat. It takes no memory.
    ///
    /// # Panics
    ///
    /// If it would wait for a session, and its thread is in one ([`Seat::session`]).
    #[inline]
    pub fn free(&mut self, key: Key) -> bool {
        // SAFETY: as in `insert_here`.
        let status = self.ask_of(key, move |handle| unsafe {
            raw::teurlaks_seat_free(handle, key.raw())
        });
        was_live(status)
    }

    /// Leaves the key to the seat of the shard that gave it out, which frees it when it next tends
    /// ([`Seat::tend`]); until then it is live. It takes no lock of the arena and no memory, and
    /// waits for nobody but one who is just taking this seat's shard back.
    ///
    /// Keys go in blocks: one is seen there at the latest with the 64th further call of this seat,
    /// with a [`Seat::hand_over`], or when this seat tends, ends or is dropped.
    ///
    /// # Errors
    ///
    /// - [`Refused::RingFull`]: the ring to that seat took none, and the key is still the caller's,
    ///   who may free it or try again once that seat has tended. What was left before is handed
    ///   over.
    /// - [`Refused::Config`]: the arena has no shard of this number.
    #[inline]
    pub fn free_later(&mut self, key: Key) -> Result<(), Refused> {
        // SAFETY: as in `insert_here`.
        let left = |handle| unsafe { raw::teurlaks_seat_free_later(handle, key.raw()) };
        match self.lanes.here().at_once(left) {
            raw::OK => Ok(()),
            raw::NONE => Err(Refused::Config),
            other => Err(Refused::of(other)),
        }
    }

    /// Hands over the keys that were left to others and wait for their block to be full. It takes
    /// no lock and no memory.
    pub fn hand_over(&mut self) {
        // SAFETY: as in `insert_here`.
        let hand_over = |handle| unsafe { raw::teurlaks_seat_hand_over(handle) };
        let status = self.lanes.here().at_once(hand_over);
        debug_assert_eq!(status, raw::OK, "the handle has a seat");
    }

    /// Hands over as [`Seat::hand_over`] does, takes the keys that others have left to the seat's
    /// shards, as many as are seen, frees each, and says how many there were, with those that were
    /// not live any more.
    ///
    /// # Errors
    ///
    /// What was freed before stays so, and the other keys are still there:
    ///
    /// - [`Refused::OutOfMemory`]: memory was refused;
    /// - [`Refused::Busy`]: it would wait for a session, and its thread is in one
    ///   ([`Seat::session`]).
    pub fn tend(&mut self) -> Result<usize, Refused> {
        let mut taken = 0;
        for lane in self.lanes.all() {
            let tended = self.ask_seat(lane, Place::Anywhere, |handle| {
                // SAFETY: as in `insert_here`.
                let tended = unsafe { raw::teurlaks_seat_tend(handle) };
                taken += tended.count;
                tended
            });
            done(tended.status)?;
        }
        Ok(taken)
    }

    /// Ends the seat's shard: its groups go to the pool, with their pages, from where they are
    /// folded or adopted, and it takes no value until it [begins](Seat::begin) again. All keys stay
    /// what they are, and the seat goes on to read, set and free. Of several shards all end or
    /// none: where one is refused, the groups of those before it are in the pool, and all take
    /// values.
    ///
    /// # Errors
    ///
    /// - [`Refused::Ended`]: it has ended before;
    /// - [`Refused::PlanOpen`]: one of its groups is in the open plan;
    /// - [`Refused::OutOfMemory`]: none of these holds, and memory was refused.
    pub fn end(&mut self) -> Result<(), Refused> {
        for (ended, lane) in self.lanes.all().enumerate() {
            // SAFETY: as in `insert_here`.
            let refused = done(self.ask_seat(lane, Place::Here, |handle| unsafe {
                raw::teurlaks_seat_end(handle)
            }));
            if refused.is_err() {
                self.begin_first(ended)?;
                return refused;
            }
        }
        Ok(())
    }

    /// Lets the seat's shard run again after its end, mostly in another thread, which the seat was
    /// sent to: it takes values as before, and no key that it gives out was given out before. What
    /// others left to the seat meanwhile waits for [`Seat::tend`]. It takes no memory.
    ///
    /// # Errors
    ///
    /// [`Refused::Running`]: the shard has not ended.
    pub fn begin(&mut self) -> Result<(), Refused> {
        self.begin_first(self.lanes.len())
    }

    /// Lets so many of the seat's shards run again.
    fn begin_first(&self, count: usize) -> Result<(), Refused> {
        self.lanes.all().take(count).try_for_each(|lane| {
            // SAFETY: as in `insert_here`.
            done(self.ask_seat(lane, Place::Here, |handle| unsafe {
                raw::teurlaks_seat_begin(handle)
            }))
        })
    }

    /// Moves up to `most` groups of the seat's shard to the pool, with their pages, and says how
    /// many went: those with the fewest live keys, of those that have one. The shard goes on. Of
    /// several shards each moves up to its part of that number, and a refusal of one is told where
    /// none has moved any before it.
    ///
    /// The pool's pages are folded onto those that stay in shards. So if all seats retire all that
    /// they have, nothing is folded: half of the pages is a good number.
    ///
    /// # Errors
    ///
    /// - [`Refused::Ended`]: the shard has ended;
    /// - [`Refused::PlanOpen`]: one of its groups is in the open plan;
    /// - [`Refused::OutOfMemory`]: none of these holds, and memory was refused.
    pub fn retire(&mut self, most: usize) -> Result<usize, Refused> {
        let lanes = self.lanes.len();
        let mut gone = 0;
        for (number, lane) in self.lanes.all().enumerate() {
            let part = most / lanes + usize::from(number < most % lanes);
            // SAFETY: as in `insert_here`.
            let retired = self.ask_seat(lane, Place::Here, |handle| unsafe {
                raw::teurlaks_seat_retire(handle, part)
            });
            match done(retired.status) {
                Ok(()) => gone += retired.count,
                Err(_) if gone > 0 => break,
                Err(refused) => return Err(refused),
            }
        }
        Ok(gone)
    }

    /// Gives back the pages of the seat's shard, or of all that it has, on which nothing is live,
    /// and says how many went. A group of the open plan keeps its page. It takes no memory.
    pub fn trim(&mut self) -> usize {
        let trim = |lane: &Owner| {
            // SAFETY: as in `insert_here`.
            let trimmed = self.ask_seat(lane, Place::Here, |handle| unsafe {
                raw::teurlaks_seat_trim(handle)
            });
            debug_assert_eq!(trimmed.status, raw::OK, "a trim is not refused");
            trimmed.count
        };
        self.lanes.all().map(trim).sum()
    }

    /// Moves each page of the seat's shard, or of all that it has, to a block of memory that it
    /// asks for now. Pages of less than 4,096 bytes share pages of the system, and those that this
    /// empties leave the process. No key changes. The shard is locked for 16 pages at a time. If
    /// there are such pages by [`Limits::slots`](crate::Limits::slots), [`Seat::help_compact`] does
    /// so.
    ///
    /// # Errors
    ///
    /// [`Refused::OutOfMemory`]: a block was refused. Some pages have moved then.
    pub fn gather(&mut self) -> Result<(), Refused> {
        self.lanes.all().try_for_each(|lane| self.gather_at(lane))
    }

    /// Does so of one shard.
    fn gather_at(&self, lane: &Owner) -> Result<(), Refused> {
        let mut from = 0;
        loop {
            // SAFETY: as in `insert_here`.
            let raw::GatherReply { status, count } =
                self.ask_seat(lane, Place::Here, |handle| unsafe {
                    raw::teurlaks_seat_gather(handle, from, GATHERED)
                });
            done(status)?;
            if count < GATHERED {
                return Ok(());
            }
            from += count;
        }
    }

    /// Moves the pool's group of lowest head that has a page to the seat's shard, or to the next of
    /// several that may have a further page, and gives its name.
    ///
    /// # Errors
    ///
    /// - [`Refused::PagesSpent`]: the shard has as many groups as it may have pages;
    /// - [`Refused::Ended`]: it has ended;
    /// - [`Refused::PlanOpen`]: a plan is open;
    /// - [`Refused::NothingToAdopt`]: no group of the pool has a page;
    /// - [`Refused::OutOfMemory`]: none of these holds, and memory was refused.
    pub fn adopt(&mut self) -> Result<Group, Refused> {
        for _ in 0..self.lanes.len() {
            // SAFETY: as in `insert_here`.
            let adopted = self.ask_seat(self.lanes.here(), Place::Here, |handle| unsafe {
                raw::teurlaks_seat_adopt(handle)
            });
            match done(adopted.status) {
                Err(Refused::PagesSpent) => self.next_lane(),
                answer => return answer.map(|()| Group(adopted.head)),
            }
        }
        Err(Refused::PagesSpent)
    }
}

impl<T> fmt::Debug for Seat<T> {
    fn fmt(&self, f: &mut fmt::Formatter<'_>) -> fmt::Result {
        f.debug_struct("Seat").finish_non_exhaustive()
    }
}

/// A seat of values with a longer life is none of values with a shorter one: else what is kept at
/// one seat would be read at another after its end.
///
/// ```compile_fail
/// use teurlaks::arena::Seat;
///
/// fn shorten<'s>(seat: Seat<&'static str>) -> Seat<&'s str> {
///     seat
/// }
/// ```
#[cfg(doctest)]
struct OneType;
