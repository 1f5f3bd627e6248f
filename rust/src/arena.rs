//! Plain values that threads share, each from a seat of its own, under the locks of the proved
//! library.

mod compaction;
mod fence;
mod inside;
mod keys;
mod lane;
mod lanes;
mod recorded;
mod seat;
mod session;
mod share;
mod standing;

pub use keys::Keys;
pub use recorded::{AuditCause, AuditError, NotTaken};
pub use seat::Seat;
pub use session::Session;

use crate::boxed::Late;
use crate::bytes::{words_for, MOST_BYTES};
use crate::core::{certificate_text, done, marked, stepped, Limits, Marked, Stepped};
use crate::raw;
use crate::refused::Refused;
use compaction::Part;
use lanes::Lanes;
use share::no_wait_in_a_session;
use standing::{Numbers, Standing};
use std::cell::Cell;
use std::fmt;
use std::marker::PhantomData;
use std::mem::{self, size_of};

/// How many keys a ring holds where nobody says so.
const RING: u32 = 256;

/// Plain values of one type, 1 to 256 bytes each, that threads share, each from a [`Seat`] of its
/// own; and whose sparse pages are folded while they go on.
///
/// An arena has a shard for each seat, or several ([`Arena::with_lanes`]), and hands the seats out
/// one by one. A thread keeps its values in the shards of its seat, and reads, sets and frees those
/// of all. Whoever has the arena itself is its steward: it plans folds of the groups that seats
/// have left to the pool ([`Seat::retire`], [`Seat::end`]) onto those of the shards, and carries
/// them out beside the others. Every key stays valid.
///
/// Arena and seats may be dropped in any order, each may go to a thread of its own, also one of
/// [`std::thread::spawn`], and the memory goes with the last of them. For words, the values are
/// `u128`, or arrays of up to 16 of these.
///
/// ```
/// use std::thread;
/// use teurlaks::arena::{Arena, Totals};
/// use teurlaks::{Limits, Refused};
///
/// let mut arena = Arena::open(Limits { shards: 2, ..Limits::default() })?;
/// let (mut here, mut there) = (arena.seat()?, arena.seat()?);
/// let worker = thread::spawn(move || {
///     let keys: Vec<_> = (0..1000_u64).map(|n| there.insert(n)).collect::<Result<_, _>>()?;
///     there.end()?; // its pages go to the pool, and the seat goes with the thread
///     Ok::<_, Refused>(keys)
/// });
/// let seven = here.insert(7)?;
/// let keys = worker.join().unwrap()?;
/// for key in &keys[..999] {
///     assert!(here.free(*key)); // from whichever seat
/// }
/// assert_eq!(arena.mesh()?, 1); // the page with the last value goes onto the one that is here
/// assert_eq!(arena.totals(), Totals { pages: 1, live: 2 });
/// assert_eq!((here.get(keys[999]), here.get(seven)), (Some(999), Some(7)));
/// assert_eq!(here.get(keys[0]), None); // now and for ever
/// # Ok::<(), teurlaks::Refused>(())
/// ```
///
/// # What is proved, and what is tested
///
/// Of each call it is proved that it returns, that it does nothing undefined, and that it is the
/// call of the arena that it is named for, which works under its locks by calls on proved shards
/// and a proved pool; that nothing has changed where another thread has a lock that it needs, or,
/// of a tend, that it tells how far it came; and that a handle may go to another thread. No receipt
/// is made here, but in a recorded arena ([`Arena::open_recorded`]), whose audit says of a run that
/// is over that its calls have one history. That a call beside other threads does what the arena is
/// asked for is tested: of this crate by threads that each find what they expect
/// (`tests/arena.rs`), and of the calls that make receipts by runs whose receipts are audited
/// against one history (`docs/PROMISES.md`, *Running threads*). It is tested, too, that a call is
/// made again where a lock was taken. That one call at a time is made on a handle its types see to,
/// which are `Send` and not `Sync`; and where a seat keeps its shard and another thread takes that
/// back ([`Seat`]), an agreement between the two, which is argued (`src/arena/lane.rs`), gone over
/// by a model (`models/kept_shards.py`) and tested (`tests/keeping.rs`), and not proved.
///
/// A [`SharedStore`](crate::SharedStore) is called by any thread through `&self`, and has locks of
/// the standard library. An arena has proved ones, frees that wait for nobody, and folds between
/// shards; in return each thread needs a seat. A look-up, a free and a put of a thread's own value
/// take two thirds of the time that they take there, and a look-up of what other threads keep takes
/// as long (`bench/README.md`).
pub struct Arena<T> {
    numbers: Numbers,
    // It comes with the first call that needs it.
    standing: Late<Standing>,
    // Where a compaction in parts is, and the pages that went in refused calls of it.
    part: Part,
    gone: usize,
    // As of a seat.
    values: PhantomData<Cell<T>>,
}

/// What an arena keeps, at one time.
#[derive(Clone, Copy, Debug, Default, PartialEq, Eq, Hash)]
pub struct Totals {
    /// How many pages of up to 4,096 bytes there are.
    pub pages: usize,
    /// How many keys are live.
    pub live: usize,
}

impl<T: Copy> Arena<T> {
    const FITS: () = assert!(
        1 <= size_of::<T>() && size_of::<T>() <= MOST_BYTES,
        "a value of an arena has 1 to 256 bytes"
    );

    /// An arena of these limits with no value, which has a seat for each shard. It takes no memory
    /// until its first [`Arena::seat`] or mark. Between each two seats there is a ring of 256 keys
    /// for [`Seat::free_later`], of 16 bytes each, which comes with its first key.
    ///
    /// # Errors
    ///
    /// [`Refused::Config`] exactly if a number is out of its range.
    pub fn open(limits: Limits) -> Result<Arena<T>, Refused> {
        Arena::with_rings(limits, RING)
    }

    /// As [`Arena::open`], with rings of so many keys, 1 to 1,024.
    ///
    /// # Errors
    ///
    /// As of [`Arena::open`].
    pub fn with_rings(limits: Limits, keys: u32) -> Result<Arena<T>, Refused> {
        Arena::with_lanes(limits, keys, 1)
    }

    /// As [`Arena::with_rings`], with so many shards for each seat, where the limits' are one for
    /// each seat: 64 at most in all.
    ///
    /// A seat puts its values into its shards in turn, 64 into each, so that threads which look up
    /// what it keeps meet at one lock less often. In return its values stand on up to so many more
    /// pages that are not full, its shards have a ring from and to each other one, and what it
    /// leaves to the pool is chosen by shards.
    ///
    /// # Errors
    ///
    /// As of [`Arena::open`].
    ///
    /// ```
    /// use teurlaks::{Arena, Limits};
    ///
    /// // Four seats of four shards.
    /// let mut arena = Arena::with_lanes(Limits { shards: 4, ..Limits::default() }, 256, 4)?;
    /// let (mut here, there) = (arena.seat()?, arena.seat()?);
    /// let keys: Vec<_> = (0..1000).map(|n| here.insert(n)).collect::<Result<_, _>>()?;
    /// assert!(keys.iter().zip(0..).all(|(key, n)| there.get(*key) == Some(n)));
    /// assert_eq!(keys[0].shard(), keys[63].shard());
    /// assert_ne!(keys[0].shard(), keys[64].shard());
    /// # Ok::<(), teurlaks::Refused>(())
    /// ```
    pub fn with_lanes(limits: Limits, keys: u32, lanes: u32) -> Result<Arena<T>, Refused> {
        let () = Self::FITS;
        Arena::of(Numbers {
            limits,
            ring_keys: keys,
            lanes,
            is_recorded: false,
        })
    }
}

impl<T> Arena<T> {
    /// An arena of these numbers, which takes no memory yet.
    fn of(numbers: Numbers) -> Result<Arena<T>, Refused> {
        numbers.check()?;
        Ok(Arena {
            numbers,
            standing: Late::new(),
            part: Part::default(),
            gone: 0,
            values: PhantomData,
        })
    }

    /// What it has once it is asked for something.
    fn standing(&mut self) -> Result<&mut Standing, Refused> {
        if self.standing.get().is_none() {
            let standing = self.numbers.open()?;
            self.standing.make(|| standing)?;
        }
        Ok(&mut self.standing)
    }

    /// The numbers with which it was made.
    #[must_use]
    pub fn limits(&self) -> Limits {
        self.numbers.limits
    }

    /// Whether several of its pages share one of the system.
    fn has_small_pages(&self) -> bool {
        self.limits().has_small_pages(words_for(size_of::<T>()))
    }

    /// A seat that nobody has. There are as many as the limits have shards.
    ///
    /// # Errors
    ///
    /// - [`Refused::NoSeatLeft`]: each is handed out, and was not [taken back](Arena::take_back);
    /// - [`Refused::OutOfMemory`]: memory was refused.
    pub fn seat(&mut self) -> Result<Seat<T>, Refused> {
        let lanes = self.numbers.lanes as usize;
        let has_small_pages = self.has_small_pages();
        let standing = self.standing()?;
        while standing.next.len() < lanes - 1 {
            let lane = standing.lane()?;
            standing.next.push(lane);
        }
        let here = standing.lane()?;
        let lanes = Lanes::new(here, mem::take(&mut standing.next));
        let turn = standing.turn.clone();
        Ok(Seat::new(lanes, turn, has_small_pages))
    }

    /// Plans folds of the pool's groups onto those of the shards, as many as can be, and opens the
    /// plan. Until it is closed, the groups that it folds onto take no value, and no group is
    /// adopted. It holds all locks for as long as it plans.
    ///
    /// # Errors
    ///
    /// - [`Refused::PlanOpen`]: a plan is open;
    /// - [`Refused::TooMany`]: a side has more than 4,096 groups that have a page, of which
    ///   [`Arena::mark_some`] takes some;
    /// - [`Refused::OutOfMemory`]: none of these holds, and memory was refused;
    /// - [`Refused::Busy`]: it would wait for a session, and its thread is in one
    ///   ([`Seat::session`]).
    pub fn mark(&mut self) -> Result<Marked, Refused> {
        // SAFETY: the handle has a steward, and no other call runs on it.
        marked(
            self.standing()?
                .call(|share| unsafe { raw::teurlaks_steward_mark(share) }),
        )
    }

    /// Plans folds of the pool's groups onto those of the shards, as many as can be of the 4,096 of
    /// each side with the fewest live keys, and opens the plan. Until it is closed, the groups that
    /// it folds onto take no value, and no group is adopted. It holds all locks for as long as it
    /// plans.
    ///
    /// # Errors
    ///
    /// - [`Refused::PlanOpen`]: a plan is open;
    /// - [`Refused::OutOfMemory`]: none is, and memory was refused;
    /// - [`Refused::Busy`]: as of [`Arena::mark`].
    pub fn mark_some(&mut self) -> Result<Marked, Refused> {
        // SAFETY: the handle has a steward, and no other call runs on it.
        marked(
            self.standing()?
                .call(|share| unsafe { raw::teurlaks_steward_mark_some(share) }),
        )
    }

    /// Carries out the next pair of the open plan, under the locks of the pool and of one shard.
    ///
    /// # Errors
    ///
    /// - [`Refused::NoPlan`]: no plan is open;
    /// - [`Refused::OutOfMemory`]: memory was refused; the pair is then still the next;
    /// - [`Refused::Busy`]: as of [`Arena::mark`]; the pair is then still the next.
    pub fn step(&mut self) -> Result<Stepped, Refused> {
        // SAFETY: as in `mark_some`.
        stepped(
            self.standing()?
                .call(|share| unsafe { raw::teurlaks_steward_step(share) }),
        )
    }

    /// Closes the open plan; pairs that are left are dropped. It takes no memory. An arena that is
    /// dropped closes its plan, or leaves that to the end of a session of its own thread.
    ///
    /// # Errors
    ///
    /// - [`Refused::NoPlan`]: no plan is open;
    /// - [`Refused::Busy`]: as of [`Arena::mark`]; the plan is then still open.
    pub fn close(&mut self) -> Result<(), Refused> {
        done(self.standing.get().ok_or(Refused::NoPlan)?.close())?;
        self.note_closed();
        Ok(())
    }

    /// The text of the last mark's certificate, which shows that no plan of what it saw has more
    /// folds, or `None` before the first mark. `meshrun check` checks such a text without trusting
    /// who made it. It takes no lock.
    ///
    /// # Errors
    ///
    /// [`Refused::OutOfMemory`] where memory was refused for the text.
    pub fn certificate(&self) -> Result<Option<String>, Refused> {
        let Some(Standing { share, .. }) = self.standing.get() else {
            return Ok(None);
        };
        // SAFETY: the handle has a steward, no other call runs on it, and so many bytes stand
        // there.
        certificate_text(|text, len| unsafe {
            raw::teurlaks_steward_certificate(share.handle(), text, len)
        })
    }

    /// Marks, takes all steps and closes, and says how many folds there were, each of which gave a
    /// page back. The mark is that of [`Arena::mark_some`]; where it may not have seen all groups,
    /// and folds at least a sixteenth of those that it saw of the pool and at least one, there is
    /// another.
    ///
    /// # Errors
    ///
    /// - [`Refused::PlanOpen`]: a plan is open;
    /// - [`Refused::OutOfMemory`]: memory was refused to a mark or to a step; what was folded
    ///   before stays so, and no plan is open;
    /// - [`Refused::Busy`]: as of [`Arena::mark`]; what was folded before stays so, and a plan is
    ///   open if its close was refused.
    pub fn mesh(&mut self) -> Result<usize, Refused> {
        let mut gone = 0;
        if self.standing.get().is_none() {
            return Ok(gone);
        }
        loop {
            let marked = self.mark_some()?;
            let folded = self.take_steps();
            self.close()?;
            gone += folded?;
            if !marked.wants_another() {
                return Ok(gone);
            }
        }
    }

    /// Carries out all pairs of the open plan, and says how many folds there were.
    fn take_steps(&mut self) -> Result<usize, Refused> {
        let mut folded = 0;
        loop {
            match self.step()? {
                Stepped::Folded(..) => folded += 1,
                Stepped::Emptied(..) => {}
                Stepped::NoPairLeft => return Ok(folded),
            }
        }
    }

    /// Forgets what folds have brought to shards, and what the pool keeps, that can never be live
    /// again, with its generations, and says how many spans went: it holds all locks meanwhile.
    /// Nothing that a caller sees changes, but the memory that is kept. It asks for memory only to
    /// move a table to a smaller one, and is made without it if there is none.
    ///
    /// # Errors
    ///
    /// - [`Refused::PlanOpen`]: a plan is open;
    /// - [`Refused::Recorded`]: the run is recorded;
    /// - [`Refused::Busy`]: as of [`Arena::mark`].
    pub fn forget(&mut self) -> Result<usize, Refused> {
        let Some(standing) = self.standing.get() else {
            return if self.numbers.is_recorded {
                Err(Refused::Recorded)
            } else {
                Ok(0)
            };
        };
        // SAFETY: as in `mark_some`.
        let raw::ForgetReply { status, count } =
            standing.call(|share| unsafe { raw::teurlaks_steward_forget(share) });
        done(status)?;
        Ok(count)
    }

    /// The live keys, one after another, while other threads go on: no key comes twice, and each
    /// that is live all the while comes; one that is put or freed meanwhile may come or not. They
    /// come by the shards that gave them out, and by when they first did. It takes one lock at a
    /// time. A step panics if it would wait for a session, and its thread is in one
    /// ([`Seat::session`]).
    ///
    /// ```
    /// use teurlaks::{arena::Arena, Limits};
    ///
    /// let mut arena = Arena::open(Limits::default())?;
    /// let mut seat = arena.seat()?;
    /// let keys = [seat.insert(7)?, seat.insert(8)?, seat.insert(9)?];
    /// seat.free(keys[1]);
    /// assert!(arena.keys().eq([keys[0], keys[2]]));
    /// # Ok::<(), teurlaks::Refused>(())
    /// ```
    pub fn keys(&self) -> Keys<'_> {
        Keys::of_arena(self.standing.get())
    }

    /// How many pages there are and how many keys are live, at one time: it holds all locks
    /// meanwhile.
    ///
    /// # Panics
    ///
    /// If it would wait for a session, and its thread is in one ([`Seat::session`]).
    #[must_use]
    pub fn totals(&mut self) -> Totals {
        let Some(standing) = self.standing.get() else {
            return Totals::default();
        };
        // SAFETY: as in `mark_some`.
        let totals = standing.call(|share| unsafe { raw::teurlaks_steward_totals(share) });
        if totals.status == raw::BUSY {
            no_wait_in_a_session();
        }
        debug_assert!(
            matches!(totals.status, raw::OK | raw::NO_CORE),
            "totals are refused only where the arena is over"
        );
        Totals {
            pages: totals.pages,
            live: totals.live,
        }
    }
}

impl<T> Drop for Arena<T> {
    fn drop(&mut self) {
        // Else the groups of its plan would take no value, and their shards could not end. When
        // that would wait for a session of this thread, who leaves the session does so.
        if let Some(standing) = self.standing.get_mut() {
            if standing.close() == raw::BUSY {
                standing.turn.leave_plan(standing.share.take());
            }
        }
    }
}

impl<T> fmt::Debug for Arena<T> {
    fn fmt(&self, f: &mut fmt::Formatter<'_>) -> fmt::Result {
        f.debug_struct("Arena")
            .field("limits", &self.limits())
            .finish_non_exhaustive()
    }
}
