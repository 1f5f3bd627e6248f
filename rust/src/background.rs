//! Compaction on a thread of its own.

use crate::compact::Compacted;
use crate::occupancy::pays;
use crate::refused::Refused;
use std::fmt;
use std::io;
use std::sync::atomic::{AtomicUsize, Ordering};
use std::sync::{Arc, Condvar, Mutex, PoisonError};
use std::thread::{self, JoinHandle};
use std::time::Duration;

/// When a compaction in the background runs, and how much it does at a time: of
/// [`SharedStore::compact_in_background`](crate::SharedStore::compact_in_background) and
/// [`Arena::compact_in_background`](crate::Arena::compact_in_background).
#[derive(Clone, Copy, Debug, PartialEq, Eq, Hash)]
pub struct Policy {
    /// How long it sleeps between two looks at the numbers of pages and of live keys. Less than a
    /// millisecond counts as one. To count pages takes a look at up to 4,096 of each shard, or at
    /// each of an [`Arena`](crate::Arena): it does so where enough keys were freed since the last
    /// time, and at every eighth look.
    pub interval: Duration,
    /// How many steps a part of a compaction has: after each the thread lets others run, and looks
    /// whether it is to end.
    pub budget: usize,
    /// How many percent of the pages must be able to go for a compaction to begin. The estimate is
    /// the number of pages without those that what is live needs if they were full, so it is too
    /// high if values stand at the same slots of many pages. After a compaction by which fewer went
    /// the next one waits for 1 interval, then 3, 7 and so on up to 63, unless so many further
    /// pages could go.
    pub least_percent: usize,
}

impl Default for Policy {
    /// A look every 100 milliseconds, parts of 256 steps, and a compaction where 25 % of the pages
    /// could go. With shorter parts it gets a processor too seldom beside busy threads, and with
    /// longer ones hardly sooner: by the measurement that `bench/library/policies` makes.
    fn default() -> Policy {
        Policy {
            interval: Duration::from_millis(100),
            budget: 256,
            least_percent: 25,
        }
    }
}

impl Policy {
    /// Whether a compaction pays of so many pages of which so many may go.
    fn pays(&self, pages: usize, may_go: usize) -> bool {
        pays(pages, may_go, self.least_percent)
    }
}

/// What is compacted in the background.
pub(crate) trait Compacts: Send + 'static {
    /// About how many pages there are, and how many of them can go at most.
    fn pages_and_most_folds(&self) -> (usize, usize);

    /// How many keys are live, if that is known with no such walk.
    fn live(&self) -> Option<usize> {
        None
    }

    /// Has others begin what they do for a compaction.
    fn prepare(&self) {}

    /// Whether the others are done, as far as can be said.
    fn is_prepared(&self) -> bool {
        true
    }

    /// Takes so many steps of a compaction.
    fn compact_part(&self, budget: usize) -> Result<Compacted, Refused>;

    /// Ends a compaction where it is.
    fn give_up(&self);
}

/// A compaction on a thread of its own, until this is dropped.
#[must_use = "the compaction ends when this is dropped"]
pub struct Background {
    shared: Arc<Shared>,
    // Until it is joined.
    thread: Option<JoinHandle<()>>,
}

/// What the thread and its guard share.
struct Shared {
    is_over: Mutex<bool>,
    ends: Condvar,
    // How many pages went.
    pages: AtomicUsize,
}

impl Shared {
    /// Sleeps for so long, or until the guard is dropped, and says whether that is so.
    fn sleep(&self, interval: Duration) -> bool {
        let is_over = self.is_over.lock().unwrap_or_else(PoisonError::into_inner);
        let slept = self
            .ends
            .wait_timeout_while(is_over, interval, |is_over| !*is_over);
        *slept.unwrap_or_else(PoisonError::into_inner).0
    }

    fn is_over(&self) -> bool {
        *self.is_over.lock().unwrap_or_else(PoisonError::into_inner)
    }
}

impl Background {
    /// Begins the thread.
    pub(crate) fn begin(policy: Policy, compacts: impl Compacts) -> io::Result<Background> {
        let shared = Arc::new(Shared {
            is_over: Mutex::new(false),
            ends: Condvar::new(),
            pages: AtomicUsize::new(0),
        });
        let with_thread = Arc::clone(&shared);
        let thread = thread::Builder::new()
            .name("teurlaks".into())
            .spawn(move || run(policy, &compacts, &with_thread))?;
        Ok(Background {
            shared,
            thread: Some(thread),
        })
    }

    /// How many pages it has given back so far.
    #[must_use]
    pub fn pages(&self) -> usize {
        self.shared.pages.load(Ordering::Relaxed)
    }
}

/// For how many intervals others are waited for at most, and for how many a compaction waits that
/// would hardly give anything.
const MOST_WAITS: u32 = 63;

/// How many looks one that has counted the pages stands for.
const MOST_LOOKS: u32 = 8;

/// What is known of the pages since they were counted, and too few could go.
struct Seen {
    // How many keys were live at most since then, and how many of them must be freed before enough
    // pages can go.
    live: usize,
    frees: usize,
    looks: u32,
}

impl Seen {
    /// After a count of so many keys and pages, of which so many can go at most.
    fn of(policy: Policy, live: Option<usize>, pages: usize, most_folds: usize) -> Option<Seen> {
        let live = live?;
        let wanted = pages
            .saturating_mul(policy.least_percent)
            .saturating_add(99)
            / 100;
        // Each page that can go takes as many frees as the others have keys.
        let of_a_page = live / (pages - most_folds).max(1);
        Some(Seen {
            live,
            frees: wanted.saturating_sub(most_folds) * of_a_page,
            looks: 0,
        })
    }

    /// Whether too few pages can go still, where so many keys are live.
    fn holds(&mut self, live: Option<usize>) -> bool {
        let Some(live) = live else { return false };
        self.live = self.live.max(live);
        self.looks += 1;
        self.looks < MOST_LOOKS && live + self.frees > self.live
    }
}

/// Looks, sleeps and compacts until the guard is dropped.
fn run(policy: Policy, compacts: &impl Compacts, shared: &Shared) {
    let interval = policy.interval.max(Duration::from_millis(1));
    // For how many intervals the next compaction waits, and how many more pages could go after the
    // last one.
    let (mut pause, mut waits, mut stay) = (0, 0, 0);
    let mut seen: Option<Seen> = None;
    while !shared.sleep(interval) {
        let live = compacts.live();
        if seen.as_mut().is_some_and(|seen| seen.holds(live)) {
            continue;
        }
        let (pages, most_folds) = compacts.pages_and_most_folds();
        if !policy.pays(pages, most_folds) {
            seen = Seen::of(policy, live, pages, most_folds);
            continue;
        }
        seen = None;
        if waits > 0 && !policy.pays(pages, most_folds.saturating_sub(stay)) {
            waits -= 1;
            continue;
        }
        compacts.prepare();
        for _ in 0..MOST_WAITS {
            if compacts.is_prepared() || shared.sleep(interval) {
                break;
            }
        }
        let before = shared.pages.load(Ordering::Relaxed);
        // If memory is refused, there may be some again later.
        let _ = compact(policy, compacts, shared);
        let gone = shared.pages.load(Ordering::Relaxed) - before;
        pause = if policy.pays(pages, gone) {
            0
        } else {
            MOST_WAITS.min(2 * pause + 1)
        };
        waits = pause;
        stay = compacts.pages_and_most_folds().1;
    }
    compacts.give_up();
}

/// Compacts in parts until there is no more to do, or the guard is dropped.
fn compact(policy: Policy, compacts: &impl Compacts, shared: &Shared) -> Result<(), Refused> {
    while !shared.is_over() {
        let done = compacts.compact_part(policy.budget)?;
        shared.pages.fetch_add(done.pages, Ordering::Relaxed);
        if !done.more {
            break;
        }
        thread::yield_now();
    }
    Ok(())
}

impl Drop for Background {
    fn drop(&mut self) {
        *self
            .shared
            .is_over
            .lock()
            .unwrap_or_else(PoisonError::into_inner) = true;
        self.shared.ends.notify_all();
        // Its panic would be one of the store's, which was reported when it came.
        let _ = self.thread.take().map(JoinHandle::join);
    }
}

impl fmt::Debug for Background {
    fn fmt(&self, f: &mut fmt::Formatter<'_>) -> fmt::Result {
        f.debug_struct("Background")
            .field("pages", &self.pages())
            .finish_non_exhaustive()
    }
}

#[cfg(test)]
mod tests {
    use super::{Background, Compacts, Policy};
    use crate::compact::Compacted;
    use crate::refused::Refused;
    use std::sync::{Arc, Mutex};
    use std::thread;
    use std::time::{Duration, Instant};

    /// Pages that only count: of 16 keys each, and all that can go go, ten a part.
    #[derive(Default)]
    struct Counts {
        pages: usize,
        live: usize,
        looks: usize,
        walks: usize,
        // At which look it walked first where much could go.
        walked_at: usize,
        budgets: Vec<usize>,
    }

    #[derive(Clone, Default)]
    struct Counting(Arc<Mutex<Counts>>);

    impl Counting {
        fn with<R>(&self, call: impl FnOnce(&mut Counts) -> R) -> R {
            call(&mut self.0.lock().unwrap())
        }

        fn waits_until(&self, is_so: impl Fn(&Counts) -> bool) {
            while !self.with(|counts| is_so(counts)) {
                thread::sleep(Duration::from_millis(1));
            }
        }
    }

    impl Compacts for Counting {
        fn pages_and_most_folds(&self) -> (usize, usize) {
            self.with(|counts| {
                counts.walks += 1;
                if counts.pages == 100 && counts.live == 400 {
                    counts.walked_at = counts.looks;
                }
                (counts.pages, counts.pages - (counts.live + 15) / 16)
            })
        }

        fn live(&self) -> Option<usize> {
            self.with(|counts| {
                counts.looks += 1;
                Some(counts.live)
            })
        }

        fn compact_part(&self, budget: usize) -> Result<Compacted, Refused> {
            self.with(|counts| {
                counts.budgets.push(budget);
                let left = (counts.live + 15) / 16;
                let pages = 10.min(counts.pages - left);
                counts.pages -= pages;
                let more = counts.pages > left;
                Ok(Compacted { pages, more })
            })
        }

        fn give_up(&self) {}
    }

    #[test]
    fn counts_pages_where_enough_was_freed() {
        let policy = Policy {
            interval: Duration::from_millis(1),
            budget: 7,
            least_percent: 25,
        };
        let counting = Counting::default();
        counting.with(|counts| (counts.pages, counts.live) = (100, 1600));
        let background = Background::begin(policy, counting.clone()).unwrap();
        // What is full is counted at one look of eight.
        counting.waits_until(|counts| counts.looks >= 80);
        // 24 of 100 pages could go, and that is too few.
        counting.with(|counts| {
            let walks = counts.looks / 8;
            assert!(
                (walks - 1..=walks + 2).contains(&counts.walks),
                "{} walks",
                counts.walks
            );
            counts.live = 1600 - 24 * 16;
            counts.looks = 0;
        });
        counting.waits_until(|counts| counts.looks >= 32);
        counting.with(|counts| {
            assert!(counts.budgets.is_empty());
            // It is counted that the keys were more meanwhile.
            counts.live = 1600;
        });
        let looks = counting.with(|counts| counts.looks);
        counting.waits_until(|counts| counts.looks > looks + 1);
        counting.with(|counts| counts.live = 1600 - 25 * 16);
        counting.waits_until(|counts| counts.pages == 75);
        counting.with(|counts| assert_eq!(counts.budgets, [7; 3]));
        counting.waits_until(|_| background.pages() == 25);
        // What was put since it last counted counts too.
        counting.with(|counts| (counts.pages, counts.live) = (20, 320));
        let walks = counting.with(|counts| counts.walks);
        counting.waits_until(|counts| counts.walks > walks + 1);
        let looks = counting.with(|counts| {
            (counts.pages, counts.live) = (100, 1600);
            counts.looks
        });
        counting.waits_until(|counts| counts.looks > looks + 1);
        let looks = counting.with(|counts| {
            counts.live = 400;
            counts.looks
        });
        counting.waits_until(|counts| counts.pages == 25);
        counting.with(|counts| assert!(counts.walked_at <= looks + 3));
        drop(background);
        assert_eq!(Arc::strong_count(&counting.0), 1);
    }

    /// Pages of which some can go by their numbers, and none does.
    #[derive(Clone, Default)]
    struct Stuck(Arc<Mutex<Sticking>>);

    #[derive(Default)]
    struct Sticking {
        most_folds: usize,
        looks: usize,
        parts: usize,
        given_up: usize,
        // How often it was asked whether others are prepared since they were to prepare.
        asked: usize,
    }

    impl Stuck {
        fn with<R>(&self, call: impl FnOnce(&mut Sticking) -> R) -> R {
            call(&mut self.0.lock().unwrap())
        }

        fn waits_until(&self, is_so: impl Fn(&Sticking) -> bool) {
            while !self.with(|sticking| is_so(sticking)) {
                thread::sleep(Duration::from_millis(1));
            }
        }
    }

    impl Compacts for Stuck {
        fn pages_and_most_folds(&self) -> (usize, usize) {
            self.with(|sticking| {
                sticking.looks += 1;
                (100, sticking.most_folds)
            })
        }

        fn prepare(&self) {
            self.with(|sticking| sticking.asked = 0);
        }

        fn is_prepared(&self) -> bool {
            self.with(|sticking| {
                sticking.asked += 1;
                sticking.asked == 3
            })
        }

        fn compact_part(&self, _budget: usize) -> Result<Compacted, Refused> {
            self.with(|sticking| {
                assert_eq!(sticking.asked, 3);
                sticking.parts += 1;
            });
            Ok(Compacted::default())
        }

        fn give_up(&self) {
            self.with(|sticking| sticking.given_up += 1);
        }
    }

    /// Longer and longer, until more can go; and it sleeps a millisecond at least each time.
    #[test]
    fn waits_where_nothing_went() {
        let policy = Policy {
            interval: Duration::ZERO,
            budget: 7,
            least_percent: 25,
        };
        let stuck = Stuck::default();
        stuck.with(|sticking| sticking.most_folds = 50);
        let began = Instant::now();
        let background = Background::begin(policy, stuck.clone()).unwrap();
        stuck.waits_until(|sticking| sticking.looks >= 100);
        let parts = stuck.with(|sticking| {
            // With two looks for each part and one for each sleep.
            let most = began.elapsed().as_millis() as usize + 2 * sticking.parts;
            assert!(sticking.looks <= most + 1, "{} looks", sticking.looks);
            assert!((5..9).contains(&sticking.parts), "{} parts", sticking.parts);
            (sticking.most_folds, sticking.looks) = (75, 0);
            sticking.parts
        });
        stuck.waits_until(|sticking| sticking.looks >= 5);
        stuck.with(|sticking| assert!(sticking.parts > parts));
        assert_eq!(stuck.with(|sticking| sticking.given_up), 0);
        drop(background);
        assert_eq!(stuck.with(|sticking| sticking.given_up), 1);
    }
}
