//! How a taker waits.

use super::super::share::Share;
use super::{fence, AllLanes, Lane, Ordering, Owner, Taker, WANTED};
use crate::raw;
use std::path::{Path, PathBuf};
use std::sync::mpsc::channel;
use std::sync::Arc;
use std::time::{Duration, Instant};
use std::{fs, thread};

/// How long what takes milliseconds may take beside other programs.
const LONG: Duration = Duration::from_secs(60);

/// Where Linux tells of this thread.
fn this_thread() -> Option<PathBuf> {
    Some(Path::new("/proc").join(fs::read_link("/proc/thread-self").ok()?))
}

/// How often that thread has slept.
fn sleeps(thread: &Path) -> Option<u64> {
    let status = fs::read_to_string(thread.join("status")).ok()?;
    let mut lines = status.lines();
    let counted = lines.find_map(|line| line.strip_prefix("voluntary_ctxt_switches:"))?;
    counted.trim().parse().ok()
}

/// Whether that thread sleeps again and again before long. It is true if the system does not tell.
fn sleeps_soon(thread: &Path) -> bool {
    let begun = Instant::now();
    let before = sleeps(thread);
    while sleeps(thread)
        .zip(before)
        .is_some_and(|(now, before)| now < before + 20)
    {
        if begun.elapsed() > LONG {
            return false;
        }
        thread::sleep(Duration::from_millis(10));
    }
    true
}

/// Who waits for the end of a call sleeps soon. By a yield alone a real-time thread lets no owner
/// run that waits for its processor.
#[test]
fn who_waits_for_a_call_sleeps() {
    let lane = Arc::new(Lane::new());
    lane.owner.0.in_call.store(true, Ordering::Relaxed);
    let (say, told) = channel();
    let taker = thread::spawn({
        let lane = Arc::clone(&lane);
        move || {
            say.send(this_thread()).unwrap();
            lane.await_call();
        }
    });
    let sleeps_soon = told
        .recv()
        .unwrap()
        .map_or(true, |taker| sleeps_soon(&taker));
    lane.owner.0.in_call.store(false, Ordering::Release);
    taker.join().unwrap();
    assert!(sleeps_soon);
}

/// The lanes of an arena of two seats, which keep their shards, with its steward.
fn two_that_keep() -> (Share, AllLanes, Owner, Owner) {
    // SAFETY: the handle has nothing yet.
    let open = |out| unsafe {
        raw::teurlaks_arena_open_with_slots(out, 2, 16, u32::MAX, 256, 8, u32::MAX)
    };
    let share = Share::new(open).expect("there is memory");
    let (lanes, mut owners) = AllLanes::new(2);
    for owner in &owners {
        // SAFETY: the one handle has a steward, and the other one nothing yet.
        let sits = owner.sit(|out| unsafe { raw::teurlaks_steward_seat(share.handle(), out) });
        assert_eq!(sits, Ok(()));
        owner.keep();
        assert!(owner.keeps());
    }
    let (second, first) = (owners.pop(), owners.pop());
    (
        share,
        lanes,
        first.expect("there are two"),
        second.expect("there are two"),
    )
}

/// While a taker waits for the call of one owner, another one opens its own door and goes on.
#[test]
fn who_waits_for_one_call_keeps_no_other_owner_waiting() {
    if !fence::is_there() {
        return;
    }
    let _alone = fence::tests::alone();
    let (_share, lanes, first, second) = two_that_keep();
    let call = first.enter().expect("nobody takes its shard");
    let goes_on = thread::scope(|scope| {
        let lanes = &lanes;
        scope.spawn(move || assert!(lanes.take_all_back(Taker::Steward)));
        let (say, told) = channel();
        scope.spawn(move || {
            while lanes.0[1].door.0.state.load(Ordering::Relaxed) & WANTED == 0 {
                thread::yield_now();
            }
            second.let_go();
            let _ = say.send(());
            second
        });
        let goes_on = told.recv_timeout(LONG);
        drop(call);
        goes_on
    });
    assert!(goes_on.is_ok() && !first.keeps());
}
