//! Threads in a session that make calls outside of it: no call waits for a session of its own
//! thread.

use std::any::Any;
use std::mem;
use std::panic::{catch_unwind, AssertUnwindSafe};
use std::sync::mpsc::channel;
use std::sync::Barrier;
use std::thread;
use std::time::Duration;
use teurlaks::arena::{Arena, Seat, Totals};
use teurlaks::{Key, Limits, Refused, Stepped};

/// How long a test may take whose calls wait for nobody.
const LONG: Duration = Duration::from_secs(60);

fn limits(shards: u32) -> Limits {
    Limits {
        shards,
        pages: 64,
        ..Limits::default()
    }
}

/// Has a thread do it, which is to be done before long.
fn comes_to_an_end<R: Send + 'static>(work: impl FnOnce() -> R + Send + 'static) -> R {
    let (say, done) = channel();
    thread::spawn(move || say.send(work()));
    done.recv_timeout(LONG)
        .expect("no call waits for ever, and none fails")
}

/// Whether this is what a call says that would wait for a session.
fn speaks_of_a_session(said: &(dyn Any + Send)) -> bool {
    let words = said.downcast_ref::<&str>().copied();
    words.is_some_and(|words| words.contains("session"))
}

/// The call panics, and says why.
#[track_caller]
fn panics<R>(call: impl FnOnce() -> R) {
    match catch_unwind(AssertUnwindSafe(call)) {
        Ok(_) => panic!("it does not panic"),
        Err(said) => assert!(speaks_of_a_session(&*said)),
    }
}

/// Two seats with some values each, and their keys.
type Pair = (Arena<u64>, Seat<u64>, Vec<Key>, Seat<u64>, Vec<Key>);

fn pair() -> Result<Pair, Refused> {
    let mut arena = Arena::open(limits(2))?;
    let (mut here, mut there) = (arena.seat()?, arena.seat()?);
    let own = (0..10)
        .map(|value| here.insert(value))
        .collect::<Result<_, _>>()?;
    let others = (10..20)
        .map(|value| there.insert(value))
        .collect::<Result<_, _>>()?;
    Ok((arena, here, own, there, others))
}

#[test]
fn the_arena_does_not_wait_for_its_own_thread() -> Result<(), Refused> {
    comes_to_an_end(|| {
        let (mut arena, mut here, own, mut there, _) = pair()?;
        let mut session = here.session();
        panics(|| arena.totals());
        panics(|| arena.keys().count());
        assert_eq!(arena.mark(), Err(Refused::Busy));
        assert_eq!(arena.mark_some(), Err(Refused::Busy));
        assert_eq!(arena.mesh(), Err(Refused::Busy));
        assert_eq!(arena.forget(), Err(Refused::Busy));
        // Nothing has come of it, and the session goes on.
        assert_eq!((session.get(own[3]), session.free(own[3])), (Some(3), true));
        drop(session);
        assert_eq!(arena.totals(), Totals { pages: 2, live: 19 });
        assert_eq!((arena.keys().count(), arena.mesh()), (19, Ok(0)));
        there.end()
    })
}

#[test]
fn a_plan_waits_until_the_session_is_over() -> Result<(), Refused> {
    comes_to_an_end(|| {
        let (mut arena, mut here, own, mut there, others) = pair()?;
        assert!(here.free(own[0]) && (1..10).all(|at| there.free(others[at])));
        there.end()?;
        assert_eq!(arena.mark()?.folds, 1);
        let session = here.session();
        assert_eq!(
            (arena.step(), arena.close()),
            (Err(Refused::Busy), Err(Refused::Busy))
        );
        drop(session);
        assert!(matches!(arena.step()?, Stepped::Folded(..)));
        assert_eq!((arena.close(), here.get(others[0])), (Ok(()), Some(10)));
        Ok(())
    })
}

#[test]
fn another_seat_does_not_wait_for_its_own_thread() -> Result<(), Refused> {
    comes_to_an_end(|| {
        let (_arena, mut here, own, mut there, others) = pair()?;
        let session = here.session();
        panics(|| there.get(own[1]));
        panics(|| there.contains(own[1]));
        panics(|| there.free(own[1]));
        panics(|| there.remove(own[1]));
        panics(|| there.keys().count());
        assert_eq!(there.set(own[1], 7), Err(Refused::Busy));
        // What needs nothing of the session's goes on.
        let key = there.insert(20)?;
        assert_eq!(
            (there.get(key), there.remove(others[0])),
            (Some(20), Some(10))
        );
        assert_eq!(
            (there.retire(9), there.adopt().is_ok(), there.trim()),
            (Ok(1), true, 0)
        );
        assert_eq!(
            (there.end(), there.begin(), there.tend()),
            (Ok(()), Ok(()), Ok(0))
        );
        assert_eq!(session.get(own[1]), Some(1));
        drop(session);
        assert_eq!(
            (there.set(own[1], 7), there.remove(own[1])),
            (Ok(true), Some(7))
        );
        Ok(())
    })
}

/// What the session's shard has adopted is found out to be there, also of a key that another shard
/// gave out.
#[test]
fn another_seat_does_not_wait_for_what_was_adopted() -> Result<(), Refused> {
    comes_to_an_end(|| {
        let (_arena, mut here, _, mut there, others) = pair()?;
        assert_eq!(there.retire(9), Ok(1));
        here.adopt()?;
        here.free_later(others[1])?;
        here.hand_over();
        let mut session = here.session();
        assert_eq!(there.tend(), Err(Refused::Busy));
        assert_eq!(there.set(others[2], 7), Err(Refused::Busy));
        panics(|| there.get(others[2]));
        assert!(session.free(others[2]));
        drop(session);
        assert_eq!((there.tend(), there.get(others[3])), (Ok(1), Some(13)));
        Ok(())
    })
}

#[test]
fn a_session_does_not_wait_for_another_of_its_thread() -> Result<(), Refused> {
    comes_to_an_end(|| {
        let (mut arena, mut here, own, mut there, others) = pair()?;
        let (mut first, mut second) = (here.session(), there.session());
        panics(|| first.get(others[1]));
        assert_eq!(second.set(own[1], 7), Err(Refused::Busy));
        // Both go on.
        assert!(first.insert(30).is_ok() && second.free(others[1]));
        panics(|| arena.totals());
        drop(second);
        assert_eq!(
            (first.get(others[1]), first.get(others[2])),
            (None, Some(12))
        );
        panics(|| arena.totals());
        drop(first);
        assert_eq!(arena.totals().live, 20);
        Ok(())
    })
}

/// Two threads, each in a session of one arena, ask for how much there is in the other's.
#[test]
fn two_threads_do_not_wait_for_each_other() -> Result<(), Refused> {
    comes_to_an_end(|| {
        let arenas = [pair()?, pair()?];
        let [(first, mut here, ..), (second, mut there, ..)] = arenas;
        let both = Barrier::new(2);
        let ask = |seat: &mut Seat<u64>, mut arena: Arena<u64>| {
            let session = seat.session();
            both.wait();
            let told = catch_unwind(AssertUnwindSafe(|| arena.totals()));
            drop(session);
            both.wait();
            assert_eq!(arena.totals().live, 20);
            told.map_err(|said| assert!(speaks_of_a_session(&*said)))
        };
        let told = thread::scope(|scope| {
            let other = scope.spawn(|| ask(&mut there, first));
            [ask(&mut here, second), other.join().unwrap()]
        });
        assert!(told.iter().any(Result::is_err));
        Ok(())
    })
}

/// One that waits for another thread's session, and is in none, waits until that is over.
#[test]
fn a_thread_in_no_session_waits() -> Result<(), Refused> {
    comes_to_an_end(|| {
        let (mut arena, mut here, ..) = pair()?;
        let session = here.session();
        thread::scope(|scope| {
            let asks = scope.spawn(|| arena.totals());
            thread::sleep(Duration::from_millis(600));
            assert!(!asks.is_finished());
            drop(session);
            assert_eq!(asks.join().unwrap().live, 20);
        });
        Ok(())
    })
}

#[test]
fn a_plan_is_closed_when_the_session_is_over() -> Result<(), Refused> {
    comes_to_an_end(|| {
        let (mut arena, mut here, own, mut there, others) = pair()?;
        assert!(here.free(own[0]) && (1..10).all(|at| there.free(others[at])));
        there.end()?;
        assert_eq!(arena.mark()?.folds, 1);
        let mut session = here.session();
        drop(arena);
        assert_eq!(
            (session.get(own[1]), session.insert(30).is_ok()),
            (Some(1), true)
        );
        drop(session);
        // A plan that is open has a group of this shard.
        assert_eq!((here.end(), there.get(own[1])), (Ok(()), Some(1)));
        Ok(())
    })
}

#[test]
fn a_plan_is_closed_by_the_last_of_two_sessions() -> Result<(), Refused> {
    comes_to_an_end(|| {
        let (mut arena, mut here, own, mut there, others) = pair()?;
        assert!(here.free(own[0]) && (1..10).all(|at| there.free(others[at])));
        assert_eq!(there.retire(1), Ok(1));
        there.insert(30)?;
        assert_eq!(arena.mark()?.folds, 1);
        let (first, second) = (here.session(), there.session());
        drop(arena);
        drop(first);
        drop(second);
        assert_eq!((here.end(), there.end()), (Ok(()), Ok(())));
        Ok(())
    })
}

/// A session that is forgotten is over once its seat is dropped or taken back.
#[test]
fn a_forgotten_session_goes_with_its_seat() -> Result<(), Refused> {
    comes_to_an_end(|| {
        let (mut arena, mut here, own, mut there, _) = pair()?;
        mem::forget(here.session());
        panics(|| arena.totals());
        assert_eq!((here.get(own[1]), here.insert(30).is_ok()), (Some(1), true));
        arena
            .take_back(here)
            .map_err(|not_taken| not_taken.refused)?;
        assert_eq!(arena.totals().live, 21);
        mem::forget(there.session());
        panics(|| arena.totals());
        drop(there);
        assert_eq!(arena.totals().live, 21);
        Ok(())
    })
}
