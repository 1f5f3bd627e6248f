//! `lent SESSIONS`: sessions that four threads share by reference, 10,000 where no number is given.
//! Threads write to sessions that they look up, while another ends most of them. A session that
//! ends is dropped when the last thread is done with it. It prints how many are left, and on how
//! many pages.

use std::process::ExitCode;
use std::sync::atomic::{AtomicUsize, Ordering};
use std::sync::Mutex;
use std::thread;
use teurlaks::{Key, Refused, SharedSlab};

const THREADS: usize = 4;

/// What a user did, and who counts how many sessions have ended.
struct Session<'e> {
    user: usize,
    lines: Mutex<Vec<String>>,
    ended: &'e AtomicUsize,
}

impl Drop for Session<'_> {
    fn drop(&mut self) {
        self.ended.fetch_add(1, Ordering::Relaxed);
    }
}

/// Writes a line to each session that is still there.
fn write(sessions: &SharedSlab<Session<'_>>, keys: &[Key], part: usize) {
    for (user, key) in keys.iter().enumerate().skip(part).step_by(THREADS) {
        // While it is lent, it is neither dropped nor moved.
        if let Some(session) = sessions.get(*key) {
            assert_eq!(session.user, user);
            let mut lines = session.lines.lock().expect("nobody panics");
            lines.push(format!("hello from {part}"));
        }
    }
}

/// How many sessions are left of so many, and on how many pages.
fn run(users: usize) -> Result<(usize, usize), Refused> {
    let ended = AtomicUsize::new(0);
    let sessions = SharedSlab::new()?;
    let open = |user| {
        let lines = Mutex::default();
        sessions.insert(Session {
            user,
            lines,
            ended: &ended,
        })
    };
    let keys: Vec<Key> = (0..users).map(open).collect::<Result<_, _>>()?;
    thread::scope(|scope| {
        for part in 0..THREADS {
            let (sessions, keys) = (&sessions, &keys);
            scope.spawn(move || write(sessions, keys, part));
        }
        for key in keys
            .iter()
            .enumerate()
            .filter(|(user, _)| user % 20 != 0)
            .map(|(_, key)| key)
        {
            assert!(sessions.remove(*key));
        }
    });
    sessions.compact()?;
    assert_eq!(sessions.len() + ended.load(Ordering::Relaxed), users);
    Ok((sessions.len(), sessions.pages()))
}

fn main() -> ExitCode {
    let users = std::env::args()
        .nth(1)
        .map_or(Ok(10_000), |number| number.parse());
    let Ok(users) = users else {
        eprintln!("lent SESSIONS");
        return ExitCode::from(2);
    };
    match run(users) {
        Ok((left, pages)) => {
            println!("{left} sessions are left on {pages} pages");
            ExitCode::SUCCESS
        }
        Err(refused) => {
            eprintln!("lent: {refused}");
            ExitCode::FAILURE
        }
    }
}
