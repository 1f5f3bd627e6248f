//! `shared PAGES`: a little cache that four threads share, 100,000 pages where no number is given.
//! At night one page of 15 is asked for, the others are let go of, and the store is compacted while
//! the threads go on. It prints what is resident, in kilobytes beyond what the program took before.

use std::process::ExitCode;
use std::sync::{Mutex, PoisonError};
use std::thread;
use teurlaks::{Key, Refused, SharedStore};

const THREADS: usize = 4;

/// A page as it was fetched, and when it was last asked for.
#[derive(Clone, Copy)]
struct Fetched {
    asked: u64,
    text: [u8; 232],
}

/// Pages by their numbers.
struct Cache {
    // A key stays here when its page is let go of. It finds nothing then, so nobody has to look for
    // it.
    keys: Vec<Mutex<Option<Key>>>,
    fetched: SharedStore<Fetched>,
}

impl Cache {
    fn new(pages: usize) -> Result<Cache, Refused> {
        Ok(Cache {
            keys: (0..pages).map(|_| Mutex::new(None)).collect(),
            fetched: SharedStore::new()?,
        })
    }

    /// The page, which is fetched where it is not there.
    fn get(&self, page: usize, now: u64) -> Result<Fetched, Refused> {
        let mut key = self.keys[page]
            .lock()
            .unwrap_or_else(PoisonError::into_inner);
        if let Some(key) = *key {
            let is_asked = |fetched: &mut Fetched| {
                fetched.asked = now;
                *fetched
            };
            if let Some(found) = self.fetched.update(key, is_asked)? {
                return Ok(found);
            }
        }
        let fetched = fetch(page, now);
        *key = Some(self.fetched.insert(fetched)?);
        Ok(fetched)
    }

    /// Lets go of all that was not asked for since then.
    fn let_go(&self, since: u64) {
        self.fetched.retain(|_, fetched| fetched.asked >= since);
    }
}

fn fetch(page: usize, asked: u64) -> Fetched {
    let text = [page as u8; 232];
    Fetched { asked, text }
}

/// Each thread asks for its part of the pages, of which every so many-th is asked for.
fn ask(cache: &Cache, every: usize, now: u64) -> Result<(), Refused> {
    let ask_part = |part: usize| {
        let mut pages = (0..cache.keys.len())
            .step_by(every)
            .skip(part)
            .step_by(THREADS);
        pages.try_for_each(|page| {
            assert_eq!(cache.get(page, now)?.text, fetch(page, now).text);
            Ok(())
        })
    };
    thread::scope(|scope| {
        let ask_part = &ask_part;
        let threads: Vec<_> = (0..THREADS)
            .map(|part| scope.spawn(move || ask_part(part)))
            .collect();
        threads
            .into_iter()
            .try_for_each(|thread| thread.join().expect("it does not panic"))
    })
}

/// What the system counts as resident, in kilobytes.
fn resident() -> i64 {
    let status = std::fs::read_to_string("/proc/self/status").unwrap_or_default();
    let line = status.lines().find_map(|line| line.strip_prefix("VmRSS:"));
    line.and_then(|line| line.split_whitespace().next()?.parse().ok())
        .unwrap_or(0)
}

fn run(pages: usize) -> Result<(), Refused> {
    let cache = Cache::new(pages)?;
    let base = resident();
    let tell = |when: &str| {
        println!(
            "{when}: {} values, {} KB",
            cache.fetched.len(),
            resident() - base
        )
    };
    ask(&cache, 1, 1)?;
    tell("full");
    ask(&cache, 15, 2)?;
    cache.let_go(2);
    tell("let go");
    thread::scope(|scope| {
        let compacts = scope.spawn(|| cache.fetched.compact());
        ask(&cache, 15, 3)?;
        compacts.join().expect("it does not panic")
    })?;
    tell("compacted");
    Ok(())
}

fn main() -> ExitCode {
    let pages = std::env::args()
        .nth(1)
        .map_or(Ok(100_000), |word| word.parse());
    match pages.map(run) {
        Ok(Ok(())) => ExitCode::SUCCESS,
        Ok(Err(refused)) => {
            eprintln!("refused: {refused}");
            ExitCode::FAILURE
        }
        Err(_) => {
            eprintln!("shared PAGES");
            ExitCode::FAILURE
        }
    }
}
