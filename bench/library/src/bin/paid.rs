//! What a compaction takes: milliseconds of a processor, and pages before and after it.
//!
//!   paid pages SLOTS            of pages as `bench/plans/divisions` prints them
//!   paid thinned PAGES ONE_IN   of so many full pages of 64 objects, of which one in so many stays
//!
//! A second compaction follows, which has nothing left to fold, and its milliseconds are printed
//! last. Every key is looked up between both.

use beside::clock::used;
use beside::pages::{self, Occupied, SHARDS, TURN};
use beside::random::Random;
use std::process::ExitCode;
use teurlaks::{Core, Key, Limits, Refused};

/// A core with so many shards of so many pages, and its live keys with the first words of theirs.
struct Filled {
    core: Core,
    keys: Vec<(Key, u128)>,
}

impl Filled {
    fn new(pages: usize) -> Result<Filled, Refused> {
        let limits = Limits {
            shards: SHARDS as u32,
            pages: u32::try_from(pages)
                .unwrap_or(u32::MAX)
                .clamp(1024, 1 << 20),
            slots: 256,
            ..Limits::default()
        };
        Ok(Filled {
            core: Core::new(limits)?,
            keys: Vec::new(),
        })
    }

    /// Fills all slots of a page.
    fn fill(&mut self, page: usize, slots: usize) -> Result<(), Refused> {
        let shard = (page / TURN % SHARDS) as u32;
        let mut words = [0; 16];
        for slot in 0..slots {
            let place = (page * slots + slot) as u128;
            words[0] = place;
            let key = self.core.insert_words(shard, &words[..256 / slots])?;
            self.keys.push((key, place));
        }
        Ok(())
    }

    /// Frees each key for whose place that is not so.
    fn keep(&mut self, mut keeps: impl FnMut(usize) -> bool) {
        let core = &mut self.core;
        self.keys
            .retain(|(key, place)| keeps(*place as usize) || !core.free(*key));
    }

    /// Compacts twice, and prints what that took.
    fn compact(mut self) -> Result<(), Refused> {
        let before = self.core.pages();
        let start = used();
        self.core.compact()?;
        let first = used() - start;
        let after = self.core.pages();
        for (key, place) in &self.keys {
            let words = self.core.get_words(*key).expect("the key is live");
            assert_eq!(words[0], *place);
        }
        let start = used();
        self.core.compact()?;
        let second = used() - start;
        let millis = |time: std::time::Duration| time.as_secs_f64() * 1e3;
        println!(
            "{before} {after} {:.2} {:.2}",
            millis(first),
            millis(second)
        );
        Ok(())
    }
}

fn of_pages(slots: usize, pages: &[Occupied]) -> Result<(), Refused> {
    let mut filled = Filled::new(pages.len())?;
    for page in 0..pages.len() {
        filled.fill(page, slots)?;
    }
    filled.keep(|place| {
        let slot = place % slots;
        pages[place / slots][slot / 64] >> (slot % 64) & 1 == 1
    });
    filled.compact()
}

fn thinned(pages: usize, one_in: usize) -> Result<(), Refused> {
    const SLOTS: usize = 64;
    let mut filled = Filled::new(pages)?;
    for page in 0..pages {
        filled.fill(page, SLOTS)?;
    }
    let mut random = Random::new(1);
    filled.keep(|_| random.one_in(one_in));
    filled.compact()
}

fn main() -> ExitCode {
    let words: Vec<String> = std::env::args().skip(1).collect();
    let number = |at: usize| words.get(at).and_then(|word| word.parse::<usize>().ok());
    let done = match (words.first().map(String::as_str), number(1), number(2)) {
        (Some("pages"), Some(slots @ 16..=256), None) => match pages::read() {
            Ok(pages) => of_pages(slots, &pages),
            Err(fault) => {
                eprintln!("paid: {fault}");
                return ExitCode::FAILURE;
            }
        },
        (Some("thinned"), Some(pages), Some(one_in @ 1..)) => thinned(pages, one_in),
        _ => {
            eprintln!("paid pages SLOTS | thinned PAGES ONE_IN");
            return ExitCode::from(2);
        }
    };
    match done {
        Ok(()) => ExitCode::SUCCESS,
        Err(refused) => {
            eprintln!("paid: {refused}");
            ExitCode::FAILURE
        }
    }
}
