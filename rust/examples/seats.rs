//! `seats ROUNDS`: four threads with a seat each, six rounds where no number is given. In each
//! round they fill up, let most of it go, leave their sparse pages to the pool, and look the
//! others' values up; a steward folds beside them. It prints how many pages and values there are
//! after each round.

use std::process::ExitCode;
use std::sync::{Barrier, Mutex};
use std::thread;
use teurlaks::arena::{Arena, Seat, Totals};
use teurlaks::{Key, Limits, Refused};

const THREADS: usize = 4;

/// How many values a thread keeps in a round, of 64 bytes each.
const VALUES: u64 = 6400;

type Value = [u64; 8];

/// What all threads see.
struct Shared {
    // Of each thread the keys that it has left to the others, with their numbers.
    given: [Mutex<Vec<(Key, u64)>>; THREADS],
    together: Barrier,
}

/// One thread at its seat.
struct Worker<'s> {
    seat: Seat<Value>,
    here: usize,
    shared: &'s Shared,
}

impl Worker<'_> {
    /// Keeps values and lets all but one in sixteen go; the rest is given to the others.
    fn fill(&mut self) -> Result<(), Refused> {
        let mut kept = Vec::new();
        for number in 0..VALUES {
            match self.seat.insert([number; 8]) {
                Ok(key) => kept.push((key, number)),
                // The shard has as many pages as it may.
                Err(Refused::PagesSpent) => break,
                Err(refused) => return Err(refused),
            }
        }
        let stays = |(key, _): &(Key, u64)| (key.slot() + key.serial()) % 16 == 0;
        for (key, _) in kept.iter().filter(|kept| !stays(kept)) {
            self.seat.free(*key);
        }
        kept.retain(stays);
        self.give(kept);
        self.seat.trim();
        // A mark that is under way keeps what it plans with until it is closed.
        match self.seat.retire(VALUES as usize / 64 / 2) {
            Err(Refused::PlanOpen) | Ok(_) => Ok(()),
            Err(refused) => Err(refused),
        }
    }

    fn give(&self, kept: Vec<(Key, u64)>) {
        let mut given = self.shared.given[self.here].lock().expect("nobody panics");
        given.extend(kept);
    }

    /// Looks up what another thread has given, and leaves half of it to be freed there.
    fn take(&mut self) -> Result<(), Refused> {
        let other = (self.here + 1) % THREADS;
        let taken = std::mem::take(&mut *self.shared.given[other].lock().expect("nobody panics"));
        for (key, number) in &taken {
            assert_eq!(self.seat.get(*key), Some([*number; 8]));
        }
        for (key, _) in taken.iter().step_by(2) {
            match self.seat.free_later(*key) {
                Err(Refused::RingFull) => assert!(self.seat.free(*key)),
                other => other?,
            }
        }
        self.seat.hand_over();
        Ok(())
    }

    fn rounds(&mut self, rounds: usize) -> Result<(), Refused> {
        for _ in 0..rounds {
            self.fill()?;
            self.shared.together.wait();
            self.take()?;
            self.shared.together.wait();
            self.seat.tend()?;
            self.shared.together.wait();
            // The steward tells.
            self.shared.together.wait();
        }
        Ok(())
    }
}

/// Folds while the threads take and tend, and tells what there is when they wait.
fn steward(arena: &mut Arena<Value>, shared: &Shared, rounds: usize) -> Result<(), Refused> {
    for round in 1..=rounds {
        shared.together.wait();
        let folds = arena.mesh()?;
        shared.together.wait();
        shared.together.wait();
        let Totals { pages, live } = arena.totals();
        println!("round {round}: {folds} folds, {pages} pages, {live} values");
        shared.together.wait();
    }
    Ok(())
}

fn run(rounds: usize) -> Result<(), Refused> {
    let mut arena = Arena::open(Limits {
        shards: THREADS as u32,
        ..Limits::default()
    })?;
    let shared = Shared {
        given: Default::default(),
        together: Barrier::new(THREADS + 1),
    };
    let mut workers = Vec::new();
    for here in 0..THREADS {
        let (seat, shared) = (arena.seat()?, &shared);
        workers.push(Worker { seat, here, shared });
    }
    thread::scope(|scope| {
        for mut worker in workers {
            scope.spawn(move || {
                if let Err(refused) = worker.rounds(rounds) {
                    // The others wait for it.
                    eprintln!("refused: {refused}");
                    std::process::exit(1);
                }
            });
        }
        steward(&mut arena, &shared, rounds)
    })
}

fn main() -> ExitCode {
    match std::env::args()
        .nth(1)
        .map_or(Ok(6), |word| word.parse())
        .map(run)
    {
        Ok(Ok(())) => ExitCode::SUCCESS,
        Ok(Err(refused)) => {
            eprintln!("refused: {refused}");
            ExitCode::FAILURE
        }
        Err(_) => {
            eprintln!("seats ROUNDS");
            ExitCode::FAILURE
        }
    }
}
