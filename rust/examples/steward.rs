//! `steward SEATS`: how long a mesh of the steward takes beside so many threads that make calls at
//! their seats without a pause, in the median and at most, of 100. With `TEURLAKS_FENCE=missing` no
//! seat keeps its shard.

use std::process::ExitCode;
use std::sync::atomic::{AtomicBool, Ordering};
use std::thread;
use std::time::{Duration, Instant};
use teurlaks::arena::{Arena, Seat};
use teurlaks::{Key, Limits, Refused};

/// How often the steward meshes.
const MESHES: usize = 100;

/// How long it sleeps before, in which seats come to keep their shards again.
const PAUSE: Duration = Duration::from_millis(20);

/// How many values a seat has.
const VALUES: u64 = 1000;

/// Frees and keeps values, and looks others up, until it is told to stop.
fn work(seat: &mut Seat<u64>, done: &AtomicBool) -> Result<(), Refused> {
    let mut keys: Vec<Key> = (0..VALUES)
        .map(|value| seat.insert(value))
        .collect::<Result<_, _>>()?;
    while !done.load(Ordering::Relaxed) {
        for at in 0..keys.len() {
            seat.free(keys[at]);
            keys[at] = seat.insert(at as u64)?;
            assert!(seat.contains(keys[at / 2]));
        }
    }
    Ok(())
}

/// How long each mesh took.
fn meshes(arena: &mut Arena<u64>) -> Result<Vec<Duration>, Refused> {
    let mesh = |_| {
        thread::sleep(PAUSE);
        let begun = Instant::now();
        arena.mesh()?;
        Ok(begun.elapsed())
    };
    (0..MESHES).map(mesh).collect()
}

fn measure(seats: u32) -> Result<Vec<Duration>, Refused> {
    let limits = Limits {
        shards: seats,
        ..Limits::default()
    };
    let mut arena = Arena::open(limits)?;
    let seats: Vec<_> = (0..seats).map(|_| arena.seat()).collect::<Result<_, _>>()?;
    let done = AtomicBool::new(false);
    thread::scope(|scope| {
        let done = &done;
        for mut seat in seats {
            scope.spawn(move || work(&mut seat, done).expect("there is memory"));
        }
        let took = meshes(&mut arena);
        done.store(true, Ordering::Relaxed);
        took
    })
}

fn main() -> ExitCode {
    let seats = std::env::args()
        .nth(1)
        .and_then(|word| word.parse().ok())
        .unwrap_or(16);
    match measure(seats) {
        Ok(mut took) => {
            took.sort_unstable();
            let (median, longest) = (took[MESHES / 2], took[MESHES - 1]);
            println!("beside {seats} busy seats: median {median:?}, longest {longest:?}");
            ExitCode::SUCCESS
        }
        Err(refused) => {
            eprintln!("refused: {refused}");
            ExitCode::FAILURE
        }
    }
}
