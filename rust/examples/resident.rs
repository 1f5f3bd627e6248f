//! `resident VALUES BYTES KEPT`: fills a slab with so many values of 8, 16, 64, 240 or 4,096 bytes,
//! frees all but so many of 100 at random, compacts, and tells what is resident before and after,
//! in kilobytes beyond what the program took before.

use std::hint::black_box;
use std::process::ExitCode;
use std::time::Instant;
use teurlaks::{Key, Refused, Slab};

/// What the system counts as resident, in kilobytes.
fn resident() -> i64 {
    let status = std::fs::read_to_string("/proc/self/status").unwrap_or_default();
    let line = status.lines().find_map(|line| line.strip_prefix("VmRSS:"));
    line.and_then(|line| line.split_whitespace().next()?.parse().ok())
        .unwrap_or(0)
}

/// Numbers below 100 that look random, the same in each run.
fn percents() -> impl Iterator<Item = u64> {
    std::iter::successors(Some(88172645463325252_u64), |last| {
        let mut next = *last;
        next ^= next << 13;
        next ^= next >> 7;
        next ^= next << 17;
        Some(next)
    })
    .map(|number| (number >> 11) % 100)
}

fn measure<const BYTES: usize>(values: usize, kept: u64) -> Result<(), Refused> {
    // The keys are touched before, so that they are no part of what is measured.
    let mut keys = black_box(vec![Key::from_bits(1); values]);
    let base = resident();
    let mut slab = Slab::new()?;
    for (number, key) in keys.iter_mut().enumerate() {
        *key = Some(slab.insert([number as u8; BYTES])?);
    }
    let (full, pages) = (resident() - base, slab.pages());
    for (key, percent) in keys.iter().flatten().zip(percents()) {
        if percent >= kept {
            slab.remove(*key);
        }
    }
    let freed = resident() - base;
    let start = Instant::now();
    let gone = slab.compact()?;
    let took = start.elapsed();
    println!(
        "{values} values of {BYTES} bytes, {} kept: full {full}, freed {freed}, compacted {}; pages {pages}, then {}; {} ms",
        slab.len(),
        resident() - base,
        pages - gone,
        took.as_millis()
    );
    Ok(())
}

fn main() -> ExitCode {
    let words: Vec<u64> = std::env::args()
        .skip(1)
        .filter_map(|word| word.parse().ok())
        .collect();
    let measured = match words[..] {
        [values, 8, kept] => measure::<8>(values as usize, kept),
        [values, 16, kept] => measure::<16>(values as usize, kept),
        [values, 64, kept] => measure::<64>(values as usize, kept),
        [values, 240, kept] => measure::<240>(values as usize, kept),
        [values, 4096, kept] => measure::<4096>(values as usize, kept),
        _ => {
            eprintln!("resident VALUES BYTES KEPT, of 8, 16, 64, 240 or 4096 bytes");
            return ExitCode::FAILURE;
        }
    };
    match measured {
        Ok(()) => ExitCode::SUCCESS,
        Err(refused) => {
            eprintln!("refused: {refused}");
            ExitCode::FAILURE
        }
    }
}
