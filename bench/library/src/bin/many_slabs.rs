//! `many_slabs WHO VALUES`: how many bytes each of 10,000 slabs keeps resident that has so many
//! values of 16 bytes, in a process of its own. WHO is `teurlaks-slab`, `teurlaks-store`,
//! `stand-in` (rust/compat/slab) or `slab`.

use std::env;
use std::fs;
use std::hint::black_box;
use std::process::ExitCode;

const SLABS: usize = 10_000;

/// How many bytes of the process are resident.
fn resident() -> usize {
    let status = fs::read_to_string("/proc/self/status").expect("Linux tells it");
    let line = status.lines().find(|line| line.starts_with("VmRSS:"));
    let kilobytes = line.and_then(|line| line.split_whitespace().nth(1)?.parse().ok());
    1024 * kilobytes.unwrap_or(0_usize)
}

/// What so many slabs take, each with its own room in a list.
fn bytes_each<S>(values: usize, new: impl Fn() -> S, insert: impl Fn(&mut S, u128)) -> usize {
    let mut slabs = Vec::with_capacity(SLABS);
    let before = resident();
    for number in 0..SLABS {
        let mut slab = new();
        for value in 0..values {
            insert(&mut slab, (number * values + value) as u128);
        }
        slabs.push(slab);
    }
    let after = resident();
    black_box(slabs);
    (after - before) / SLABS
}

fn main() -> ExitCode {
    let words: Vec<String> = env::args().skip(1).collect();
    let (who, values) = match &words[..] {
        [who, values] => (who.as_str(), values.parse().unwrap_or(0)),
        _ => ("", 0),
    };
    let bytes = match who {
        "teurlaks-slab" => bytes_each(values, teurlaks::Slab::default, |slab, value| {
            slab.insert(value).expect("there is memory");
        }),
        "teurlaks-store" => bytes_each(values, teurlaks::Store::default, |store, value| {
            store.insert(value).expect("there is memory");
        }),
        "stand-in" => bytes_each(values, stand_in::Slab::new, |slab, value| {
            slab.insert(value);
        }),
        "slab" => bytes_each(values, slab::Slab::new, |slab, value| {
            slab.insert(value);
        }),
        _ => {
            eprintln!("many_slabs teurlaks-slab|teurlaks-store|stand-in|slab VALUES");
            return ExitCode::FAILURE;
        }
    };
    println!("{bytes}");
    ExitCode::SUCCESS
}
