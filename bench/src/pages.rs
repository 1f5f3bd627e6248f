//! Pages as `bench/plans/divisions` prints them: a line each, of four numbers in hexadecimal.

use std::io::{self, BufRead};

/// How many shards such pages are divided among.
pub const SHARDS: usize = 16;
/// How many pages a shard takes until it is the turn of the next one, as in a `Store`.
pub const TURN: usize = 1024;

/// The occupied slots of a page, 64 a number.
pub type Occupied = [u64; 4];

/// Reads the pages of standard input.
///
/// # Errors
///
/// Those of the input, and one of a line that has no four numbers.
pub fn read() -> io::Result<Vec<Occupied>> {
    let parse = |line: io::Result<String>| {
        let words: Result<Vec<u64>, _> = line?
            .split_whitespace()
            .map(|word| u64::from_str_radix(word, 16))
            .collect();
        let words = words.map_err(io::Error::other)?;
        Occupied::try_from(words).map_err(|_| io::Error::other("a page has four numbers"))
    };
    io::stdin().lock().lines().map(parse).collect()
}
