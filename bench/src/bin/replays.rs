//! `replays MESHRUN SCRATCH ROUNDS`: a replay by threads beside the serial one. It prints the least
//! time of several rounds by the clock, of four threads with 500,000 calls each, without the time
//! that a text takes whose last line is malformed, so that it is read and not run. And it prints
//! the greatest resident size, of 64 threads that fill all pages which a trace may have.

use beside::child;
use beside::written::side_by_side;
use std::fs::{self, File};
use std::io;
use std::path::Path;
use std::process::{Command, ExitCode, Stdio};
use std::time::{Duration, Instant};

const CALLS: usize = 500_000;

fn taken(meshrun: &str, words: &[&str], trace: &Path, status: i32) -> io::Result<Duration> {
    let begun = Instant::now();
    let mut command = Command::new(meshrun);
    let ended = command
        .arg("run")
        .args(words)
        .arg(trace)
        .stdout(Stdio::null())
        .stderr(Stdio::null())
        .status()?;
    let taken = begun.elapsed();
    if ended.code() != Some(status) {
        return Err(io::Error::other(format!("{ended} of {words:?}")));
    }
    Ok(taken)
}

/// Milliseconds: of reading the text, and beyond that of the serial replay and of that by threads.
fn times(meshrun: &str, scratch: &Path, rounds: usize) -> io::Result<[f64; 3]> {
    let text = side_by_side(CALLS);
    let trace = scratch.join("side-by-side.trace");
    let faulty = scratch.join("side-by-side-faulty.trace");
    fs::write(&trace, &text)?;
    fs::write(&faulty, text + "?\n")?;
    let (mut read, mut serial, mut threads) = (Duration::MAX, Duration::MAX, Duration::MAX);
    for _ in 0..rounds {
        read = read.min(taken(meshrun, &[], &faulty, 1)?);
        serial = serial.min(taken(meshrun, &["--serial"], &trace, 0)?);
        threads = threads.min(taken(meshrun, &[], &trace, 0)?);
    }
    let beyond = [
        read,
        serial.saturating_sub(read),
        threads.saturating_sub(read),
    ];
    Ok(beyond.map(|time| time.as_secs_f64() * 1e3))
}

/// A trace of 64 threads that each fill 1,024 pages.
fn fills() -> String {
    let header = "mesh 1\nshards 64\npages 1024\nring 1\ngens 1\n".to_owned();
    header
        + &(0..64)
            .map(|shard| format!("{shard} fill a{shard} 262144 0\n"))
            .collect::<String>()
}

/// Kilobytes of the serial replay of fills, and of that by threads.
fn sizes(meshrun: &str, scratch: &Path) -> io::Result<[u64; 2]> {
    let trace = scratch.join("fills.trace");
    fs::write(&trace, fills())?;
    let size = |words: &[&str]| -> io::Result<u64> {
        let mut command = Command::new(meshrun);
        command.arg("run").args(words).arg(&trace);
        Ok(child::run(&mut command, File::create(scratch.join("fills.report"))?)?.kilobytes)
    };
    Ok([size(&["--serial"])?, size(&[])?])
}

fn work() -> io::Result<()> {
    let words: Vec<String> = std::env::args().skip(1).collect();
    let [meshrun, scratch, rounds] = &words[..] else {
        return Err(io::Error::other("replays MESHRUN SCRATCH ROUNDS"));
    };
    let scratch = Path::new(scratch);
    let [read, serial, threads] =
        times(meshrun, scratch, rounds.parse().map_err(io::Error::other)?)?;
    println!("read {read:.0}\nserial {serial:.0}\nthreads {threads:.0}");
    let [serial, threads] = sizes(meshrun, scratch)?;
    println!("serial-KB {serial}\nthreads-KB {threads}");
    Ok(())
}

fn main() -> ExitCode {
    match work() {
        Ok(()) => ExitCode::SUCCESS,
        Err(fault) => {
            eprintln!("replays: {fault}");
            ExitCode::from(2)
        }
    }
}
