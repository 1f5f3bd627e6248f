//! `plain run [TRACE] [--serial] [--replies] ..`: what `meshrun run` does, in plain Rust.
//!
//! `--plans-of REPORT` takes the folds of each mark from a report that another program wrote, and
//! refuses them where they are no largest plan. `--barriers` has a mark plan nothing. `--phases`
//! says on standard error how long each part took.

use beside::replay::{self, How};
use beside::{report, trace};
use std::io::{Read, Write};
use std::process::ExitCode;
use std::time::Instant;

#[derive(Default)]
struct Words {
    trace: Option<String>,
    phases: bool,
    how: How,
}

/// Why the program ends: its status, and what it says.
struct Stop(u8, String);

fn io(_: std::io::Error) -> Stop {
    Stop(5, "io".into())
}

fn words() -> Result<Words, Stop> {
    let mut words = Words::default();
    let mut given = std::env::args().skip(1);
    let usage = || {
        Stop(
            2,
            "plain run [TRACE] [--serial] [--replies] [--barriers] [--phases] [--plans-of REPORT]"
                .into(),
        )
    };
    if given.next().as_deref() != Some("run") {
        return Err(usage());
    }
    while let Some(word) = given.next() {
        match word.as_str() {
            "--serial" => {}
            "--replies" => words.how.replies = true,
            "--barriers" => words.how.barriers = true,
            "--phases" => words.phases = true,
            "--plans-of" => {
                let text = std::fs::read_to_string(given.next().ok_or_else(usage)?).map_err(io)?;
                words.how.plans =
                    Some(report::plans_of(&text).ok_or_else(|| Stop(5, "io".into()))?);
            }
            _ if word.starts_with('-') || words.trace.is_some() => return Err(usage()),
            _ => words.trace = Some(word),
        }
    }
    Ok(words)
}

fn text_of(trace: &Option<String>) -> Result<Vec<u8>, Stop> {
    let mut text = Vec::new();
    match trace {
        Some(path) => text = std::fs::read(path).map_err(io)?,
        None => drop(std::io::stdin().read_to_end(&mut text).map_err(io)?),
    }
    Ok(text)
}

fn work() -> Result<(), Stop> {
    let words = words()?;
    let mut last = Instant::now();
    let mut phase = |name: &str| {
        if words.phases {
            eprintln!("{name} {}", last.elapsed().as_nanos());
        }
        last = Instant::now();
    };
    let text = text_of(&words.trace)?;
    phase("read");
    let trace = trace::read(&text).map_err(|fault| Stop(1, fault.to_string()))?;
    phase("parse");
    let report = replay::run(&trace, &words.how)
        .map_err(|fault| Stop(6, format!("mark {}: that is no largest plan", fault.mark)))?;
    phase("run");
    std::io::stdout().write_all(&report).map_err(io)?;
    phase("write");
    Ok(())
}

fn main() -> ExitCode {
    match work() {
        Ok(()) => ExitCode::SUCCESS,
        Err(Stop(status, text)) => {
            eprintln!("{text}");
            ExitCode::from(status)
        }
    }
}
