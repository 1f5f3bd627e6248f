//! `compare MESHRUN EXAMPLES COUNT SCRATCH`: the plain program and `meshrun` against the worked
//! examples, and against each other on COUNT random texts. Of these the first 300 are also run by
//! threads.
//!
//! Where there are several largest plans, `meshrun` may choose any: the plain program is given its
//! folds, and says whether they are a largest plan. All else must be the same byte for byte: the
//! report, the last line of standard error, and the status. A run by threads must end with `audit
//! ok`, and with the serial numbers of live keys and of calls; where a call was refused a page or a
//! group, or a ring was full, which another thread's free or `tend` can decide, with that of calls.

use beside::drawn;
use beside::programs::{Programs, Who};
use std::ffi::OsStr;
use std::fs;
use std::io;
use std::path::{Path, PathBuf};
use std::process::{ExitCode, Output};

struct Compare {
    programs: Programs,
    scratch: PathBuf,
}

/// So many random texts are run by threads.
const BY_THREADS: u64 = 300;

type Answer = (Option<i32>, String, String);

/// The numbers of live keys and of calls that a report ends with; of calls alone, where other
/// threads may decide what is live.
fn totals(report: &str, decided: bool) -> Option<Vec<&str>> {
    let end = report.lines().rev().find(|line| line.starts_with("end "))?;
    let words: Vec<&str> = end.split(' ').collect();
    let first = if decided { 3 } else { 5 };
    words.get(first..).map(<[&str]>::to_vec)
}

/// The status, the report, and the last line of the errors: `meshrun` explains it in a line before.
fn answer(output: Output) -> Answer {
    let text = |bytes: Vec<u8>| String::from_utf8_lossy(&bytes).into_owned();
    let errors = text(output.stderr);
    let last = errors.lines().last().unwrap_or_default().to_string();
    (output.status.code(), text(output.stdout), last)
}

impl Compare {
    fn keep(&self, name: &str, text: &[u8]) -> io::Result<PathBuf> {
        let path = self.scratch.join(name);
        fs::write(&path, text)?;
        Ok(path)
    }

    fn of_plain(&self, trace: &Path, replies: bool, plans_of: &Path) -> io::Result<Answer> {
        let mut command = self.programs.command(Who::Plain, trace, replies);
        if self.programs.plans {
            command.arg("--plans-of").arg(plans_of);
        }
        Ok(answer(command.output()?))
    }

    /// Whether both programs answer the same; else the two answers are told.
    fn agree(&self, trace: &Path, replies: bool) -> io::Result<bool> {
        let theirs = answer(
            self.programs
                .command(Who::Meshrun, trace, replies)
                .output()?,
        );
        let report = self.keep("report", theirs.1.as_bytes())?;
        let ours = self.of_plain(trace, replies, &report)?;
        if theirs != ours {
            println!("differs: {} (replies: {replies})", trace.display());
            println!("  meshrun: {:?} {}", theirs.0, theirs.2.trim_end());
            println!("  plain:   {:?} {}", ours.0, ours.2.trim_end());
            let pairs = theirs.1.lines().zip(ours.1.lines());
            if let Some((at, (a, b))) = pairs.enumerate().find(|(_, (a, b))| a != b) {
                println!("  line {} of the report: {a:?} and {b:?}", at + 1);
            }
        }
        Ok(theirs == ours)
    }

    /// Whether a run by threads comes to what the serial run comes to, and is audited; a text that
    /// is refused is refused so too.
    fn agrees_by_threads(&self, trace: &Path) -> io::Result<bool> {
        let serial = answer(self.programs.command(Who::Meshrun, trace, true).output()?);
        let threads = answer(self.programs.by_threads(trace).output()?);
        let open = |report: &str| report.contains(" refused ") || report.contains(" full\n");
        let decided = !(open(&serial.1) || open(&threads.1));
        let same = if serial.0 == Some(0) {
            threads.0 == Some(0)
                && threads.1.ends_with("\naudit ok\n")
                && totals(&serial.1, decided) == totals(&threads.1, decided)
        } else {
            serial == threads
        };
        if !same {
            println!("differs by threads: {}", trace.display());
            println!(
                "  threads: {:?} {} {:?}",
                threads.0,
                threads.2.trim_end(),
                totals(&threads.1, true)
            );
            println!(
                "  serial:  {:?} {} {:?}",
                serial.0,
                serial.2.trim_end(),
                totals(&serial.1, true)
            );
        }
        Ok(same)
    }

    /// Whether a stored report is what the plain program prints, with the folds that are stored.
    fn is_stored(&self, trace: &Path, stored: &Path, replies: bool) -> io::Result<bool> {
        let wanted = fs::read_to_string(stored)?;
        let same = self.of_plain(trace, replies, stored)?.1 == wanted;
        if !same {
            println!("differs: plain and {}", stored.display());
        }
        Ok(same)
    }
}

/// How many of the examples were compared, and how many differed.
fn examples(compare: &Compare, folder: &Path) -> io::Result<(usize, usize)> {
    let mut traces: Vec<PathBuf> = fs::read_dir(folder)?
        .map(|entry| Ok(entry?.path()))
        .collect::<io::Result<_>>()?;
    traces.retain(|path| path.extension() == Some(OsStr::new("trace")));
    traces.sort();
    let (mut count, mut wrong) = (0, 0);
    for trace in traces {
        for (suffix, replies) in [("report", false), ("replies", true)] {
            let stored = trace.with_extension(suffix);
            if stored.exists() {
                count += 1;
                wrong += usize::from(!compare.is_stored(&trace, &stored, replies)?);
            }
            wrong += usize::from(!compare.agree(&trace, replies)?);
        }
    }
    Ok((count, wrong))
}

/// How many of the random texts differed. Those that do are kept.
fn random(compare: &Compare, count: u64) -> io::Result<usize> {
    let mut wrong = 0;
    for seed in 1..=count {
        let name = format!("{seed}.trace");
        let trace = compare.keep(&name, &drawn::text(seed))?;
        let by_threads = seed > BY_THREADS || compare.agrees_by_threads(&trace)?;
        if compare.agree(&trace, seed % 2 == 0)? && by_threads {
            fs::remove_file(trace)?;
        } else {
            wrong += 1;
        }
    }
    Ok(wrong)
}

fn work() -> io::Result<bool> {
    let words: Vec<String> = std::env::args().skip(1).collect();
    let [meshrun, folder, count, scratch] = &words[..] else {
        return Err(io::Error::other("compare MESHRUN EXAMPLES COUNT SCRATCH"));
    };
    let count = count.parse().map_err(io::Error::other)?;
    let scratch = PathBuf::from(scratch);
    let compare = Compare {
        programs: Programs::new(meshrun.into(), &scratch)?,
        scratch,
    };
    if !compare.programs.plans {
        println!("meshrun's marks plan nothing yet: marks are compared as barriers");
    }
    let (stored, wrong) = examples(&compare, folder.as_ref())?;
    println!("{stored} stored reports, {wrong} differences");
    let drawn = random(&compare, count)?;
    println!("{count} random texts, {drawn} differences");
    Ok(wrong + drawn == 0)
}

fn main() -> ExitCode {
    match work() {
        Ok(true) => ExitCode::SUCCESS,
        Ok(false) => ExitCode::FAILURE,
        Err(fault) => {
            eprintln!("compare: {fault}");
            ExitCode::from(2)
        }
    }
}
