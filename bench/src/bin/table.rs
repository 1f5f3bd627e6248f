//! `table MESHRUN TRACES ROUNDS [NAME=LIBRARY ..]`: runs everything in turn ROUNDS times, and
//! prints the least of each as tables of ratios. The libraries are allocators to measure `malloc`
//! and `free` of.

use beside::child;
use beside::mixes::MIXES;
use beside::programs::{Programs, Who};
use beside::written::{Written, TRACES};
use std::collections::HashMap;
use std::fs::{self, File};
use std::io::{self, BufReader, Read};
use std::path::{Path, PathBuf};
use std::process::{Command, ExitCode};

const SLABS: [&str; 3] = ["slab", "slotmap", "sharded-slab"];
const CORES: [&str; 2] = ["plain-no-log", "plain"];
const BOTH: [(Who, &str); 2] = [(Who::Plain, "plain"), (Who::Meshrun, "meshrun")];

struct Bench {
    programs: Programs,
    slabs: PathBuf,
    traces: PathBuf,
    report: PathBuf,
    /// Allocators by name, and the library that stands for each; none for the C library's own.
    allocators: Vec<(String, Option<String>)>,
    /// The least of each measurement so far.
    least: HashMap<String, f64>,
}

impl Bench {
    fn keep(&mut self, what: String, value: f64) {
        let least = self.least.entry(what).or_insert(value);
        *least = least.min(value);
    }

    fn trace(&self, name: &str) -> PathBuf {
        self.traces.join(format!("{name}.trace"))
    }

    /// Milliseconds and kilobytes of both programs on a trace.
    fn run_trace(&mut self, name: &str, replies: bool) -> io::Result<()> {
        for (who, called) in BOTH {
            let used = self
                .programs
                .run(who, &self.trace(name), replies, &self.report)?;
            self.keep(format!("{called} {name}"), used.time.as_secs_f64() * 1e3);
            self.keep(format!("{called} {name} kB"), used.kilobytes as f64);
        }
        Ok(())
    }

    /// The numbers that `slabs` prints.
    fn run_slabs(&self, words: &[&str], library: &Option<String>) -> io::Result<Vec<f64>> {
        let mut command = Command::new(&self.slabs);
        command.args(words);
        if let Some(library) = library {
            command.env("LD_PRELOAD", library);
        }
        child::run(&mut command, File::create(&self.report)?)?;
        let text = fs::read_to_string(&self.report)?;
        text.split_whitespace()
            .map(|word| word.parse().map_err(io::Error::other))
            .collect()
    }

    fn run_store(&mut self, who: &str, called: &str, library: &Option<String>) -> io::Result<()> {
        for mix in &MIXES {
            let nanos = self.run_slabs(&["time", mix.name, who], library)?;
            self.keep(format!("{called} {}", mix.name), nanos[0]);
        }
        let bytes = self.run_slabs(&["memory", who], library)?;
        self.keep(format!("{called} a value"), bytes[0]);
        self.keep(format!("{called} a change"), bytes[1]);
        Ok(())
    }

    fn round(&mut self) -> io::Result<()> {
        for trace in self.measured() {
            self.run_trace(trace.name, trace.replies)?;
            if trace.folds {
                self.run_trace(&format!("before-{}", trace.name), false)?;
            }
        }
        for mix in &MIXES {
            self.run_trace(&format!("mix-{}", mix.name), false)?;
            self.run_trace(&format!("before-{}", mix.name), false)?;
        }
        for name in [
            "memory-none",
            "memory-fill",
            "memory-bursts-2",
            "memory-bursts-10",
        ] {
            self.run_trace(name, false)?;
        }
        for who in SLABS {
            self.run_store(who, who, &None)?;
        }
        for (called, library) in self.allocators.clone() {
            self.run_store("malloc", &called, &library)?;
        }
        for who in CORES {
            self.run_store(who, &format!("core {who}"), &None)?;
        }
        Ok(())
    }

    fn measured(&self) -> Vec<&'static Written> {
        TRACES
            .iter()
            .filter(|trace| self.programs.plans || !trace.folds)
            .collect()
    }

    /// Whether both programs give the same report on a trace, with all replies, where the plain one
    /// takes the other's folds.
    fn agree(&self, trace: &Written) -> io::Result<bool> {
        let (path, theirs) = (
            self.trace(trace.name),
            self.report.with_extension("meshrun"),
        );
        self.programs.run(Who::Meshrun, &path, true, &theirs)?;
        let mut plain = self.programs.command(Who::Plain, &path, true);
        if self.programs.plans {
            plain.arg("--plans-of").arg(&theirs);
        }
        child::run(&mut plain, File::create(&self.report)?)?;
        same(&theirs, &self.report)
    }

    fn get(&self, what: &str) -> f64 {
        self.least.get(what).copied().unwrap_or(f64::NAN)
    }

    /// What a trace takes without what stands before its calls.
    fn above(&self, who: &str, name: &str, before: &str) -> f64 {
        self.get(&format!("{who} {name}")) - self.get(&format!("{who} {before}"))
    }

    fn print_traces(&self) {
        println!("| trace | plain, ms | meshrun, ms | meshrun / plain |\n|---|---|---|---|");
        for trace in self.measured() {
            let time = |who: &str| match trace.folds {
                true => self.above(who, trace.name, &format!("before-{}", trace.name)),
                false => self.get(&format!("{who} {}", trace.name)),
            };
            let (plain, meshrun) = (time("plain"), time("meshrun"));
            println!(
                "| {} | {plain:.1} | {meshrun:.1} | {:.2} |",
                trace.name,
                meshrun / plain
            );
        }
    }

    fn print_mixes(&self) {
        let names: Vec<&str> = self
            .allocators
            .iter()
            .map(|(name, _)| name.as_str())
            .collect();
        let stores = [&SLABS[1..], &names, &["core plain-no-log", "core plain"]].concat();
        println!(
            "| mix | slab, ns | {} | plain, trace | meshrun, trace | meshrun / plain |",
            stores.join(" | ")
        );
        println!("|---|---|{}---|---|---|", "---|".repeat(stores.len()));
        for mix in &MIXES {
            let slab = self.get(&format!("slab {}", mix.name));
            let ratios = stores
                .iter()
                .map(|who| self.get(&format!("{who} {}", mix.name)) / slab);
            let (name, before) = (format!("mix-{}", mix.name), format!("before-{}", mix.name));
            let traced =
                |who: &str| self.above(who, &name, &before) * 1e6 / mix.calls as f64 / slab;
            let (plain, meshrun) = (traced("plain"), traced("meshrun"));
            let cells: String = ratios
                .chain([plain, meshrun])
                .map(|ratio| format!(" {ratio:.1} |"))
                .collect();
            println!(
                "| {} | {slab:.2} |{cells} {:.2} |",
                mix.name,
                meshrun / plain
            );
        }
    }

    fn print_memory(&self) {
        println!("| store | bytes a live value | bytes a change |\n|---|---|---|");
        let names = self.allocators.iter().map(|(name, _)| name.clone());
        let cores = CORES.iter().map(|who| format!("core {who}"));
        for who in SLABS
            .iter()
            .map(|who| who.to_string())
            .chain(names)
            .chain(cores)
        {
            println!(
                "| {who} | {:.0} | {:.0} |",
                self.get(&format!("{who} a value")),
                self.get(&format!("{who} a change"))
            );
        }
        let (values, changes) = (8.0 * 262_144.0, 8.0 * 2.0 * 262_144.0);
        for (_, who) in BOTH {
            let kilobytes = |more: &str, less: &str| {
                self.above(who, &format!("{more} kB"), &format!("{less} kB"))
            };
            let value = kilobytes("memory-fill", "memory-none") * 1024.0 / values;
            let change = kilobytes("memory-bursts-10", "memory-bursts-2") * 1024.0 / changes;
            println!("| {who}, trace | {value:.0} | {change:.0} |");
        }
    }
}

/// Whether two files are the same, without either being held whole: what this process holds would
/// count for its children.
fn same(one: &Path, other: &Path) -> io::Result<bool> {
    let (one, other) = (File::open(one)?, File::open(other)?);
    if one.metadata()?.len() != other.metadata()?.len() {
        return Ok(false);
    }
    for (a, b) in BufReader::new(one)
        .bytes()
        .zip(BufReader::new(other).bytes())
    {
        if a? != b? {
            return Ok(false);
        }
    }
    Ok(true)
}

fn bench(words: &[String]) -> io::Result<(Bench, usize)> {
    let [meshrun, traces, rounds, libraries @ ..] = words else {
        return Err(io::Error::other(
            "table MESHRUN TRACES ROUNDS [NAME=LIBRARY ..]",
        ));
    };
    let mut allocators = vec![("glibc".to_string(), None)];
    for library in libraries {
        let (name, path) = library
            .split_once('=')
            .ok_or(io::Error::other("NAME=LIBRARY"))?;
        allocators.push((name.into(), Some(path.into())));
    }
    let traces = PathBuf::from(traces);
    let bench = Bench {
        programs: Programs::new(meshrun.into(), &traces)?,
        slabs: std::env::current_exe()?.with_file_name("slabs"),
        report: traces.join("report"),
        traces,
        allocators,
        least: HashMap::new(),
    };
    Ok((bench, rounds.parse().map_err(io::Error::other)?))
}

fn work() -> io::Result<bool> {
    let words: Vec<String> = std::env::args().skip(1).collect();
    let (mut bench, rounds) = bench(&words)?;
    let mut all_same = true;
    for trace in bench.measured() {
        if !bench.agree(trace)? {
            println!(
                "The reports on {} differ.",
                bench.trace(trace.name).display()
            );
            all_same = false;
        }
    }
    for _ in 0..rounds {
        bench.round()?;
    }
    println!("### The same trace, the same report\n");
    bench.print_traces();
    println!("\n### The same calls, by stores that do less\n");
    bench.print_mixes();
    println!("\n### Resident memory\n");
    bench.print_memory();
    if !bench.programs.plans {
        println!(
            "\nThe marks of this meshrun plan nothing yet, so traces that fold were left out."
        );
    }
    Ok(all_same)
}

fn main() -> ExitCode {
    match work() {
        Ok(true) => ExitCode::SUCCESS,
        Ok(false) => ExitCode::FAILURE,
        Err(fault) => {
            eprintln!("table: {fault}");
            ExitCode::from(2)
        }
    }
}
