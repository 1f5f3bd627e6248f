//! Traces with fixed seeds.

use crate::mixes::{Mix, Store, MIXES};
use crate::random::Random;
use std::fmt::Write;

/// The greatest generation of all traces but those of the check: no slot is worn.
const GENS: u32 = u32::MAX;

pub fn header(shards: usize, pages: usize, gens: u32) -> String {
    header_with(1, shards, pages, 4, gens)
}

/// A header of a version, with rings of so many keys.
pub fn header_with(version: u8, shards: usize, pages: usize, ring: usize, gens: u32) -> String {
    format!("mesh {version}\nshards {shards}\npages {pages}\nring {ring}\ngens {gens}\n")
}

/// A store that writes each call as a line. Keys of the first fill are `a.0` and so on.
struct Lines {
    text: String,
    fills: usize,
    puts: usize,
}

#[derive(Clone, Copy)]
enum Named {
    Put(usize),
    Filled(usize, usize),
}

impl Lines {
    fn new() -> Lines {
        Lines {
            text: header(1, 1024, GENS),
            fills: 0,
            puts: 0,
        }
    }

    fn line(&mut self, text: std::fmt::Arguments) {
        // A String takes all that it is given.
        let _ = writeln!(self.text, "{text}");
    }

    fn call(&mut self, word: &str, key: Named) {
        match key {
            Named::Put(n) => self.line(format_args!("0 {word} p{n}")),
            Named::Filled(fill, at) => self.line(format_args!("0 {word} f{fill}.{at}")),
        }
    }
}

impl Store for Lines {
    type Key = Named;

    fn put(&mut self, value: u128) -> Named {
        self.puts += 1;
        let n = self.puts;
        self.line(format_args!("0 put p{n} {value}"));
        Named::Put(n)
    }

    fn get(&mut self, key: Named) -> Option<u128> {
        self.call("get", key);
        Some(0)
    }

    fn free(&mut self, key: Named) -> bool {
        self.call("free", key);
        true
    }

    fn fill(&mut self, count: usize) -> Vec<Named> {
        self.fills += 1;
        let n = self.fills;
        self.line(format_args!("0 fill f{n} {count} 0"));
        (0..count).map(|at| Named::Filled(n, at)).collect()
    }

    fn sweep(&mut self, keys: &[Named]) -> usize {
        let (n, count) = (self.fills, keys.len());
        self.line(format_args!("0 sweep f{n} 0 {count}"));
        count
    }
}

/// A mix as a trace.
fn mix(mix: &Mix) -> String {
    let mut lines = Lines::new();
    let keys = mix.prepare(&mut lines);
    mix.run(&mut lines, keys);
    lines.text
}

/// What stands before the calls of a mix.
fn prepared(mix: &Mix) -> String {
    let mut lines = Lines::new();
    mix.prepare(&mut lines);
    lines.text
}

/// As many values as so many full shards take, in one line a shard.
fn fill(shards: usize) -> String {
    let fills: String = (0..shards)
        .map(|t| format!("{t} fill f{t} 262144 {t}\n"))
        .collect();
    header(shards, 1024, GENS) + &fills
}

/// The same in one shard and a line a value.
fn puts() -> String {
    let mut lines = Lines::new();
    for i in 0..262_144_u128 {
        lines.put(i << 64);
    }
    lines.text
}

/// A shard that is filled and emptied so many times.
fn bursts(rounds: usize) -> String {
    let mut lines = Lines::new();
    for _ in 0..rounds {
        let keys = lines.fill(262_144);
        lines.sweep(&keys);
    }
    lines.text
}

/// Sixty workers, one after another: each fills pages, frees and puts at random, reads what it
/// finds, frees what others left, and ends; the next one adopts some of the groups.
fn workers() -> String {
    let mut text = header(64, 1024, GENS);
    let mut random = Random::new(11);
    let count = 20 * 256;
    for worker in 0..60 {
        let _ = writeln!(text, "{worker} fill w{worker} {count} {worker}");
        for call in 0..6000 {
            let owner = if worker > 0 && call % 3 == 0 {
                random.below(worker)
            } else {
                worker
            };
            let at = random.below(count);
            let _ = match random.below(3) {
                0 => writeln!(text, "{worker} get w{owner}.{at}"),
                1 => writeln!(text, "{worker} free w{owner}.{at}"),
                _ => writeln!(text, "{worker} put w{worker}p{call} {call}"),
            };
        }
        let _ = writeln!(text, "{worker} end");
        for _ in 0..10 {
            let _ = writeln!(text, "adopt {}", worker + 1);
        }
        text.push_str("mark\n");
    }
    text
}

/// Four threads, each with so many look-ups, frees and puts of its own, a line of each in turn.
pub fn side_by_side(calls: usize) -> String {
    let (threads, values) = (4, 1000);
    let mut text = header(threads, 1024, GENS);
    let mut random = Random::new(17);
    let mut puts = vec![values; threads];
    let mut live: Vec<Vec<usize>> = vec![(0..values).collect(); threads];
    for thread in 0..threads {
        for n in 0..values {
            let _ = writeln!(text, "{thread} put t{thread}p{n} {n}");
        }
    }
    for call in 0..calls {
        for thread in 0..threads {
            let at = random.below(values);
            let n = live[thread][at];
            let _ = match call % 4 {
                0 | 1 => writeln!(text, "{thread} get t{thread}p{n}"),
                2 => {
                    live[thread].swap(0, at);
                    writeln!(text, "{thread} free t{thread}p{n}")
                }
                _ => {
                    let fresh = puts[thread];
                    puts[thread] += 1;
                    live[thread][0] = fresh;
                    writeln!(text, "{thread} put t{thread}p{fresh} {call}")
                }
            };
        }
    }
    text
}

/// Four full shards where each page keeps `kept` values at random slots; the first two of them end.
/// Behind that stand `marks` marks, and a call after each.
fn sparse(kept: usize, marks: usize) -> String {
    let (shards, ended, pages) = (4, 2, 1024);
    let mut text = header(shards, pages, GENS);
    let mut random = Random::new(13);
    for thread in 0..shards {
        let _ = writeln!(text, "{thread} fill w{thread} {} 5", pages * 256);
        for page in 0..pages {
            sweep_between(&mut text, &mut random, thread, page * 256, kept);
        }
        if thread < ended {
            let _ = writeln!(text, "{thread} end");
        }
    }
    for mark in 0..marks {
        let _ = writeln!(text, "mark\n{ended} get w{}.{mark}", mark % shards);
    }
    text
}

/// What stands before the first mark.
fn before_marks(text: &str) -> String {
    text.split_inclusive('\n')
        .take_while(|line| *line != "mark\n")
        .collect()
}

/// Frees all slots of a page but some at random.
fn sweep_between(text: &mut String, random: &mut Random, thread: usize, first: usize, kept: usize) {
    let mut slots: Vec<usize> = (0..kept).map(|_| first + random.below(256)).collect();
    slots.sort_unstable();
    slots.dedup();
    slots.push(first + 256);
    let mut from = first;
    for slot in slots {
        if from < slot {
            let _ = writeln!(text, "{thread} sweep w{thread} {from} {slot}");
        }
        from = slot + 1;
    }
}

/// A trace that is measured.
pub struct Written {
    pub name: &'static str,
    /// What it measures is its marks: what stands before them is taken off, and where a mark
    /// doesn't fold it is of no use.
    pub folds: bool,
    /// Whether its report has all replies.
    pub replies: bool,
    text: fn() -> String,
}

const fn calls(name: &'static str, text: fn() -> String) -> Written {
    Written {
        name,
        folds: false,
        replies: false,
        text,
    }
}

const fn marks(name: &'static str, text: fn() -> String) -> Written {
    Written {
        name,
        folds: true,
        replies: false,
        text,
    }
}

pub const TRACES: [Written; 10] = [
    calls("fill", || fill(8)),
    calls("puts", puts),
    calls("churn", || mix(&MIXES[1])),
    Written {
        name: "replies",
        folds: false,
        replies: true,
        text: || mix(&MIXES[1]),
    },
    calls("look-ups", || mix(&MIXES[3])),
    calls("bursts", || bursts(4)),
    calls("workers", workers),
    marks("folds", || sparse(8, 2)),
    marks("folds-tight", || sparse(40, 2)),
    marks("plans", || sparse(52, 12)),
];

/// Each trace with the name of its file: those that are measured, the mixes with what stands before
/// them, and those for memory.
pub fn all() -> Vec<(String, String)> {
    let mut all = Vec::new();
    for known in &TRACES {
        let text = (known.text)();
        if known.folds {
            all.push((format!("before-{}", known.name), before_marks(&text)));
        }
        all.push((known.name.to_string(), text));
    }
    for known in &MIXES {
        all.push((format!("mix-{}", known.name), mix(known)));
        all.push((format!("before-{}", known.name), prepared(known)));
    }
    all.push(("memory-none".into(), header(8, 1024, GENS)));
    all.push(("memory-fill".into(), fill(8)));
    all.push(("memory-bursts-2".into(), bursts(2)));
    all.push(("memory-bursts-10".into(), bursts(10)));
    all
}
