//! Random texts for the check: traces that come to the edges of the rules soon, and texts that are
//! no traces.

use crate::random::Random;
use crate::written::header_with;
use std::fmt::Write;

/// What a text has bound so far.
struct Bound {
    name: String,
    /// None for a put.
    count: Option<usize>,
    thread: usize,
    section: usize,
}

struct Draw {
    random: Random,
    /// The verbs' ends of the classes that the version has.
    classes: Vec<&'static str>,
    /// Whether the version has sets.
    sets: bool,
    /// Whether it has trims.
    trims: bool,
    /// Whether it has retirements and begins.
    begins: bool,
    text: String,
    shards: usize,
    /// The section in which each thread ended, if it has not begun again since.
    ended: Vec<Option<usize>>,
    bound: Vec<Bound>,
    section: usize,
    /// Whether a thread may ask for what it can't know.
    careless: bool,
    /// Whether pages come to be full.
    crowded: bool,
}

/// The text of a seed. Every third one is broken somewhere.
pub fn text(seed: u64) -> Vec<u8> {
    let mut random = Random::new(seed);
    for _ in 0..8 {
        random.draw();
    }
    let shards = [1, 3, 6, 12, 20][random.below(5)];
    let pages = 1 + random.below(4);
    let gens = [1, 2, 3, 9, u32::MAX][random.below(5)];
    let ring = 1 + random.below(3);
    let lines = 5 + random.below(80);
    let version = [6, 6, 6, 5, 4, 3, 2, 1][(seed / 5) as usize % 8];
    let mut wide = || WIDE[random.below(WIDE.len())];
    let classes = match version {
        1 => vec![""],
        6 => vec!["", "", wide(), wide()],
        _ => vec!["", "", "64", "256"],
    };
    let mut draw = Draw {
        random,
        classes,
        sets: version > 2,
        trims: version > 3,
        begins: version > 4,
        text: header_with(version, shards, pages, ring, gens),
        shards,
        ended: vec![None; shards],
        bound: Vec::new(),
        section: 0,
        careless: seed % 12 == 0,
        crowded: seed % 5 == 0,
    };
    for _ in 0..lines {
        match draw.section {
            0 if !draw.crowded => draw.opening(),
            _ => draw.line(),
        }
    }
    let Draw {
        text, mut random, ..
    } = draw;
    let mut text = text.into_bytes();
    if seed % 3 == 0 {
        for _ in 0..1 + random.below(2) {
            spoil(&mut random, &mut text);
        }
    }
    text
}

impl Draw {
    fn say(&mut self, text: std::fmt::Arguments) {
        // A String takes all that it is given.
        let _ = writeln!(self.text, "{text}");
    }

    fn line(&mut self) {
        match self.random.below(40) {
            0 => self.text.push_str("# a remark\n\n"),
            1 | 2 => self.barrier(),
            3 | 4 => self.end(),
            13..=15 => {
                if let Some(thread) = self.running() {
                    let verb = ["tend", "trim"][self.random.below(1 + usize::from(self.trims))];
                    self.say(format_args!("{thread} {verb}"));
                }
            }
            16 | 17 if self.begins => self.begin(),
            18 | 19 if self.begins => {
                if let Some(thread) = self.running() {
                    let most = 1 + self.random.below(3);
                    self.say(format_args!("{thread} retire {most}"));
                }
            }
            5..=12 => {
                if let Some(thread) = self.running() {
                    self.part(thread);
                }
            }
            _ => self.call(),
        }
    }

    /// Each thread keeps a few values, some of the threads end, and a mark folds what they left.
    fn opening(&mut self) {
        for thread in 0..self.shards {
            self.part(thread);
        }
        for _ in 0..self.shards / 2 {
            self.end();
        }
        self.barrier();
    }

    fn running(&mut self) -> Option<usize> {
        let running: Vec<usize> = (0..self.shards)
            .filter(|t| self.ended[*t].is_none())
            .collect();
        (!running.is_empty()).then(|| running[self.random.below(running.len())])
    }

    fn barrier(&mut self) {
        for _ in 0..self.random.below(3) {
            if let Some(shard) = self.running() {
                self.say(format_args!("adopt {shard}"));
            }
        }
        self.text.push_str("mark\n");
        self.section += 1;
        // What a plan is to fold may be empty when its turn comes.
        for _ in 0..self.random.below(3) {
            if let Some(thread) = self.running() {
                self.use_key(thread);
            }
        }
    }

    /// Keeps a few of many values, so that groups come to fit each other.
    fn part(&mut self, thread: usize) {
        let (count, kept) = (3 + self.random.below(6), self.random.below(3));
        let name = format!("n{}", self.bound.len());
        let class = self.class();
        self.say(format_args!("{thread} fill{class} {name} {count} 7"));
        self.say(format_args!("{thread} sweep {name} 0 {kept}"));
        self.say(format_args!("{thread} sweep {name} {} {count}", kept + 1));
        self.bound.push(Bound {
            name,
            count: Some(count),
            thread,
            section: self.section,
        });
    }

    fn value(&mut self) -> u128 {
        [self.random.draw() as u128, u128::MAX - 500, 0][self.random.below(3)]
    }

    fn class(&mut self) -> &'static str {
        self.classes[self.random.below(self.classes.len())]
    }

    fn end(&mut self) {
        if let Some(thread) = self.running() {
            self.ended[thread] = Some(self.section);
            self.say(format_args!("{thread} end"));
        }
    }

    /// A thread begins again whose shard was abandoned; or, where threads are careless, any thread.
    fn begin(&mut self) {
        let careless = self.careless && self.random.one_in(8);
        let may_begin =
            |ended: Option<usize>| careless || ended.is_some_and(|section| section < self.section);
        let resting: Vec<usize> = (0..self.shards)
            .filter(|t| may_begin(self.ended[*t]))
            .collect();
        if !resting.is_empty() {
            let thread = resting[self.random.below(resting.len())];
            self.ended[thread] = None;
            self.say(format_args!("{thread} begin"));
            self.part(thread);
        }
    }

    fn call(&mut self) {
        let Some(thread) = self.running() else { return };
        match self.random.below(10) {
            0 => self.bind(thread, None),
            1 => {
                let most = if self.crowded { 500 } else { 6 };
                let count = 1 + self.random.below(most);
                self.bind(thread, Some(count));
            }
            _ => self.use_key(thread),
        }
    }

    fn bind(&mut self, thread: usize, count: Option<usize>) {
        let name = format!("n{}", self.bound.len());
        let value = self.value();
        let class = self.class();
        match count {
            None => self.say(format_args!("{thread} put{class} {name} {value}")),
            Some(count) => self.say(format_args!("{thread} fill{class} {name} {count} {value}")),
        }
        self.bound.push(Bound {
            name,
            count,
            thread,
            section: self.section,
        });
    }

    /// Reads, sets, frees, sends off or sweeps a name that this thread may know.
    fn use_key(&mut self, thread: usize) {
        let (section, careless) = (self.section, self.careless && self.random.one_in(8));
        let known = |b: &&Bound| careless || b.thread == thread || b.section < section;
        let known: Vec<&Bound> = self.bound.iter().filter(known).collect();
        if known.is_empty() {
            return;
        }
        let bound = known[self.random.below(known.len())];
        let (name, count) = (bound.name.clone(), bound.count);
        let key = match count {
            None => name,
            Some(count) if self.random.one_in(3) => {
                let to = self.random.below(count + 1);
                let from = self.random.below(to + 1);
                self.say(format_args!("{thread} sweep {name} {from} {to}"));
                return;
            }
            Some(count) => format!("{name}.{}", self.random.below(count)),
        };
        if self.sets && self.random.one_in(3) {
            // The last word of a wide object may be too great then.
            let value = if careless {
                u128::MAX - self.random.below(20) as u128
            } else {
                self.value()
            };
            self.say(format_args!("{thread} set {key} {value}"));
        } else {
            let word = ["get", "free", "later"][self.random.below(3)];
            self.say(format_args!("{thread} {word} {key}"));
        }
    }
}

/// The bytes of wide objects, as verbs end in them.
const WIDE: [&str; 15] = [
    "32", "48", "64", "80", "96", "112", "128", "144", "160", "176", "192", "208", "224", "240",
    "256",
];

/// Words that stand where others should.
const WORDS: [&str; 38] = [
    "0",
    "1",
    "63",
    "64",
    "00",
    "01",
    "-1",
    "+1",
    "",
    " ",
    "put",
    "fill",
    "put64",
    "put256",
    "fill64",
    "fill256",
    "put48",
    "fill240",
    "put16",
    "put040",
    "set",
    "end",
    "later",
    "tend",
    "trim",
    "retire",
    "begin",
    "mark",
    "adopt",
    "n0",
    "n1.0",
    "n2.",
    "N",
    "262144",
    "262145",
    "340282366920938463463374607431768211456",
    "99999999999999999999999999999999999999999999999999",
    "abcdefghijklmnopq",
];

/// Makes one fault, or what may be one.
fn spoil(random: &mut Random, text: &mut Vec<u8>) {
    let mut lines: Vec<Vec<u8>> = text.split(|b| *b == b'\n').map(<[u8]>::to_vec).collect();
    let at = random.below(lines.len());
    match random.below(7) {
        0 => drop(lines.remove(at)),
        1 => lines.insert(at, lines[at].clone()),
        2 => {
            let to = random.below(lines.len());
            lines.swap(at, to);
        }
        3 => lines.truncate(at),
        4 => {
            let byte = [b' ', b'\r', 0, 255, b'0', b'9', b'.', b'z'][random.below(8)];
            let place = random.below(lines[at].len() + 1);
            lines[at].insert(place, byte);
        }
        _ => {
            let mut words: Vec<Vec<u8>> = lines[at]
                .split(|b| *b == b' ')
                .map(<[u8]>::to_vec)
                .collect();
            let place = random.below(words.len());
            words[place] = WORDS[random.below(WORDS.len())].into();
            lines[at] = words.join(&b' ');
        }
    }
    *text = lines.join(&b'\n');
}
