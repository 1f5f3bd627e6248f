//! Runs a trace, and builds its report.

use crate::class::Class;
use crate::core::{AdoptError, Core, MarkError, PagesSpent, PlanOpen, Stepped};
use crate::ids::{Key, SpanId};
use crate::report::{push_id, push_ids, push_key, push_number};
use crate::trace::{Call, Line, Trace};
use std::collections::VecDeque;
use std::io::Write;

/// How to run a trace.
#[derive(Default)]
pub struct How {
    pub replies: bool,
    /// A mark is a barrier alone: it plans nothing and has no lines.
    pub barriers: bool,
    /// The pairs that each mark is to take, in place of its own.
    pub plans: Option<Vec<Vec<(SpanId, SpanId)>>>,
}

/// The plan that a mark was to take is no largest one.
#[derive(Debug)]
pub struct NotLargest {
    pub mark: usize,
}

struct Run<'h> {
    how: &'h How,
    core: Core,
    keys: Vec<Option<Key>>,
    out: Vec<u8>,
    /// The lines of the steps, which stand behind all replies of their section.
    steps: Vec<u8>,
    calls: usize,
    marks: usize,
    /// The number of the mark whose plan is open.
    open: Option<usize>,
    leaving: Vec<usize>,
    /// Lines and shards of the adoptions that wait for their mark.
    adoptions: Vec<(usize, usize)>,
    /// The keys that wait to be freed, by the shard that opened their span, then by the worker that
    /// sent them.
    rings: Vec<Vec<VecDeque<Key>>>,
    /// How many keys a ring holds.
    ring: usize,
}

pub fn run(trace: &Trace, how: &How) -> Result<Vec<u8>, NotLargest> {
    let mut run = Run {
        how,
        core: Core::new(trace.header),
        keys: vec![None; trace.keys],
        out: Vec::new(),
        steps: Vec::new(),
        calls: 0,
        marks: 0,
        open: None,
        leaving: Vec::new(),
        adoptions: Vec::new(),
        rings: vec![vec![VecDeque::new(); trace.header.shards]; trace.header.shards],
        ring: trace.header.ring,
    };
    for (number, line) in &trace.lines {
        run.line(*number, line)?;
    }
    run.finish_section();
    let (pages, live, calls) = (run.core.pages(), run.core.live(), run.calls);
    run.say(format_args!(
        "end pages {pages} live {live} calls {calls}\n"
    ));
    Ok(run.out)
}

impl Run<'_> {
    fn line(&mut self, number: usize, line: &Line) -> Result<(), NotLargest> {
        match line {
            Line::Call { thread, call } => {
                self.call(number, *thread, call);
                self.step();
            }
            Line::Adopt { shard } => self.adoptions.push((number, *shard)),
            Line::Mark => self.mark()?,
        }
        Ok(())
    }

    fn call(&mut self, number: usize, thread: usize, call: &Call) {
        match *call {
            Call::Put { key, class, value } => self.put(number, thread, key, class, value),
            Call::Fill {
                first,
                class,
                count,
                value,
            } => {
                for i in 0..count {
                    self.put(
                        number,
                        thread,
                        first + i as usize,
                        class,
                        value + u128::from(i),
                    );
                }
            }
            Call::Get { key } => self.get(number, key),
            Call::Set { key, value } => self.set(number, key, value),
            Call::Free { key } => self.free(number, key),
            Call::Sweep { from, to } => (from..to).for_each(|key| self.free(number, key)),
            Call::Later { key } => self.later(number, thread, key),
            Call::Tend => {
                let count = self.tend(thread);
                self.reply(number, |out| {
                    out.extend_from_slice(b"settled ");
                    push_number(out, count);
                });
            }
            Call::Trim => {
                let count = self.core.trim(thread);
                self.reply(number, |out| {
                    out.extend_from_slice(b"trimmed ");
                    push_number(out, count as u64);
                });
            }
            Call::Retire { most } => {
                let retired = self.core.retire(thread, most);
                self.reply(number, |out| match retired {
                    Ok(count) => {
                        out.extend_from_slice(b"retired ");
                        push_number(out, count as u64);
                    }
                    Err(PlanOpen) => out.extend_from_slice(b"refused plan"),
                });
            }
            Call::End => {
                self.leaving.push(thread);
                self.reply(number, |out| out.extend_from_slice(b"ended"));
            }
            Call::Begin => {
                self.core.begin(thread);
                self.reply(number, |out| out.extend_from_slice(b"begun"));
            }
        }
    }

    /// Counts a call, and writes its reply where replies are asked for.
    fn reply(&mut self, number: usize, text: impl FnOnce(&mut Vec<u8>)) {
        self.calls += 1;
        self.write_reply(number, text);
    }

    fn write_reply(&mut self, number: usize, text: impl FnOnce(&mut Vec<u8>)) {
        if self.how.replies {
            push_number(&mut self.out, number as u64);
            self.out.push(b' ');
            text(&mut self.out);
            self.out.push(b'\n');
        }
    }

    fn put(&mut self, number: usize, thread: usize, place: usize, class: Class, value: u128) {
        match self.core.put(thread, class, value) {
            Ok(key) => {
                self.keys[place] = Some(key);
                self.reply(number, |out| {
                    out.extend_from_slice(b"key ");
                    push_key(out, key);
                });
            }
            Err(PagesSpent) => self.reply(number, |out| out.extend_from_slice(b"refused pages")),
        }
    }

    fn get(&mut self, number: usize, place: usize) {
        let found =
            self.keys[place].map(|key| self.core.get(key).map(|words| (words[0], words.len())));
        self.reply(number, |out| match found {
            None => out.extend_from_slice(b"unbound"),
            Some(None) => out.extend_from_slice(b"none"),
            Some(Some((base, words))) => push_words(out, base, words),
        });
    }

    fn set(&mut self, number: usize, place: usize, value: u128) {
        let done = self.keys[place].map(|key| self.core.set(key, value));
        self.reply(number, |out| out.extend_from_slice(word_of(done)));
    }

    fn free(&mut self, number: usize, place: usize) {
        let done = self.keys[place].map(|key| self.core.free(key));
        self.reply(number, |out| out.extend_from_slice(word_of(done)));
    }

    fn later(&mut self, number: usize, thread: usize, place: usize) {
        let text: &[u8] = match self.keys[place] {
            None => b"unbound",
            Some(key) => {
                let ring = &mut self.rings[usize::from(key.span.shard)][thread];
                if ring.len() < self.ring {
                    ring.push_back(key);
                    b"sent"
                } else {
                    b"full"
                }
            }
        };
        self.reply(number, |out| out.extend_from_slice(text));
    }

    /// Frees the keys that wait for a shard, by worker; how many there were.
    fn tend(&mut self, shard: usize) -> u64 {
        let mut count = 0;
        for ring in &mut self.rings[shard] {
            for key in ring.drain(..) {
                self.core.free(key);
                count += 1;
            }
        }
        count
    }

    /// Takes a step of the open plan; whether there was one to take.
    fn step(&mut self) -> bool {
        let Some((from, onto, stepped)) = self.core.step() else {
            return false;
        };
        if self.how.replies {
            let result = match stepped {
                Stepped::Folded => "folded",
                Stepped::Emptied => "emptied",
            };
            self.steps
                .extend_from_slice(format!("step {from} onto {onto} {result}\n").as_bytes());
        }
        true
    }

    /// The plan is carried out and closed, the shards of ended threads are abandoned, and all rings
    /// are emptied.
    fn finish_section(&mut self) {
        while self.step() {}
        self.out.append(&mut self.steps);
        if let Some(mark) = self.open.take() {
            self.core.close();
            let pages = self.core.pages();
            self.say(format_args!("closed {mark} pages {pages}\n"));
        }
        self.leaving.sort_unstable();
        for shard in std::mem::take(&mut self.leaving) {
            self.core.end(shard);
        }
        for shard in 0..self.rings.len() {
            self.tend(shard);
        }
    }

    fn adopt(&mut self, number: usize, shard: usize) {
        let adopted = self.core.adopt(shard);
        self.write_reply(number, |out| match adopted {
            Ok(head) => {
                out.extend_from_slice(b"adopted ");
                push_id(out, head);
            }
            Err(AdoptError::PagesSpent) => out.extend_from_slice(b"refused pages"),
            Err(AdoptError::NothingToAdopt) => out.extend_from_slice(b"refused nothing"),
        });
    }

    fn mark(&mut self) -> Result<(), NotLargest> {
        self.finish_section();
        for (number, shard) in std::mem::take(&mut self.adoptions) {
            self.adopt(number, shard);
        }
        self.marks += 1;
        if self.how.barriers {
            return Ok(());
        }
        let mark = self.marks;
        let given = self
            .how
            .plans
            .as_ref()
            .map(|plans| plans.get(mark - 1).map_or(&[][..], Vec::as_slice));
        match self.core.mark(given) {
            Err(MarkError::TooMany) => self.say(format_args!("mark {mark} refused many\n")),
            Err(MarkError::NotLargest) => return Err(NotLargest { mark }),
            Ok(marked) => {
                self.open = Some(mark);
                let (abandoned, owned, folds) =
                    (marked.abandoned, marked.owned, marked.folds.len());
                let pages = self.core.pages();
                self.say(format_args!(
                    "mark {mark} abandoned {abandoned} owned {owned} folds {folds} pages {pages}\n"
                ));
                for (from, onto) in &marked.folds {
                    self.say(format_args!("fold {from} onto {onto}\n"));
                }
                push_ids(&mut self.out, "short", &marked.short);
                push_ids(&mut self.out, "partners", &marked.partners);
            }
        }
        Ok(())
    }

    fn say(&mut self, text: std::fmt::Arguments) {
        // A Vec takes all that it is given.
        let _ = self.out.write_fmt(text);
    }
}

/// Whether a set or a free was done; none where there is no key.
fn word_of(done: Option<bool>) -> &'static [u8] {
    match done {
        None => b"unbound",
        Some(false) => b"no",
        Some(true) => b"yes",
    }
}

/// The words of an object, which count up from its base.
fn push_words(out: &mut Vec<u8>, base: u128, words: usize) {
    out.extend_from_slice(b"value");
    for word in (0..words as u128).map(|k| base + k) {
        out.push(b' ');
        match u64::try_from(word) {
            Ok(small) => push_number(out, small),
            Err(_) => out.extend_from_slice(word.to_string().as_bytes()),
        }
    }
}
