//! Reads the text of a trace.

use crate::class::Class;
use std::collections::HashMap;
use std::fmt;
use std::ops::RangeInclusive;

/// The most puts of one `fill`.
const LONGEST_FILL: u128 = 262_144;

/// The most groups that a `retire` asks for.
const MOST_RETIRED: u128 = 1_048_576;

/// Why a line is refused. The first that holds, in this order, is told.
#[derive(Clone, Copy, Debug, PartialEq, Eq)]
pub enum Cause {
    Header,
    Form,
    Limit,
    Thread,
    Ended,
    Adopt,
    Bound,
    Unknown,
    Early,
}

/// The first line at fault.
#[derive(Clone, Copy, Debug, PartialEq, Eq)]
pub struct Fault {
    pub line: usize,
    pub cause: Cause,
}

impl fmt::Display for Fault {
    fn fmt(&self, out: &mut fmt::Formatter) -> fmt::Result {
        let cause = match self.cause {
            Cause::Header => "header",
            Cause::Form => "form",
            Cause::Limit => "limit",
            Cause::Thread => "thread",
            Cause::Ended => "ended",
            Cause::Adopt => "adopt",
            Cause::Bound => "bound",
            Cause::Unknown => "unknown",
            Cause::Early => "early",
        };
        write!(out, "line {}: {cause}", self.line)
    }
}

#[derive(Clone, Copy, Debug, Default)]
pub struct Header {
    pub shards: usize,
    pub pages: usize,
    pub ring: usize,
    pub gens: u32,
}

/// A call of a thread. Keys are places in one table of all keys that the trace may bind, so that no
/// name is looked up twice.
#[derive(Clone, Copy, Debug)]
pub enum Call {
    Put {
        key: usize,
        class: Class,
        value: u128,
    },
    Fill {
        first: usize,
        class: Class,
        count: u32,
        value: u128,
    },
    Get {
        key: usize,
    },
    /// To the object of the key's own class.
    Set {
        key: usize,
        value: u128,
    },
    Free {
        key: usize,
    },
    Sweep {
        from: usize,
        to: usize,
    },
    Later {
        key: usize,
    },
    Tend,
    Trim,
    Retire {
        most: usize,
    },
    End,
    Begin,
}

#[derive(Clone, Copy, Debug)]
pub enum Line {
    Call { thread: usize, call: Call },
    Adopt { shard: usize },
    Mark,
}

/// A trace: its lines with their numbers, without remarks and empty lines, and how many keys it may
/// bind.
pub struct Trace {
    pub header: Header,
    pub lines: Vec<(usize, Line)>,
    pub keys: usize,
}

/// A number of any length. What doesn't fit is above every range.
#[derive(Clone, Copy)]
enum Number {
    Fits(u128),
    Above,
}

impl Number {
    fn of(word: &[u8]) -> Option<Number> {
        let digits = !word.is_empty() && word.iter().all(u8::is_ascii_digit);
        if !digits || (word[0] == b'0' && word.len() > 1) {
            return None;
        }
        let step =
            |sum: u128, digit: &u8| sum.checked_mul(10)?.checked_add(u128::from(digit - b'0'));
        Some(
            word.iter()
                .try_fold(0, step)
                .map_or(Number::Above, Number::Fits),
        )
    }

    fn within(self, range: RangeInclusive<u128>) -> Option<u128> {
        match self {
            Number::Fits(n) if range.contains(&n) => Some(n),
            _ => None,
        }
    }
}

fn is_name(word: &[u8]) -> bool {
    (1..=16).contains(&word.len())
        && word[0].is_ascii_lowercase()
        && word
            .iter()
            .all(|b| b.is_ascii_lowercase() || b.is_ascii_digit())
}

/// A name, or a name and an index.
#[derive(Clone, Copy)]
struct Reference<'t> {
    name: &'t [u8],
    index: Option<Number>,
}

impl<'t> Reference<'t> {
    fn of(word: &'t [u8]) -> Option<Reference<'t>> {
        let (name, index) = match word.iter().position(|b| *b == b'.') {
            None => (word, None),
            Some(at) => (&word[..at], Some(Number::of(&word[at + 1..])?)),
        };
        is_name(name).then_some(Reference { name, index })
    }
}

/// A thread's call as it is spelled.
enum Spelled<'t> {
    Put(Class, &'t [u8], Number),
    Fill(Class, &'t [u8], Number, Number),
    Get(Reference<'t>),
    Set(Reference<'t>, Number),
    Free(Reference<'t>),
    Sweep(&'t [u8], Number, Number),
    Later(Reference<'t>),
    Tend,
    Trim,
    Retire(Number),
    End,
    Begin,
}

/// A line as it is spelled.
enum Form<'t> {
    Call(Number, Spelled<'t>),
    Adopt(Number),
    Mark,
}

fn name_of(word: &[u8]) -> Option<&[u8]> {
    is_name(word).then_some(word)
}

/// The verb of a put or a fill, and the class of what it puts: that of the bytes at its end, if
/// any.
fn binding_verb(verb: &[u8], version: Version) -> Option<(&[u8], Class)> {
    let digits = verb
        .iter()
        .rev()
        .take_while(|byte| byte.is_ascii_digit())
        .count();
    let (verb, digits) = verb.split_at(verb.len() - digits);
    match digits {
        [] => Some((verb, Class::C16)),
        [b'0', ..] => None,
        _ => Some((
            verb,
            wide_class(std::str::from_utf8(digits).ok()?.parse().ok()?, version)?,
        )),
    }
}

/// The class of wide objects of so many bytes. Version 1 has none, and those before 6 have two.
fn wide_class(bytes: usize, version: Version) -> Option<Class> {
    let has = match version {
        Version::One => false,
        Version::Six => bytes > 16,
        _ => bytes == 64 || bytes == 256,
    };
    Class::of_bytes(bytes).filter(|_| has)
}

fn form_of(line: &[u8], version: Version) -> Option<Form<'_>> {
    let mut room = [&line[..0]; 5];
    let mut count = 0;
    for word in line.split(|b| *b == b' ') {
        *room.get_mut(count)? = word;
        count += 1;
    }
    let spelled = match &room[..count] {
        [b"mark"] => return Some(Form::Mark),
        [b"adopt", shard] => return Some(Form::Adopt(Number::of(shard)?)),
        [_, b"get", key] => Spelled::Get(Reference::of(key)?),
        [_, b"set", key, value] if version >= Version::Three => {
            Spelled::Set(Reference::of(key)?, Number::of(value)?)
        }
        [_, b"free", key] => Spelled::Free(Reference::of(key)?),
        [_, b"sweep", name, from, to] => {
            Spelled::Sweep(name_of(name)?, Number::of(from)?, Number::of(to)?)
        }
        [_, b"later", key] => Spelled::Later(Reference::of(key)?),
        [_, b"tend"] => Spelled::Tend,
        [_, b"trim"] if version >= Version::Four => Spelled::Trim,
        [_, b"retire", most] if version >= Version::Five => Spelled::Retire(Number::of(most)?),
        [_, b"end"] => Spelled::End,
        [_, b"begin"] if version >= Version::Five => Spelled::Begin,
        [_, verb, rest @ ..] => match (binding_verb(verb, version)?, rest) {
            ((b"put", class), [name, value]) => {
                Spelled::Put(class, name_of(name)?, Number::of(value)?)
            }
            ((b"fill", class), [name, count, value]) => Spelled::Fill(
                class,
                name_of(name)?,
                Number::of(count)?,
                Number::of(value)?,
            ),
            _ => return None,
        },
        _ => return None,
    };
    Some(Form::Call(Number::of(room[0])?, spelled))
}

/// What a name is bound to: `count` keys by a fill, or one by a put.
#[derive(Clone, Copy)]
struct Binding {
    first: usize,
    count: Option<u32>,
    class: Class,
    thread: usize,
    section: usize,
}

struct Reader<'t> {
    header: Header,
    names: HashMap<&'t [u8], Binding>,
    /// The section in which each thread ended, if it has not begun again since.
    ended: Vec<Option<usize>>,
    section: usize,
    awaits_mark: bool,
    keys: usize,
}

impl<'t> Reader<'t> {
    fn thread(&self, number: Number) -> Result<usize, Cause> {
        let below = self.header.shards as u128 - 1;
        Ok(number.within(0..=below).ok_or(Cause::Thread)? as usize)
    }

    fn running(&self, number: Number) -> Result<usize, Cause> {
        let thread = self.thread(number)?;
        match self.ended[thread] {
            Some(_) => Err(Cause::Ended),
            None => Ok(thread),
        }
    }

    fn bind(
        &mut self,
        name: &'t [u8],
        count: Option<u32>,
        class: Class,
        thread: usize,
    ) -> Result<usize, Cause> {
        let first = self.keys;
        let binding = Binding {
            first,
            count,
            class,
            thread,
            section: self.section,
        };
        match self.names.entry(name) {
            std::collections::hash_map::Entry::Occupied(_) => return Err(Cause::Bound),
            std::collections::hash_map::Entry::Vacant(place) => place.insert(binding),
        };
        self.keys += count.unwrap_or(1) as usize;
        Ok(first)
    }

    /// The class of what a line puts under the reference, where the line is of its kind: a put
    /// without an index, or a fill with one. Else that of one word.
    fn class(&self, reference: Reference) -> Class {
        match self.names.get(reference.name) {
            Some(binding) if binding.count.is_some() == reference.index.is_some() => binding.class,
            _ => Class::C16,
        }
    }

    /// What a name is bound to; `Early` comes after all that is unknown, so the caller asks for it.
    fn binding(&self, name: &[u8]) -> Result<Binding, Cause> {
        self.names.get(name).copied().ok_or(Cause::Unknown)
    }

    fn in_time(&self, binding: Binding, thread: usize) -> Result<(), Cause> {
        if binding.section == self.section && binding.thread != thread {
            return Err(Cause::Early);
        }
        Ok(())
    }

    fn key(&self, reference: Reference, thread: usize) -> Result<usize, Cause> {
        let binding = self.binding(reference.name)?;
        let place = match (reference.index, binding.count) {
            (None, None) => 0,
            (Some(index), Some(count)) => index
                .within(0..=u128::from(count) - 1)
                .ok_or(Cause::Unknown)?,
            _ => return Err(Cause::Unknown),
        };
        self.in_time(binding, thread)?;
        Ok(binding.first + place as usize)
    }

    fn sweep(&self, name: &[u8], from: Number, to: Number, thread: usize) -> Result<Call, Cause> {
        let binding = self.binding(name)?;
        let count = u128::from(binding.count.ok_or(Cause::Unknown)?);
        let to = to.within(0..=count).ok_or(Cause::Unknown)?;
        let from = from.within(0..=to).ok_or(Cause::Unknown)?;
        self.in_time(binding, thread)?;
        Ok(Call::Sweep {
            from: binding.first + from as usize,
            to: binding.first + to as usize,
        })
    }

    fn call(&mut self, thread: usize, spelled: Spelled<'t>) -> Result<Call, Cause> {
        Ok(match spelled {
            Spelled::Put(class, name, value) => {
                let value = base(class, value).ok_or(Cause::Limit)?;
                Call::Put {
                    key: self.bind(name, None, class, thread)?,
                    class,
                    value,
                }
            }
            Spelled::Fill(class, name, count, value) => {
                let (count, value) = fill_numbers(class, count, value).ok_or(Cause::Limit)?;
                Call::Fill {
                    first: self.bind(name, Some(count), class, thread)?,
                    class,
                    count,
                    value,
                }
            }
            Spelled::Get(key) => Call::Get {
                key: self.key(key, thread)?,
            },
            Spelled::Set(key, value) => Call::Set {
                value: base(self.class(key), value).ok_or(Cause::Limit)?,
                key: self.key(key, thread)?,
            },
            Spelled::Free(key) => Call::Free {
                key: self.key(key, thread)?,
            },
            Spelled::Sweep(name, from, to) => self.sweep(name, from, to, thread)?,
            Spelled::Later(key) => Call::Later {
                key: self.key(key, thread)?,
            },
            Spelled::Tend => Call::Tend,
            Spelled::Trim => Call::Trim,
            Spelled::Retire(most) => Call::Retire {
                most: retired(most).ok_or(Cause::Limit)?,
            },
            Spelled::End => {
                self.ended[thread] = Some(self.section);
                Call::End
            }
            Spelled::Begin => {
                if self.ended[thread].is_none_or(|section| section == self.section) {
                    return Err(Cause::Early);
                }
                self.ended[thread] = None;
                Call::Begin
            }
        })
    }

    /// The limits stand before all other causes that need the lines above.
    fn check_limits(&self, spelled: &Spelled) -> Result<(), Cause> {
        let within = match spelled {
            Spelled::Put(class, _, value) => base(*class, *value).is_some(),
            Spelled::Fill(class, _, count, value) => fill_numbers(*class, *count, *value).is_some(),
            Spelled::Set(key, value) => base(self.class(*key), *value).is_some(),
            Spelled::Retire(most) => retired(*most).is_some(),
            _ => true,
        };
        within.then_some(()).ok_or(Cause::Limit)
    }

    fn line(&mut self, form: Form<'t>) -> Result<Line, Cause> {
        match form {
            Form::Mark => {
                self.awaits_mark = false;
                self.section += 1;
                Ok(Line::Mark)
            }
            Form::Adopt(shard) => {
                let shard = self.running(shard)?;
                self.awaits_mark = true;
                Ok(Line::Adopt { shard })
            }
            Form::Call(thread, spelled) => {
                self.check_limits(&spelled)?;
                let thread = match spelled {
                    Spelled::Begin => self.thread(thread)?,
                    _ => self.running(thread)?,
                };
                if self.awaits_mark {
                    return Err(Cause::Adopt);
                }
                let call = self.call(thread, spelled)?;
                Ok(Line::Call { thread, call })
            }
        }
    }
}

/// The base of an object whose last word is within the range of words.
fn base(class: Class, value: Number) -> Option<u128> {
    value.within(0..=u128::MAX - (class.words() as u128 - 1))
}

fn retired(most: Number) -> Option<usize> {
    most.within(1..=MOST_RETIRED).map(|most| most as usize)
}

fn fill_numbers(class: Class, count: Number, value: Number) -> Option<(u32, u128)> {
    let count = count.within(1..=LONGEST_FILL)?;
    let value = value.within(0..=u128::MAX - (count - 1) - (class.words() as u128 - 1))?;
    Some((count as u32, value))
}

fn header_number(line: Option<&[u8]>, word: &str, most: u128) -> Result<u128, Cause> {
    let rest = line.and_then(|line| line.strip_prefix(word.as_bytes()));
    let number = rest.and_then(|rest| Number::of(rest.strip_prefix(b" ")?));
    number
        .ok_or(Cause::Header)?
        .within(1..=most)
        .ok_or(Cause::Limit)
}

#[derive(Clone, Copy, PartialEq, Eq, PartialOrd)]
enum Version {
    One,
    Two,
    Three,
    Four,
    Five,
    Six,
}

fn header<'t>(lines: &mut impl Iterator<Item = &'t [u8]>) -> Result<(Version, Header), Fault> {
    let version = match lines.next() {
        Some(b"mesh 1") => Version::One,
        Some(b"mesh 2") => Version::Two,
        Some(b"mesh 3") => Version::Three,
        Some(b"mesh 4") => Version::Four,
        Some(b"mesh 5") => Version::Five,
        Some(b"mesh 6") => Version::Six,
        _ => {
            return Err(Fault {
                line: 1,
                cause: Cause::Header,
            });
        }
    };
    let mut number = |line, word, most| {
        header_number(lines.next(), word, most).map_err(|cause| Fault { line, cause })
    };
    let shards = number(2, "shards", 64)? as usize;
    let pages = number(3, "pages", 1024)? as usize;
    let ring = number(4, "ring", 1024)? as usize;
    let gens = number(5, "gens", u128::from(u32::MAX))? as u32;
    let header = Header {
        shards,
        pages,
        ring,
        gens,
    };
    Ok((version, header))
}

/// The lines of a text: an LF ends one, and opens none behind the last.
fn lines_of(text: &[u8]) -> impl Iterator<Item = &[u8]> {
    let body = text.strip_suffix(b"\n").unwrap_or(text);
    let lines = if text.is_empty() {
        None
    } else {
        Some(body.split(|b| *b == b'\n'))
    };
    lines.into_iter().flatten()
}

pub fn read(text: &[u8]) -> Result<Trace, Fault> {
    let mut lines = lines_of(text);
    let (version, header) = header(&mut lines)?;
    let mut reader = Reader {
        header,
        names: HashMap::new(),
        ended: vec![None; header.shards],
        section: 0,
        awaits_mark: false,
        keys: 0,
    };
    let mut read = Vec::new();
    let mut number = 5;
    for line in lines {
        number += 1;
        if line.is_empty() || line[0] == b'#' {
            continue;
        }
        let at = |cause| Fault {
            line: number,
            cause,
        };
        let form = form_of(line, version).ok_or(at(Cause::Form))?;
        read.push((number, reader.line(form).map_err(at)?));
    }
    if reader.awaits_mark {
        return Err(Fault {
            line: number + 1,
            cause: Cause::Adopt,
        });
    }
    Ok(Trace {
        header,
        lines: read,
        keys: reader.keys,
    })
}
