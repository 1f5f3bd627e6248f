//! The store: shards, the pool and the open plan as one value.

use crate::class::{Class, CLASSES};
use crate::ids::{Key, SpanId};
use crate::plan::{self, Graph, Matching};
use crate::slots::Slots;
use crate::trace::Header;
use std::collections::BTreeMap;
use std::ops::Range;

const MOST_SPANS: usize = 1024;
const MOST_GROUPS: usize = 4096;

type Page = [u128; 256];

/// A change of a span. Nothing here reads the log again: it is kept since `meshrun` keeps it.
#[allow(dead_code)]
enum Change {
    Put {
        slot: u8,
        generation: u32,
        first: usize,
    },
    Set {
        slot: u8,
        generation: u32,
        first: usize,
    },
    Free {
        slot: u8,
        generation: u32,
    },
}

struct Span {
    live: Slots,
    worn: Slots,
    generations: Box<[u32]>,
    log: Vec<Change>,
    /// The words of what was put and set, in order.
    words: Vec<u128>,
    /// The place of its group among all groups.
    group: usize,
}

impl Span {
    /// Keeps the words of a change; the place of the first.
    fn keep_words(&mut self, class: Class, base: u128) -> usize {
        let first = self.words.len();
        self.words
            .extend((0..class.words() as u128).map(|k| base + k));
        first
    }
}

enum Home {
    /// A shard, and the place among its groups.
    Shard(usize, usize),
    Pool,
}

struct Group {
    class: Class,
    /// The head, then the guests.
    spans: Vec<SpanId>,
    occupied: Slots,
    page: Option<Box<Page>>,
    home: Home,
    closed: bool,
}

impl Group {
    /// Writes the object of a slot, whose words count up from a base.
    fn write(&mut self, slot: u8, base: u128) {
        if let Some(page) = &mut self.page {
            for (word, k) in page[words_of(self.class, slot)].iter_mut().zip(0..) {
                *word = base + k;
            }
        }
    }
}

#[derive(Default)]
struct Shard {
    /// Places of its groups among all groups, by ascending head.
    groups: Vec<usize>,
    /// A bit for each of these, by class: whether a put should look there.
    rooms: [Vec<u64>; CLASSES],
    ended: bool,
}

impl Shard {
    /// Has puts of the class look at the group.
    fn note(&mut self, class: Class, at: usize) {
        let rooms = &mut self.rooms[class.number()];
        if rooms.len() <= at / 64 {
            rooms.resize(at / 64 + 1, 0);
        }
        rooms[at / 64] |= 1 << (at % 64);
    }

    /// Has no put of the class look at the group.
    fn close(&mut self, class: Class, at: usize) {
        if let Some(word) = self.rooms[class.number()].get_mut(at / 64) {
            *word &= !(1 << (at % 64));
        }
    }
}

/// The words of a slot among those of its page.
fn words_of(class: Class, slot: u8) -> Range<usize> {
    let first = class.words() * usize::from(slot);
    first..first + class.words()
}

/// A put needs a page, and its shard has all that it may have.
#[derive(Clone, Copy, Debug)]
pub struct PagesSpent;

/// A group of the shard is closed, so none of its groups may go.
#[derive(Clone, Copy, Debug)]
pub struct PlanOpen;

#[derive(Clone, Copy, Debug)]
pub enum AdoptError {
    PagesSpent,
    NothingToAdopt,
}

#[derive(Clone, Copy, Debug, PartialEq, Eq)]
pub enum MarkError {
    TooMany,
    /// The pairs that were handed in are no plan, or no largest one.
    NotLargest,
}

pub struct Marked {
    pub abandoned: usize,
    pub owned: usize,
    pub folds: Vec<(SpanId, SpanId)>,
    pub short: Vec<SpanId>,
    pub partners: Vec<SpanId>,
}

#[derive(Clone, Copy, Debug)]
pub enum Stepped {
    Folded,
    Emptied,
}

/// A side of a snapshot: heads ascending, with their class and what they occupy, and where they
/// are.
type Side = Vec<(SpanId, (Class, Slots), usize)>;

pub struct Core<const LOG: bool = false> {
    limits: Header,
    /// By the shard that opened them, then by serial.
    spans: Vec<Vec<Span>>,
    groups: Vec<Group>,
    shards: Vec<Shard>,
    /// The groups of the pool that have a page, by head.
    pool: BTreeMap<SpanId, usize>,
    /// The pairs of the open plan that are still to come, the next one last.
    pairs: Vec<(usize, usize)>,
    /// The groups that the open plan closed.
    closed: Vec<usize>,
    pages: usize,
    live: usize,
}

impl<const LOG: bool> Core<LOG> {
    pub fn new(limits: Header) -> Core<LOG> {
        Core {
            limits,
            spans: (0..limits.shards).map(|_| Vec::new()).collect(),
            groups: Vec::new(),
            shards: (0..limits.shards).map(|_| Shard::default()).collect(),
            pool: BTreeMap::new(),
            pairs: Vec::new(),
            closed: Vec::new(),
            pages: 0,
            live: 0,
        }
    }

    pub fn pages(&self) -> usize {
        self.pages
    }

    pub fn live(&self) -> usize {
        self.live
    }

    fn span(&self, id: SpanId) -> &Span {
        &self.spans[usize::from(id.shard)][usize::from(id.serial)]
    }

    fn span_mut(&mut self, id: SpanId) -> &mut Span {
        &mut self.spans[usize::from(id.shard)][usize::from(id.serial)]
    }

    /// Puts an object of the class whose words count up from a base.
    pub fn put(&mut self, shard: usize, class: Class, base: u128) -> Result<Key, PagesSpent> {
        let (group, slot) = match self.room(shard, class) {
            Some(found) => found,
            None => (self.open(shard, class)?, 0),
        };
        let gens = self.limits.gens;
        let group = &mut self.groups[group];
        let id = group.spans[0];
        if group.page.is_none() {
            group.page = Some(Box::new([0; 256]));
            self.pages += 1;
        }
        group.occupied.insert(slot);
        group.write(slot, base);
        let span = &mut self.spans[usize::from(id.shard)][usize::from(id.serial)];
        let generation = span.generations[usize::from(slot)] + 1;
        span.generations[usize::from(slot)] = generation;
        span.live.insert(slot);
        if generation == gens {
            span.worn.insert(slot);
        }
        if LOG {
            let first = span.keep_words(class, base);
            span.log.push(Change::Put {
                slot,
                generation,
                first,
            });
        }
        self.live += 1;
        Ok(Key {
            span: id,
            slot,
            generation,
        })
    }

    /// The open group of the class of lowest head that has a usable slot, and its lowest such slot.
    /// Bits of groups without one go off.
    fn room(&mut self, shard: usize, class: Class) -> Option<(usize, u8)> {
        let Shard { groups, rooms, .. } = &mut self.shards[shard];
        for (w, word) in rooms[class.number()].iter_mut().enumerate() {
            while *word != 0 {
                let place = groups[w * 64 + word.trailing_zeros() as usize];
                let group = &self.groups[place];
                let head = group.spans[0];
                let worn = &self.spans[usize::from(head.shard)][usize::from(head.serial)].worn;
                if let Some(slot) = group
                    .occupied
                    .union(worn)
                    .lowest_outside_below(class.slots())
                {
                    return Some((place, slot));
                }
                *word &= *word - 1;
            }
        }
        None
    }

    /// Opens a span on a new page. No other group of the class in the shard takes a put then, so
    /// all other bits of the class are off.
    fn open(&mut self, shard: usize, class: Class) -> Result<usize, PagesSpent> {
        let opened = self.spans[shard].len();
        if self.shards[shard].groups.len() >= self.limits.pages || opened >= MOST_SPANS {
            return Err(PagesSpent);
        }
        let id = SpanId {
            shard: shard as u16,
            serial: opened as u16,
        };
        let group = self.groups.len();
        self.spans[shard].push(Span {
            live: Slots::default(),
            worn: Slots::default(),
            generations: vec![0; class.slots()].into(),
            log: Vec::new(),
            words: Vec::new(),
            group,
        });
        self.groups.push(Group {
            class,
            spans: vec![id],
            occupied: Slots::default(),
            page: Some(Box::new([0; 256])),
            home: Home::Pool,
            closed: false,
        });
        self.pages += 1;
        self.settle(group, shard);
        Ok(group)
    }

    /// Gives a group its place in a shard, by its head, and has puts look there.
    fn settle(&mut self, group: usize, shard: usize) {
        let head = self.groups[group].spans[0];
        let all = &self.groups;
        let home = &mut self.shards[shard];
        let at = home.groups.partition_point(|g| all[*g].spans[0] < head);
        let last = at == home.groups.len();
        home.groups.insert(at, group);
        if last {
            home.note(self.groups[group].class, at);
            self.groups[group].home = Home::Shard(shard, at);
        } else {
            self.renumber(shard);
        }
    }

    /// After groups came or were opened in the middle: where each stands, and a bit for each that
    /// takes puts.
    fn renumber(&mut self, shard: usize) {
        let home = &mut self.shards[shard];
        home.rooms.iter_mut().for_each(|rooms| rooms.fill(0));
        for at in 0..home.groups.len() {
            let group = &mut self.groups[home.groups[at]];
            group.home = Home::Shard(shard, at);
            if !group.closed {
                home.note(group.class, at);
            }
        }
    }

    fn find(&self, key: Key) -> Option<&Span> {
        let span = self.span(key.span);
        let known = span.live.contains(key.slot)
            && span.generations[usize::from(key.slot)] == key.generation;
        known.then_some(span)
    }

    /// The words of the key's object.
    pub fn get(&self, key: Key) -> Option<&[u128]> {
        let group = &self.groups[self.find(key)?.group];
        group
            .page
            .as_ref()
            .map(|page| &page[words_of(group.class, key.slot)])
    }

    /// Sets the key to the object of its class whose words count up from a base, where it is live.
    pub fn set(&mut self, key: Key, base: u128) -> bool {
        let Some(place) = self.find(key).map(|span| span.group) else {
            return false;
        };
        let group = &mut self.groups[place];
        group.write(key.slot, base);
        let class = group.class;
        if LOG {
            let span = self.span_mut(key.span);
            let first = span.keep_words(class, base);
            span.log.push(Change::Set {
                slot: key.slot,
                generation: key.generation,
                first,
            });
        }
        true
    }

    pub fn free(&mut self, key: Key) -> bool {
        if self.find(key).is_none() {
            return false;
        }
        let span = self.span_mut(key.span);
        span.live.remove(key.slot);
        if LOG {
            span.log.push(Change::Free {
                slot: key.slot,
                generation: key.generation,
            });
        }
        let place = span.group;
        let group = &mut self.groups[place];
        group.occupied.remove(key.slot);
        self.live -= 1;
        match group.home {
            Home::Shard(shard, at) if !group.closed => self.shards[shard].note(group.class, at),
            Home::Pool if group.occupied.is_empty() => self.drop_page(place),
            _ => {}
        }
        true
    }

    /// Takes the page of a group of the pool away.
    fn drop_page(&mut self, place: usize) {
        self.groups[place].page = None;
        self.pool.remove(&self.groups[place].spans[0]);
        self.pages -= 1;
    }

    /// The groups of the shard of an ended thread go to the pool.
    pub fn end(&mut self, shard: usize) {
        self.shards[shard].ended = true;
        for place in std::mem::take(&mut self.shards[shard].groups) {
            let group = &mut self.groups[place];
            group.home = Home::Pool;
            if group.page.is_none() {
                continue;
            }
            self.pool.insert(group.spans[0], place);
            if group.occupied.is_empty() {
                self.drop_page(place);
            }
        }
    }

    /// The shard of an ended thread runs again, with no group.
    pub fn begin(&mut self, shard: usize) {
        self.shards[shard] = Shard::default();
    }

    /// Up to `most` groups of the shard with something live go to the pool, those with the least
    /// first; how many.
    pub fn retire(&mut self, shard: usize, most: usize) -> Result<usize, PlanOpen> {
        let mut live = Vec::new();
        for place in &self.shards[shard].groups {
            let group = &self.groups[*place];
            if group.closed {
                return Err(PlanOpen);
            }
            if !group.occupied.is_empty() {
                live.push((group.occupied.iter().count(), group.spans[0], *place));
            }
        }
        live.sort_unstable();
        live.truncate(most);
        for (_, head, place) in &live {
            self.shards[shard].groups.retain(|group| group != place);
            self.groups[*place].home = Home::Pool;
            self.pool.insert(*head, *place);
        }
        self.renumber(shard);
        Ok(live.len())
    }

    /// The pages of the shard's open groups with nothing live go; how many.
    pub fn trim(&mut self, shard: usize) -> usize {
        let mut count = 0;
        for place in &self.shards[shard].groups {
            let group = &mut self.groups[*place];
            if group.page.is_some() && !group.closed && group.occupied.is_empty() {
                group.page = None;
                count += 1;
            }
        }
        self.pages -= count;
        count
    }

    pub fn adopt(&mut self, shard: usize) -> Result<SpanId, AdoptError> {
        if self.shards[shard].groups.len() >= self.limits.pages {
            return Err(AdoptError::PagesSpent);
        }
        let (head, group) = self.pool.pop_first().ok_or(AdoptError::NothingToAdopt)?;
        self.settle(group, shard);
        Ok(head)
    }

    fn side(&self, places: impl Iterator<Item = usize>) -> Result<Side, MarkError> {
        let entry = |place| {
            let group: &Group = &self.groups[place];
            (group.spans[0], (group.class, group.occupied), place)
        };
        let mut side: Side = places.map(entry).collect();
        side.sort_unstable_by_key(|(head, ..)| *head);
        if side.len() > MOST_GROUPS {
            return Err(MarkError::TooMany);
        }
        Ok(side)
    }

    /// Opens a largest plan: the one that is given, where there is one, or else one of its own.
    pub fn mark(&mut self, given: Option<&[(SpanId, SpanId)]>) -> Result<Marked, MarkError> {
        let abandoned = self.side(self.pool.values().copied())?;
        let running = self.shards.iter().filter(|shard| !shard.ended);
        let groups = running.flat_map(|shard| shard.groups.iter().copied());
        let owned = self.side(groups.filter(|place| self.groups[*place].page.is_some()))?;
        let sets =
            |side: &Side| -> Vec<(Class, Slots)> { side.iter().map(|(_, set, _)| *set).collect() };
        let graph = Graph::new(&sets(&abandoned), &sets(&owned));
        let matching = match given {
            None => plan::largest(&graph),
            Some(folds) => {
                checked(&graph, &abandoned, &owned, folds).ok_or(MarkError::NotLargest)?
            }
        };
        let (short, partners) = plan::short(&graph, &matching).ok_or(MarkError::NotLargest)?;
        let mut folds = Vec::new();
        for (a, b) in matching.of_abandoned.iter().enumerate() {
            if let Some(b) = b {
                folds.push((abandoned[a].0, owned[*b].0));
                self.pairs.push((abandoned[a].2, owned[*b].2));
            }
        }
        self.pairs.reverse();
        self.close_planned();
        let ids =
            |side: &Side, places: Vec<usize>| places.into_iter().map(|at| side[at].0).collect();
        Ok(Marked {
            folds,
            short: ids(&abandoned, short),
            partners: ids(&owned, partners),
            abandoned: abandoned.len(),
            owned: owned.len(),
        })
    }

    fn close_planned(&mut self) {
        for (_, onto) in &self.pairs {
            let group = &mut self.groups[*onto];
            group.closed = true;
            if let Home::Shard(shard, at) = group.home {
                self.shards[shard].close(group.class, at);
            }
            self.closed.push(*onto);
        }
    }

    /// Carries out the next pair of the open plan.
    pub fn step(&mut self) -> Option<(SpanId, SpanId, Stepped)> {
        let (from, onto) = self.pairs.pop()?;
        let heads = (self.groups[from].spans[0], self.groups[onto].spans[0]);
        if self.groups[from].page.is_none() {
            return Some((heads.0, heads.1, Stepped::Emptied));
        }
        self.fold(from, onto);
        Some((heads.0, heads.1, Stepped::Folded))
    }

    fn fold(&mut self, from: usize, onto: usize) {
        self.pool.remove(&self.groups[from].spans[0]);
        self.pages -= 1;
        let guests = std::mem::take(&mut self.groups[from].spans);
        let (class, occupied) = (self.groups[from].class, self.groups[from].occupied);
        let page = self.groups[from].page.take();
        for id in &guests {
            self.span_mut(*id).group = onto;
        }
        let group = &mut self.groups[onto];
        group.spans.extend(guests);
        group.occupied = group.occupied.union(&occupied);
        if let (Some(source), Some(target)) = (page, &mut group.page) {
            for slot in occupied.iter() {
                let words = words_of(class, slot);
                target[words.clone()].copy_from_slice(&source[words]);
            }
        }
    }

    /// Ends the plan, and opens what it closed.
    pub fn close(&mut self) {
        self.pairs.clear();
        for place in std::mem::take(&mut self.closed) {
            let group = &mut self.groups[place];
            group.closed = false;
            if let Home::Shard(shard, at) = group.home {
                self.shards[shard].note(group.class, at);
            }
        }
    }
}

/// The pairs as places, where they are a plan of this snapshot.
fn checked(
    graph: &Graph,
    abandoned: &Side,
    owned: &Side,
    folds: &[(SpanId, SpanId)],
) -> Option<Matching> {
    let place = |side: &Side, id: &SpanId| side.binary_search_by_key(id, |(head, ..)| *head).ok();
    let pairs: Option<Vec<_>> = folds
        .iter()
        .map(|(a, b)| Some((place(abandoned, a)?, place(owned, b)?)))
        .collect();
    plan::matching_of(graph, &pairs?)
}
