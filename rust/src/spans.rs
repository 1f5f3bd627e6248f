//! The spans that have values.

use crate::names::Span;
use crate::refused::Refused;
use crate::values::Block;

/// Where the values of a span are.
#[derive(Clone, Copy)]
pub(crate) struct Home {
    /// Whose home it is.
    pub span: Span,
    /// The block of its page.
    pub block: Block,
    /// The number of its page.
    pub page: u32,
    /// The number of the span among those that have homes: no two have the same at one time.
    pub number: u32,
    /// How many slots the block has.
    pub slots: u16,
    /// As many, if no other span has values there; or else 0.
    pub own: u32,
    /// How many values it has there.
    pub live: u16,
}

impl Home {
    /// What stands at a free place.
    const FREE: Home = Home {
        span: Span::NONE,
        block: Block::NOWHERE,
        page: 0,
        number: 0,
        slots: 0,
        own: 0,
        live: 0,
    };

    #[inline]
    fn is_free(&self) -> bool {
        self.span == Span::NONE
    }
}

/// The homes of spans, by the names of spans: it takes memory for as many as there were at one
/// time, whatever their serial numbers are.
///
/// A home stands at the place that follows from its span or, where that is taken, at the next free
/// one behind it (Knuth, *The Art of Computer Programming*, volume 3, 6.4, algorithms L and R). So
/// a look-up is mostly a product and a comparison: with a `HashMap` of as cheap a hash the look-up
/// of a value took half as long again.
pub(crate) struct Spans {
    // None at first, then one, and then a power of two of which at most half are homes. The others
    // are free, which the name tells that no key's span has: so one comparison tells a home.
    places: Box<[Home]>,
    // How many further spans there is room for.
    room: u32,
    // By the numbers of spans. At one that no span has, the one that was freed before it. While
    // there is one place, its home has number 0, and this is empty.
    names: Vec<Span>,
    // The number that was freed last, or `NO_NUMBER`.
    free: u32,
}

/// No number: there are fewer spans.
const NO_NUMBER: u32 = u32::MAX;

/// How many places there are at least, once there are any: the one of a first span, which may take
/// all of them. Each other number of places has a free one, at which a search ends.
const LEAST_PLACES: usize = 1;

/// An odd number, found by trial, by which spans seldom want the same place, in shards that open
/// them one after another, and where each second to 4,096th of these is left: where half of the
/// places are taken, a search takes 1.07 steps on average then, and 1.5 at worst.
const FACTOR: u64 = 0xD780_1A74_78B1_1F29;

impl Spans {
    pub fn new() -> Spans {
        Spans {
            places: Box::default(),
            room: 0,
            names: Vec::new(),
            free: NO_NUMBER,
        }
    }

    /// How many spans there is room for in all: their numbers are below that.
    pub fn most(&self) -> usize {
        most_homes(self.places.len())
    }

    /// Makes room for so many further spans. A refusal changes nothing that is seen.
    // There is room for no more spans than there are numbers.
    #[allow(clippy::cast_possible_truncation)]
    pub fn reserve(&mut self, additional: usize) -> Result<(), Refused> {
        if additional <= self.room as usize {
            return Ok(());
        }
        let spans = self.len();
        let len = match spans + additional {
            1 => LEAST_PLACES,
            most => (2 * most).next_power_of_two(),
        };
        // A number has 32 bits.
        if most_homes(len) > u32::MAX as usize {
            return Err(Refused::OutOfMemory);
        }
        if len > LEAST_PLACES {
            make_room(&mut self.names, most_homes(len))?;
        }
        let mut places = Vec::new();
        make_room(&mut places, len)?;
        places.resize(len, Home::FREE);
        let homes = std::mem::replace(&mut self.places, places.into_boxed_slice());
        self.room = (most_homes(len) - spans) as u32;
        if homes.len() == LEAST_PLACES {
            // Its number is the first name.
            let only = homes.iter().filter(|home| !home.is_free());
            self.names.extend(only.map(|home| home.span));
        }
        for home in homes.iter().filter(|home| !home.is_free()) {
            let place = self.free_place(home.span);
            self.places[place] = *home;
        }
        Ok(())
    }

    /// The home of the span, where it has one.
    #[inline]
    pub fn find(&self, span: Span) -> Option<&Home> {
        let home = self.places.get(self.first_place(span))?;
        if home.span == span {
            Some(home)
        } else {
            self.find_behind(span)
        }
    }

    /// The home of a span that does not stand at its first place, where it has one.
    #[cold]
    #[inline(never)]
    fn find_behind(&self, span: Span) -> Option<&Home> {
        self.places.get(self.place_of(span)?)
    }

    /// The home of the span, to be changed, where it has one.
    // With its steps in line: a call would have its caller keep what it knows of a key elsewhere.
    #[inline]
    pub fn find_mut(&mut self, span: Span) -> Option<&mut Home> {
        let mut place = self.first_place(span);
        if self.places.get(place)?.span == span {
            return self.places.get_mut(place);
        }
        while self.places.len() > LEAST_PLACES && !self.places.get(place)?.is_free() {
            place = self.place_after(place);
            if self.places.get(place)?.span == span {
                return self.places.get_mut(place);
            }
        }
        None
    }

    /// How many homes there are.
    pub fn len(&self) -> usize {
        self.most() - self.room as usize
    }

    /// All homes.
    pub fn iter(&self) -> impl Iterator<Item = &Home> {
        self.places.iter().filter(|home| !home.is_free())
    }

    /// Gives a span that has none a home on the page, with no value yet. The block has so many
    /// slots.
    ///
    /// # Panics
    ///
    /// Where there is no room for a further span.
    pub fn insert(&mut self, span: Span, page: u32, block: Block, slots: u16) -> &mut Home {
        self.room = self.room.checked_sub(1).expect("room was reserved");
        let (number, place) = (self.number_for(span), self.free_place(span));
        let home = &mut self.places[place];
        *home = Home {
            span,
            block,
            page,
            number,
            slots,
            own: slots.into(),
            live: 0,
        };
        home
    }

    /// The home of the span of this number, if one has it.
    pub fn find_number(&self, number: u32) -> Option<&Home> {
        self.find(self.name(number))
    }

    /// The home of the span of this number, to be changed, if one has it.
    pub fn home_of(&mut self, number: u32) -> Option<&mut Home> {
        self.find_mut(self.name(number))
    }

    /// How many numbers spans have or had: each is below that.
    pub fn numbers(&self) -> usize {
        match self.places.len() {
            LEAST_PLACES => 1,
            _ => self.names.len(),
        }
    }

    /// Forgets the home of the span, if it has one. It takes no memory.
    pub fn remove(&mut self, span: Span) {
        let Some(mut gap) = self.place_of(span) else {
            return;
        };
        let number = self.places[gap].number;
        if let Some(name) = self.names.get_mut(number as usize) {
            *name = Span::freed(self.free);
            self.free = number;
        }
        self.room += 1;
        self.places[gap] = Home::FREE;
        // Of those behind the gap, each that is looked for by way of it closes it.
        let mut place = self.place_after(gap);
        while !self.places[place].is_free() {
            let first = self.first_place(self.places[place].span);
            if self.steps(first, place) >= self.steps(gap, place) {
                self.places.swap(gap, place);
                gap = place;
            }
            place = self.place_after(place);
        }
    }

    /// The span of this number, or a name that none has if it is free.
    #[inline]
    pub fn name(&self, number: u32) -> Span {
        match &*self.places {
            [only] if only.is_free() => Span::freed(NO_NUMBER),
            [only] => only.span,
            _ => self.names[number as usize],
        }
    }

    /// A number that no span has, which is the span's from now on. There is room for it.
    // Room is made for no more spans than there are numbers.
    #[allow(clippy::cast_possible_truncation)]
    fn number_for(&mut self, span: Span) -> u32 {
        if self.places.len() == LEAST_PLACES {
            return 0;
        }
        if self.free != NO_NUMBER {
            let number = self.free;
            let before = std::mem::replace(&mut self.names[number as usize], span);
            self.free = before.serial();
            return number;
        }
        self.names.push(span);
        self.names.len() as u32 - 1
    }

    /// Where the span's home stands, if it has one.
    fn place_of(&self, span: Span) -> Option<usize> {
        let mut place = self.first_place(span);
        while self.places.get(place)?.span != span {
            if self.places[place].is_free() || self.places.len() == LEAST_PLACES {
                return None;
            }
            place = self.place_after(place);
        }
        Some(place)
    }

    /// The free place for the span's home, which has none yet.
    fn free_place(&self, span: Span) -> usize {
        let mut place = self.first_place(span);
        while !self.places[place].is_free() {
            place = self.place_after(place);
        }
        place
    }

    /// Where the span's home is to stand: by the middle of the product of its name with `FACTOR`,
    /// in which all of the name is.
    #[inline]
    // The upper half of the product has 32 bits.
    #[allow(clippy::cast_possible_truncation)]
    fn first_place(&self, span: Span) -> usize {
        let product = span.number().wrapping_mul(FACTOR);
        (product >> 32) as usize & self.mask()
    }

    /// One less than there are places, so a place is a number and this. Without a place it is no
    /// place at all.
    #[inline]
    fn mask(&self) -> usize {
        self.places.len().wrapping_sub(1)
    }

    #[inline]
    fn place_after(&self, place: usize) -> usize {
        (place + 1) & self.mask()
    }

    /// How many places on the second one is.
    fn steps(&self, from: usize, to: usize) -> usize {
        to.wrapping_sub(from) & self.mask()
    }
}

/// How many homes so many places have room for.
fn most_homes(places: usize) -> usize {
    match places {
        LEAST_PLACES => 1,
        _ => places / 2,
    }
}

/// Sees to it that the list has room for so many in all.
fn make_room<E>(list: &mut Vec<E>, len: usize) -> Result<(), Refused> {
    list.try_reserve_exact(len - list.len())
        .map_err(|_| Refused::OutOfMemory)
}

#[cfg(test)]
mod tests {
    use super::Spans;
    use crate::names::Span;
    use crate::refused::Refused;
    use crate::values::Block;
    use std::collections::{HashMap, HashSet};

    /// So many spans of some shards, of which the serial numbers are a step apart.
    fn names(count: u32, step: u32) -> impl Iterator<Item = Span> + Clone {
        (0..count).map(move |n| Span::new(n % 5, n.wrapping_mul(step)))
    }

    /// The homes are those of the map, each with a number of its own, which names its span.
    fn are_those(spans: &Spans, map: &HashMap<u64, u32>) {
        assert_eq!(spans.iter().count(), map.len());
        let numbers: HashSet<u32> = spans.iter().map(|home| home.number).collect();
        assert_eq!(numbers.len(), map.len());
        for home in spans.iter() {
            assert_eq!(map.get(&home.span.number()), Some(&home.page));
            assert!(spans.name(home.number) == home.span);
        }
    }

    #[test]
    fn homes_as_a_map() -> Result<(), Refused> {
        for step in [1, 2, 3, 256, 4096, 65_536, 1 << 24, 2_654_435_761] {
            let (mut spans, mut map) = (Spans::new(), HashMap::new());
            let mut random = 88_172_645_463_325_252_u64;
            for (page, span) in (0..).zip(names(300, step).cycle().take(40_000)) {
                random ^= random << 13;
                random ^= random >> 7;
                random ^= random << 17;
                assert_eq!(
                    spans.find(span).map(|home| home.page),
                    map.get(&span.number()).copied()
                );
                if map.remove(&span.number()).is_some() {
                    spans.remove(span);
                } else if random % 3 > 0 {
                    spans.reserve(1)?;
                    spans.insert(span, page, Block::NOWHERE, 0);
                    map.insert(span.number(), page);
                }
                if page % 1000 == 0 {
                    are_those(&spans, &map);
                }
            }
            names(300, step).for_each(|span| spans.remove(span));
            assert!(spans.iter().next().is_none() && spans.places.len() <= 1024);
        }
        Ok(())
    }

    /// Of spans that come and go, as many places stay as there were spans at one time, however many
    /// come.
    #[test]
    fn places_go_by_what_there_is() -> Result<(), Refused> {
        let mut spans = Spans::new();
        for serial in (0..u32::MAX).step_by(9973) {
            spans.reserve(1)?;
            spans.insert(Span::new(0, serial), 0, Block::NOWHERE, 0);
            spans.remove(Span::new(0, serial.wrapping_sub(4 * 9973)));
        }
        assert_eq!(
            (spans.places.len(), spans.names.len(), spans.iter().count()),
            (16, 5, 4)
        );
        Ok(())
    }
}
