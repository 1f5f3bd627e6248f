//! Walks over values, from both ends.

use super::{Block, Spot, Values};
use crate::names::Span;
use crate::slots::{Slots, Word};
use std::mem;
use std::ops::Range;

/// Where a walk over values is, from both ends: of the values with which it began.
#[derive(Clone)]
pub(crate) struct Walk {
    // The slots that come next, and those that come next from the end.
    front: Piece,
    back: Piece,
    // The spans between the two, by their numbers.
    spans: Range<usize>,
    // How many values are still to come of these.
    left: usize,
}

/// Slots of a span that are still to come: a word of them, and the others.
#[derive(Clone)]
struct Piece {
    span: Span,
    block: Block,
    word: Word,
    others: Slots,
}

impl Piece {
    const NONE: Piece = Piece {
        span: Span::LEAST,
        block: Block::NOWHERE,
        word: Word::NONE,
        others: Slots::NONE,
    };

    #[inline]
    fn spot(&self, slot: u32) -> Spot {
        Spot {
            span: self.span,
            slot,
            block: self.block,
        }
    }

    fn whole_is_empty(&self) -> bool {
        self.word.is_empty() && self.others.is_empty()
    }

    fn count(&self) -> usize {
        self.word.count() + self.others.count()
    }

    /// The same slots, none of them apart from the others.
    fn whole(mut self) -> Piece {
        self.others
            .give_back(mem::replace(&mut self.word, Word::NONE));
        self
    }
}

impl Walk {
    /// How many values are still to come.
    pub fn left(&self) -> usize {
        self.left + self.front.count() + self.back.count()
    }

    /// The spot that comes next. Values of spots that came may be taken out on the way.
    #[inline]
    pub fn next_in<T>(&mut self, values: &Values<T>) -> Option<Spot> {
        if self.front.word.is_empty() && !self.go_on(values) {
            return None;
        }
        let slot = self.front.word.pop_first();
        Some(self.front.spot(slot))
    }

    /// The spot that comes next from the end, as `next_in`. None comes from both ends.
    #[inline]
    pub fn next_back_in<T>(&mut self, values: &Values<T>) -> Option<Spot> {
        if self.back.word.is_empty() && !self.go_back(values) {
            return None;
        }
        let slot = self.back.word.pop_last();
        Some(self.back.spot(slot))
    }

    /// Goes on to the next word, and says whether there is one.
    #[inline(never)]
    fn go_on<T>(&mut self, values: &Values<T>) -> bool {
        self.front.word = self.front.others.take_first();
        !self.front.word.is_empty() || self.go_on_to_span(values)
    }

    /// The same, of a span behind this one.
    #[inline(never)]
    fn go_on_to_span<T>(&mut self, values: &Values<T>) -> bool {
        loop {
            match self.spans.next() {
                Some(number) => self.left -= values.write_piece(number, &mut self.front),
                // What is left from the end.
                None => self.front = mem::replace(&mut self.back, Piece::NONE).whole(),
            }
            self.front.word = self.front.others.take_first();
            if !self.front.word.is_empty() {
                return true;
            }
            if self.spans.is_empty() && self.back.whole_is_empty() {
                return false;
            }
        }
    }

    /// Goes on to the next word from the end, and says whether there is one.
    #[inline(never)]
    fn go_back<T>(&mut self, values: &Values<T>) -> bool {
        loop {
            self.back.word = self.back.others.take_last();
            if !self.back.word.is_empty() {
                return true;
            }
            match self.spans.next_back() {
                Some(number) => self.left -= values.write_piece(number, &mut self.back),
                None => self.back = mem::replace(&mut self.front, Piece::NONE).whole(),
            }
            if self.back.others.is_empty() && self.spans.is_empty() && self.front.whole_is_empty() {
                return false;
            }
        }
    }
}

impl<T> Values<T> {
    /// The beginning of a walk over the values, of which there are so many, by spans and slots.
    pub fn walk(&self, left: usize) -> Walk {
        Walk {
            front: Piece::NONE,
            back: Piece::NONE,
            spans: 0..self.spans.numbers(),
            left,
        }
    }

    /// Writes the slots at which the span of this number has values in place of a piece of which
    /// none is left, and says how many they are.
    #[inline]
    fn write_piece(&self, number: usize, piece: &mut Piece) -> usize {
        let Some(home) = self.spans.find_number(number as u32) else {
            return 0;
        };
        (piece.span, piece.block) = (home.span, home.block);
        piece.others = self.slots_of(home);
        home.live.into()
    }

    /// The value of a spot of a walk over these, which was not taken out.
    #[inline]
    pub fn at(&self, spot: Spot) -> &T {
        debug_assert!(self.has(spot), "a walk has values");
        // SAFETY: the spot has a value, which is lent as long as the values are.
        unsafe { spot.value::<T>().as_ref() }
    }

    /// The value of a spot of a walk over these, which was not taken out, to be changed.
    #[inline]
    pub fn at_mut(&mut self, spot: Spot) -> &mut T {
        debug_assert!(self.has(spot), "a walk has values");
        // SAFETY: as in `at`, and nothing else is lent meanwhile.
        unsafe { spot.value::<T>().as_mut() }
    }

    fn has(&self, spot: Spot) -> bool {
        let home = self.spans.find(spot.span);
        home.is_some_and(|home| self.has_at(home, spot.slot))
    }
}

/// A walk over values that are lent to be changed.
pub(crate) struct WalkMut<'v, T> {
    values: &'v mut Values<T>,
    walk: Walk,
}

impl<'v, T> WalkMut<'v, T> {
    /// The walk over these values, of which there are so many.
    pub fn new(values: &'v mut Values<T>, left: usize) -> WalkMut<'v, T> {
        let walk = values.walk(left);
        WalkMut { values, walk }
    }

    /// The spot that comes next, with its value.
    #[inline]
    pub fn next(&mut self) -> Option<(Spot, &'v mut T)> {
        let spot = self.walk.next_in(self.values)?;
        // SAFETY: as in `at_mut`. Nobody else has the values while they are lent, and a walk comes
        // to each slot once.
        Some((spot, unsafe { spot.value::<T>().as_mut() }))
    }

    /// The spot that comes next from the end, with its value.
    #[inline]
    pub fn next_back(&mut self) -> Option<(Spot, &'v mut T)> {
        let spot = self.walk.next_back_in(self.values)?;
        // SAFETY: as in `next`: no slot comes from both ends.
        Some((spot, unsafe { spot.value::<T>().as_mut() }))
    }

    /// What is still to come: of these values, from here on.
    pub fn rest(&self) -> (&Values<T>, Walk) {
        (self.values, self.walk.clone())
    }

    /// How many values are still to come.
    pub fn left(&self) -> usize {
        self.walk.left()
    }
}
