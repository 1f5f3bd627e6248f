//! Values beside the pages of a core, which move with its folds.

// What is cut to fewer bits has a bound: 64 shards, the blocks of their pages, and at most 256
// slots in each.
#![allow(clippy::cast_possible_truncation)]
// A block lies as its generations and values must, which `bytes_before` sees to.
#![allow(clippy::cast_ptr_alignment)]

mod block;
mod folds;
mod paged;
mod walks;

pub(crate) use block::Block;
pub(crate) use walks::{Walk, WalkMut};

use crate::bytes::{slots_for, MOST_WORDS};
use crate::core::{was_put, Core, Limits};
use crate::names::{Key, Span};
use crate::raw::PutReply;
use crate::refused::Refused;
use crate::slots::Slots;
use crate::spans::{Home, Spans};
use paged::{Paged, FEWEST_SLOTS};
use std::alloc::{alloc, dealloc, Layout};
use std::iter;
use std::marker::PhantomData;
use std::mem::{align_of, needs_drop, size_of};
use std::ptr::{self, NonNull};

/// How many bytes a value has at most, and to how many it is aligned, if it is to stand in a page.
const MOST_BYTES: usize = 4096;
const MOST_ALIGN: usize = 64;

/// Whether no generation stands beside a value: then the core is asked which keys are live.
pub(crate) const LEAN: bool = cfg!(feature = "lean");

/// What stands for the generation of a slot that has no value: no generation is 0.
const VACANT: u32 = 0;

/// How many bytes a short block takes at most. A longer one is of the system's memory, which comes
/// page by page as it is filled.
const MOST_SHORT_BYTES: usize = 4096;

/// The shard whose first page may be in a short block.
const FIRST_SHARD: u32 = 0;

/// How many words the core's object has beside a value of so many bytes. The object is zeros, which
/// take no memory. The more words it has, the fewer slots a page has. Fewer slots leave fewer
/// sparse pages after folds, but each page takes some memory of its own.
///
/// Of a million values these numbers have the least sum of what is resident when all are there, and
/// when 80 % or 90 % are freed and the slab is compacted. A full slab takes at most 3 % more than
/// with one word, or 7 % if its values have 8 to 47 bytes.
const fn words_beside(bytes: usize) -> usize {
    match bytes {
        0..=127 => 2,
        128..=383 => 4,
        384..=1535 => 8,
        _ => MOST_WORDS,
    }
}

/// The least multiple of the step that is not less.
const fn round_up(bytes: usize, step: usize) -> usize {
    (bytes + step - 1) / step * step
}

/// The values of live keys, each at the slot of its key in a page of values. There is such a page
/// for each page of the core with a live key, and a fold moves the values as the core moves its
/// objects: to the same slots of the other page.
///
/// ```text
///   homes, by span:  0.0 ──► page 3 ◄── 1.7       1.7 is the group's head, 0.0 was folded there
///                              │
///   block:           .. | value | value | generation | ..
///   rows, by span:   0.0 has values at 2, 17, ..    1.7 at 0, 1, ..
/// ```
///
/// With its span and slot a generation is all of a key, in 4 bytes. With the feature `lean` none
/// stands there, and the core is asked whether a key is live. A span has a home as long as it has a
/// value, or is the head of a page that has one. So what all this takes goes by the values that
/// there are, and not by the spans that there were.
///
/// A span that is *alone* on its page has no row: it has a value at each slot with a generation.
/// Rows come with the first fold. Without generations each span has one.
///
/// Values that are large stand in blocks of the global allocator, and their addresses in the page.
///
/// What is `unsafe` here rests on this module and its rows alone: were the core wrong, a look-up
/// would fail, find another value of the same slot, or panic, and no memory be misused.
pub(crate) struct Values<T> {
    spans: Spans,
    // By the numbers of spans that are not alone on their pages; of others there may be none.
    rows: Box<[Row]>,
    paged: Paged<T>,
    // Memory for one value that does not stand in a page.
    room: Option<NonNull<T>>,
    // While fewer keys are live there is room for one value, as `reserve` makes it: wherever a
    // shard puts it, or, if the first page is in a short block, where the first shard does.
    room_until: usize,
    owned: PhantomData<T>,
}

/// What is known of a span that shares its page with others, beside its home.
#[derive(Clone, Copy)]
struct Row {
    // The slots at which it has values: none if it is alone, or no span has the number.
    live: Slots,
    // The number of the next span on its page. The head is the first.
    next: Option<u32>,
}

/// A slot that was given to a key, and whose value is still to come.
#[must_use = "the slot counts as one that has a value"]
pub(crate) struct Place<'v, T> {
    // It has the slot, without a value, or with room for it apart.
    block: Block,
    slot: u32,
    generation: u32,
    values: PhantomData<&'v mut Values<T>>,
}

impl<T> Place<'_, T> {
    /// Keeps the value there, where it is found from now on.
    // The value first: what is known of it is then no longer kept in registers.
    #[allow(clippy::inline_always)]
    #[inline(always)]
    pub fn fill(self, value: T) {
        // SAFETY: the slot is one of the block's and has no value, so one may be written where it
        // stands, or to the room that is there.
        unsafe { self.block.value::<T>(self.slot).as_ptr().write(value) };
        if !LEAN {
            self.block.set_generation(self.slot, self.generation);
        }
    }
}

/// A slot that has a value.
#[derive(Clone, Copy)]
pub(crate) struct Spot {
    span: Span,
    slot: u32,
    block: Block,
}

impl Spot {
    /// The key of the value.
    #[inline]
    pub fn key(&self, core: &Core) -> Key {
        let slot = self.slot as u8;
        if LEAN {
            return core
                .key_at(self.span, slot)
                .expect("the key of a value is live");
        }
        let key = Key::of_span(self.span, slot, self.block.generation(self.slot));
        debug_assert_eq!(key, core.key_at(self.span, slot));
        key.expect("no generation is 0")
    }

    /// Where its value is.
    #[inline]
    fn value<T>(&self) -> NonNull<T> {
        self.block.value::<T>(self.slot)
    }
}

impl<T> Values<T> {
    /// Whether a value stands in a block of its own.
    pub const APART: bool =
        size_of::<T>() > MOST_BYTES || size_of::<T>() > 0 && align_of::<T>() > MOST_ALIGN;

    /// What stands at a slot of a page: the value, or where it is.
    pub const STORED: Layout = if Self::APART {
        Layout::new::<*mut T>()
    } else {
        Layout::new::<T>()
    };

    /// How many words the core's object beside a value has.
    const WORDS: usize = words_beside(Self::STORED.size());

    /// How many slots a page has.
    pub const SLOTS: usize = slots_for(Self::WORDS);

    const ALIGN: usize = if Self::STORED.align() > 4 {
        Self::STORED.align()
    } else {
        4
    };

    /// How many bytes of a block of so many slots are before its address: the values. They are a
    /// multiple of `ALIGN`, since the slots are one of 4.
    const fn bytes_before(slots: usize) -> usize {
        slots * Self::STORED.size()
    }

    /// How many bytes of it are behind that: the generations.
    const fn bytes_behind(slots: usize) -> usize {
        if LEAN {
            0
        } else {
            slots * size_of::<u32>()
        }
    }

    /// How many bytes a block of so many slots has.
    const fn bytes_of_block(slots: usize) -> usize {
        assert!(slots % FEWEST_SLOTS == 0);
        round_up(
            Self::bytes_before(slots) + Self::bytes_behind(slots),
            Self::ALIGN,
        )
    }

    const BLOCK_BYTES: usize = match Self::bytes_of_block(Self::SLOTS) {
        // A block has some bytes, also for values of none.
        0 => 64,
        bytes => bytes,
    };

    /// How many slots a short block has at most: none if the fewest take too many bytes, or none.
    const MOST_SHORT: usize = {
        let (mut most, mut slots) = (0, FEWEST_SLOTS);
        while slots <= Self::SLOTS
            && Self::bytes_of_block(slots) > 0
            && Self::bytes_of_block(slots) <= MOST_SHORT_BYTES
        {
            most = slots;
            slots *= 2;
        }
        most
    };

    /// A core whose objects such values are to stand beside.
    pub fn core(limits: Limits) -> Result<Core, Refused> {
        Core::of_objects(limits, Self::WORDS)
    }

    /// A key of the core's shard, beside whose object a value is to stand. The object's words tell
    /// nothing: where the value is follows from its key.
    #[inline]
    pub fn insert_key(core: &mut Core, shard: u32) -> Result<Key, Refused> {
        match Self::insert_key_plainly(core, shard) {
            Ok(key) => Ok(key),
            Err(put) => Self::insert_key_again(core, put, shard),
        }
    }

    /// The same, if there is nothing to do but to count the key; or else what the library answers.
    #[allow(clippy::inline_always)]
    #[inline(always)]
    pub fn insert_key_plainly(core: &mut Core, shard: u32) -> Result<Key, PutReply> {
        core.put_zeros(shard, Self::WORDS)
    }

    /// A key of the core's shard, for whose value there is room.
    #[inline]
    pub fn insert_key_with_room(&mut self, core: &mut Core, shard: u32) -> Result<Key, Refused> {
        self.reserve(core, shard)?;
        match Self::insert_key_plainly(core, shard) {
            Ok(key) => Ok(key),
            Err(put) => self.insert_key_after(core, put, shard),
        }
    }

    /// What becomes of an answer that is no plain key, which is of the last call of the core. The
    /// slot may have got its last key.
    #[cold]
    pub fn insert_key_after(
        &mut self,
        core: &mut Core,
        put: PutReply,
        shard: u32,
    ) -> Result<Key, Refused> {
        self.forget_room();
        Self::insert_key_again(core, put, shard)
    }

    /// The same, whatever there is room for.
    #[cold]
    fn insert_key_again(core: &mut Core, put: PutReply, shard: u32) -> Result<Key, Refused> {
        was_put(core.put_zeros_again(put, shard, Self::WORDS))
    }

    /// No values.
    pub fn new() -> Values<T> {
        Values {
            spans: Spans::new(),
            rows: Box::default(),
            paged: Paged::new(),
            room: None,
            room_until: 0,
            owned: PhantomData,
        }
    }

    /// Whether there is room for one value more than the core has live keys, wherever the first of
    /// its shards that is asked puts it.
    #[inline]
    pub fn has_room(&self, core: &Core) -> bool {
        core.len() < self.room_until
    }

    /// Notes that the next value may need room that there is not: after a call by which a put may
    /// find another slot than the next one of the first page.
    pub fn forget_room(&mut self) {
        self.room_until = 0;
    }

    /// Makes room for one value more than the core has live keys, wherever the shard puts it, so
    /// that `put` needs no memory. A refusal changes nothing that is seen.
    #[inline]
    pub fn reserve(&mut self, core: &Core, shard: u32) -> Result<(), Refused> {
        let is_for_any = self.room_until == usize::MAX || shard == FIRST_SHARD;
        if is_for_any && self.has_room(core) {
            return Ok(());
        }
        self.make_room_for(core, shard)
    }

    #[cold]
    fn make_room_for(&mut self, core: &Core, shard: u32) -> Result<(), Refused> {
        self.forget_room();
        let is_short = shard == FIRST_SHARD && self.fits_short(core, 1);
        if is_short {
            self.lengthen(core.len() + 1)?;
        } else {
            self.reserve_blocks(1)?;
        }
        // A short page has the values of one group, whose span takes the next one too.
        self.grow_spans(usize::from(!is_short || self.spans.len() == 0))?;
        if Self::APART && self.room.is_none() {
            // SAFETY: such a value has bytes.
            let room = unsafe { alloc(Layout::new::<T>()) };
            self.room = Some(NonNull::new(room.cast()).ok_or(Refused::OutOfMemory)?);
        }
        self.room_until = if is_short {
            core.limits().slots_of(self.paged.short_slots())
        } else {
            usize::MAX
        };
        Ok(())
    }

    /// Whether a short block has room for so many values more than there are live keys: then all of
    /// them are in one group of the first shard, whose puts take the lowest slot that is free. So
    /// the slot of the next one is no higher than the number of live keys.
    fn fits_short(&self, core: &Core, more: usize) -> bool {
        let most = core.limits().slots_of(Self::MOST_SHORT);
        self.paged.may_be_short()
            && core.fills_in_order()
            && more <= most.saturating_sub(core.len())
    }

    /// Sees to it that the first page is in a short block of at least so many slots.
    fn lengthen(&mut self, slots: usize) -> Result<(), Refused> {
        self.paged.lengthen(slots)?;
        self.follow_first();
        Ok(())
    }

    /// Sees to it that so many pages of all slots are free, and none is in a short block.
    fn reserve_blocks(&mut self, count: usize) -> Result<(), Refused> {
        let was_short = self.paged.short_slots() > 0;
        self.paged.reserve(count)?;
        if was_short {
            self.follow_first();
        }
        Ok(())
    }

    /// Makes room for so many values more than the core has live keys, on full pages. A refusal
    /// changes nothing that is seen.
    pub fn reserve_pages(&mut self, core: &Core, values: usize) -> Result<(), Refused> {
        if values == 0 {
            return Ok(());
        }
        self.forget_room();
        if self.fits_short(core, values) {
            self.lengthen(core.len() + values)?;
            return self.grow_spans(usize::from(self.spans.len() == 0));
        }
        let slots = core.limits().slots_of(Self::SLOTS);
        let pages = values / slots + usize::from(values % slots != 0);
        self.reserve_blocks(pages)?;
        self.grow_spans(pages)
    }

    /// Makes room for so many further spans, each alone on its page.
    fn grow_spans(&mut self, spans: usize) -> Result<(), Refused> {
        self.spans.reserve(spans)?;
        if LEAN {
            self.grow_rows()?;
        }
        Ok(())
    }

    /// Sees to it that each span has a row.
    fn grow_rows(&mut self) -> Result<(), Refused> {
        let most = self.spans.most();
        let mut rows = Vec::new();
        if most > self.rows.len() {
            rows.try_reserve_exact(most)
                .map_err(|_| Refused::OutOfMemory)?;
            rows.extend_from_slice(&self.rows);
            rows.resize(most, Row::NONE);
            self.rows = rows.into_boxed_slice();
        }
        Ok(())
    }

    /// Keeps the value of a key that has just been put, for which there is room. The shard is asked
    /// for if it has a new page.
    #[inline]
    pub fn put(&mut self, key: Key, value: T, shard: impl FnOnce() -> u32) {
        if let Some(place) = self.place(key) {
            place.fill(value);
            return;
        }
        self.open(shard(), key.span());
        self.place(key).expect("the span has a home").fill(value);
    }

    /// Where the value of such a key is to stand, if its span has a page. It is filled before any
    /// other call.
    // Inlined, it leaves what it finds in registers.
    #[allow(clippy::inline_always)]
    #[inline(always)]
    pub fn place(&mut self, key: Key) -> Option<Place<'_, T>> {
        let (home, slot) = (self.spans.find_mut(key.span())?, key.slot_number());
        if !is_alone_at(home, slot) {
            assert!(slot < home.slots.into(), "the slot is one of the page's");
        }
        let block = home.block;
        debug_assert!(LEAN || block.generation(slot) == VACANT, "the slot is free");
        if Self::APART {
            let room = self.room.take().expect("room was reserved");
            self.room_until = 0;
            // SAFETY: the slot has no value, so an address may be written there.
            unsafe { block.stored::<T>(slot).cast::<NonNull<T>>().write(room) };
        }
        if !is_alone_at(home, slot) {
            let live = &mut self.rows[home.number as usize].live;
            debug_assert!(!live.contains(slot), "the slot is free");
            live.insert(slot);
        }
        home.live += 1;
        Some(Place {
            block,
            slot,
            generation: key.generation(),
            values: PhantomData,
        })
    }

    /// Gives the shard's span, which has none, a page for its values. There is room for it.
    #[cold]
    fn open(&mut self, shard: u32, head: Span) {
        self.forget_room();
        let (number, page) = self.paged.take();
        let home = self.spans.insert(head, number, page.block(), page.slots());
        (page.head, page.shard) = (Some(home.number), shard as u8);
        if let Some(row) = self.rows.get_mut(home.number as usize) {
            *row = Row::NONE;
        }
    }

    /// Where the value of the key is.
    ///
    /// # Safety
    ///
    /// The key has a value.
    #[inline]
    pub unsafe fn get_unchecked(&self, key: Key) -> NonNull<T> {
        // SAFETY: a span that has a value has a home.
        let home = unsafe { self.spans.find(key.span()).unwrap_unchecked() };
        home.block.value::<T>(key.slot_number())
    }

    /// Where the value of the key is, if it has one. A lean slab asks the core beside this whether
    /// the key is live.
    #[inline]
    pub fn find(&self, key: Key) -> Option<NonNull<T>> {
        let (home, slot) = (self.spans.find(key.span())?, key.slot_number());
        let may_have = is_alone_at(home, slot) || has_in_row(&self.rows, home, slot);
        if may_have && home.block.is_of(slot, key) {
            Some(home.block.value::<T>(slot))
        } else {
            None
        }
    }

    /// Takes the value of the key out, if it has one, and says which page it was on. It needs no
    /// memory. A lean slab has asked the core whether the key is live.
    pub fn take(&mut self, key: Key) -> Option<(T, u32)> {
        if let Some(taken) = self.take_plainly(key) {
            return Some(taken);
        }
        let home = self.spans.find_mut(key.span())?;
        let (number, page) = (home.number, home.page);
        let value = take_at(home, &mut self.rows, key, true)?;
        self.forget(number, page);
        Some((value, page))
    }

    /// The same, if its span has another value; or else nothing is done.
    // Inlined, it leaves what it finds in registers.
    #[allow(clippy::inline_always)]
    #[inline(always)]
    pub fn take_plainly(&mut self, key: Key) -> Option<(T, u32)> {
        let home = self.spans.find_mut(key.span())?;
        let value = take_at(home, &mut self.rows, key, false)?;
        Some((value, home.page))
    }

    /// The shard that has the page of this number, or had it when it was last a page.
    #[inline]
    pub fn shard_of(&self, number: u32) -> u32 {
        u32::from(self.paged.page(number).shard)
    }

    /// The slots at which the span of the home has values.
    fn slots_of(&self, home: &Home) -> Slots {
        if is_alone(home) {
            home.block.slots_with_values(home.slots)
        } else {
            self.rows[home.number as usize].live
        }
    }

    /// Whether the span of the home has a value at the slot.
    fn has_at(&self, home: &Home, slot: u32) -> bool {
        if is_alone_at(home, slot) {
            home.block.generation(slot) != VACANT
        } else {
            has_in_row(&self.rows, home, slot)
        }
    }

    /// The span that has its home on the page of this one, and comes after it, by their numbers.
    fn next_on_page(&self, number: u32) -> Option<u32> {
        self.rows.get(number as usize)?.next
    }

    /// The spans from this one on that have homes on one page, by their numbers.
    fn row_from(&self, first: u32) -> impl Iterator<Item = u32> + '_ {
        iter::successors(Some(first), |number| self.next_on_page(*number))
    }

    /// Forgets a span that has no value any more, unless it is the head of a page that has one; and
    /// gives the page back if that has none.
    #[cold]
    fn forget(&mut self, span: u32, page: u32) {
        let head = self.paged.page(page).head;
        let head = head.expect("a page with values has a head");
        if span != head {
            self.forget_guest(span, page);
        }
        let name = self.spans.name(head);
        let has_none = |home: &Home| home.live == 0;
        let is_alone = self.paged.page(page).guests == 0;
        if is_alone && self.spans.find(name).map_or(true, has_none) {
            self.spans.remove(name);
            self.paged.give(page);
        }
    }

    /// Forgets a span that has no value, a guest of the page.
    fn forget_guest(&mut self, span: u32, page: u32) {
        let on = self.paged.page_mut(page);
        on.guests -= 1;
        let head = on.head.expect("a page with guests has a head");
        let is_before = |number: &u32| self.rows[*number as usize].next == Some(span);
        let before = self.row_from(head).find(is_before);
        self.rows[before.expect("the span is on the page") as usize].next =
            self.rows[span as usize].next;
        self.spans.remove(self.spans.name(span));
    }

    /// Where the value stands that has this address, if it is one of these. It looks at each
    /// segment of blocks; at each value, if they stand in blocks of their own; and values of no
    /// bytes all stand at one place, where it finds none.
    pub fn spot_at(&self, at: *const T) -> Option<Spot> {
        if size_of::<T>() == 0 {
            return None;
        }
        if Self::APART {
            let mut walk = self.walk(self.spans.iter().map(|home| usize::from(home.live)).sum());
            return iter::from_fn(|| walk.next_in(self))
                .find(|spot| ptr::eq(spot.value::<T>().as_ptr(), at));
        }
        let (number, distance) = self.paged.find(at.cast())?;
        let page = self.paged.page(number);
        let slot = u32::try_from(distance / size_of::<T>()).ok()?;
        let has_slot = |number: &u32| {
            let home = self.spans.find_number(*number);
            home.is_some_and(|home| self.has_at(home, slot))
        };
        let span = self.row_from(page.head?).find(has_slot)?;
        ptr::eq(page.block().value::<T>(slot).as_ptr(), at).then_some(Spot {
            span: self.spans.name(span),
            slot,
            block: page.block(),
        })
    }

    /// Drops each value. Where one panics, those after it are left.
    fn drop_values(&mut self) {
        if !needs_drop::<T>() && !Self::APART {
            return;
        }
        for home in self.spans.iter() {
            for slot in self.slots_of(home).iter() {
                home.block.vacate(slot);
                if !is_alone(home) {
                    self.rows[home.number as usize].live.remove(slot);
                }
                // SAFETY: the slot had a value, which nobody finds from now on.
                drop(unsafe { home.block.take::<T>(slot) });
            }
        }
    }
}

impl<T> Drop for Values<T> {
    fn drop(&mut self) {
        /// Drops what is left where the drop of a value panicked.
        struct Rest<'v, T>(&'v mut Values<T>);
        impl<T> Drop for Rest<'_, T> {
            fn drop(&mut self) {
                self.0.drop_values();
            }
        }
        if let Some(room) = self.room.take() {
            // SAFETY: it is a block of `reserve`, in which there is no value.
            unsafe { dealloc(room.as_ptr().cast(), Layout::new::<T>()) }
        }
        Rest(self).0.drop_values();
    }
}

// SAFETY: the values are owned, and nobody else has the blocks.
unsafe impl<T: Send> Send for Values<T> {}
// SAFETY: through `&Values` only `&T` is lent.
unsafe impl<T: Sync> Sync for Values<T> {}

impl Row {
    /// The row of a span without a value.
    const NONE: Row = Row {
        live: Slots::NONE,
        next: None,
    };
}

/// Whether no other span has values on the page of the home: then it has no row. A lean slab does
/// not go by generations, so that each span has a row.
#[inline]
fn is_alone(home: &Home) -> bool {
    !LEAN && home.own > 0
}

/// The same, and whether the slot is one of the page's.
#[inline]
fn is_alone_at(home: &Home, slot: u32) -> bool {
    !LEAN && slot < home.own
}

/// Whether the row of the home's span has a value at the slot.
#[inline]
fn has_in_row(rows: &[Row], home: &Home, slot: u32) -> bool {
    let row = rows.get(home.number as usize);
    row.is_some_and(|row| row.live.contains(slot))
}

/// Takes the value of the key out, if the span of the home has it, and has another one unless this
/// may be its last. The page stays.
#[inline]
fn take_at<T>(home: &mut Home, rows: &mut [Row], key: Key, may_be_last: bool) -> Option<T> {
    let (block, slot) = (home.block, key.slot_number());
    if is_alone_at(home, slot) {
        if !block.is_of(slot, key) || !count_out(home, may_be_last) {
            return None;
        }
    } else {
        let live = &mut rows.get_mut(home.number as usize)?.live;
        if !live.contains(slot) || !block.is_of(slot, key) || !count_out(home, may_be_last) {
            return None;
        }
        live.remove(slot);
    }
    block.vacate(slot);
    // SAFETY: the slot had a value, which nobody finds from now on.
    Some(unsafe { block.take::<T>(slot) })
}

/// Counts one value less at the home, and says whether it did: if this may be the last, or is not.
#[inline]
fn count_out(home: &mut Home, may_be_last: bool) -> bool {
    home.live -= 1;
    let is_done = may_be_last || home.live > 0;
    if !is_done {
        home.live = 1;
    }
    is_done
}
