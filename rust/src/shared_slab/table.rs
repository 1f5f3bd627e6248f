//! What a shard of a shared slab has behind its lock: its core, and which page has the values of a
//! span.

use super::hints::Hints;
use super::page::{Owned, OwnedPage, Page};
use super::slot::{Claim, Slot};
use crate::blocks::{make_room, Blocks};
use crate::compact::{Compact, Compacted};
use crate::core::{Core, Limits};
use crate::names::{Group, Key, Span};
use crate::refused::Refused;
use crate::spans::{Home, Spans};
use crate::values::{Block, Values};
use std::mem::needs_drop;
use std::sync::Arc;

/// The keys of one shard, as its core knows them, which is its only shard there: so a key has
/// shard 0 here.
// The core first, where a reference to the table is one to its handle.
#[repr(C)]
pub(super) struct Table<T> {
    // A key is live here from the vacant entry on until its value is out of its slot.
    core: Core,
    spans: Spans,
    // By the number of their block.
    pages: Vec<Sheet<T>>,
    blocks: Blocks,
    // For the next block that is used for the first time.
    fresh: Option<OwnedPage<T>>,
    // Whether there is room for one value, and nothing took of it since.
    ready: bool,
    // The pages whose group was folded onto another page, and whose values could not move.
    behind: Vec<u32>,
    // Whether a compaction has begun and is not done.
    is_compacting: bool,
    // How many live keys have a removed value.
    removed: usize,
    // Values that were cleared.
    spares: Vec<T>,
    // Those of all shards, and which one this is.
    hints: Arc<[Hints<T>]>,
    number: u8,
}

/// What is known of a page.
struct Sheet<T> {
    // None until its block is used.
    page: Option<OwnedPage<T>>,
    // How many spans have values here: none where its block is free.
    spans: u32,
    // The head of its group.
    head: Span,
}

/// What a removal did.
pub(super) enum Removed<T> {
    /// The key has no value, or that was removed before.
    Nothing,
    /// Its value, which nobody had a pin of.
    Value(Owned<T>),
    /// The value stays for as long as it is pinned, at this slot.
    Pinned(Page<T>),
}

// SAFETY: it owns its values, and its pages with the slab.
unsafe impl<T: Send> Send for Table<T> {}

impl<T> Table<T> {
    /// A table of a core of these limits, of one shard.
    pub fn open(limits: Limits, hints: &Arc<[Hints<T>]>, number: u8) -> Result<Table<T>, Refused> {
        Ok(Table {
            core: Values::<T>::core(limits)?,
            spans: Spans::new(),
            pages: Vec::new(),
            blocks: Blocks::new(Page::<T>::VALUE_BYTES),
            fresh: None,
            ready: false,
            behind: Vec::new(),
            is_compacting: false,
            removed: 0,
            spares: Vec::new(),
            hints: Arc::clone(hints),
            number,
        })
    }

    /// A new key, with the page where its value is to be put at the key's slot, which is closed.
    #[inline]
    pub fn insert_vacant(&mut self) -> Result<(Key, Page<T>), Refused> {
        if !self.ready {
            self.make_ready()?;
        }
        let key = Values::<T>::insert_key(&mut self.core, 0)?;
        let home = match self.spans.find_mut(key.span()) {
            Some(home) => home,
            None => self.open_page(key),
        };
        home.live += 1;
        let page = page_of(home);
        if home.live == 1 {
            let number = home.page as usize;
            self.pages[number].spans += 1;
        }
        page.slot(slot_of(key)).set_name(name_of(key));
        Ok((key, page))
    }

    /// Makes room for one value, wherever it comes to.
    #[cold]
    fn make_ready(&mut self) -> Result<(), Refused> {
        self.blocks.reserve()?;
        make_room(&mut self.pages, self.blocks.len())?;
        self.pages.resize_with(self.blocks.len(), || Sheet::NONE);
        self.spans.reserve(1)?;
        if self.fresh.is_none() {
            self.fresh = Some(OwnedPage::new()?);
        }
        self.ready = true;
        Ok(())
    }

    /// A page for the values of the key's span, which has none. There is room.
    #[cold]
    fn open_page(&mut self, key: Key) -> &mut Home {
        self.ready = false;
        let (number, block) = self.blocks.take();
        let sheet = &mut self.pages[number as usize];
        if sheet.page.is_none() {
            let fresh = self.fresh.take().expect("a page was reserved");
            // The block of a number stays where it is.
            sheet.page = Some(fresh.with_values(block));
        }
        sheet.head = key.span();
        self.grow_hints();
        self.set_hint(key.span(), number);
        let page = self.page(number as usize);
        let slots = Page::<T>::SLOTS as u16;
        self.spans
            .insert(key.span(), number, Block::at(page.address()), slots)
    }

    /// Makes a larger table of hints, with all that there are, if that has become small.
    fn grow_hints(&self) {
        if self.spans.len() >= self.hints().len() && self.hints().grow(self.spans.len() + 1) {
            for home in self.spans.iter() {
                self.set_hint(home.span, home.page);
            }
        }
    }

    #[inline]
    fn hints(&self) -> &Hints<T> {
        &self.hints[usize::from(self.number)]
    }

    /// Writes that the span is on the page of this number.
    fn set_hint(&self, span: Span, number: u32) {
        self.hints().set(span.serial(), self.page(number as usize));
    }

    #[inline]
    fn page(&self, number: usize) -> Page<T> {
        let sheet = &self.pages[number];
        sheet.page.as_ref().expect("the block is used").page()
    }

    /// The page with the value of the key, if it is there and not removed. It stays until the lock
    /// is let go of, and longer if it is pinned.
    #[inline]
    pub fn find_live(&self, key: Key) -> Option<Page<T>> {
        page_if_live(self.spans.find(key.span())?, key)
    }

    /// Writes that the key's span is on the page, for threads whose hint was missing or old.
    pub fn hint(&self, key: Key, page: Page<T>) {
        self.hints().set(key.serial(), page);
    }

    /// Removes the value of the key, or marks it as removed if it is pinned.
    pub fn remove(&mut self, key: Key, then: Claim) -> Removed<T> {
        self.remove_or(key, |slot| {
            slot.remove(then);
            slot.claim().is_some()
        })
    }

    /// As `remove`, for a thread that waits for a pinned value.
    pub fn remove_awaited(&mut self, key: Key) -> Removed<T> {
        self.remove_or(key, |slot| {
            slot.remove_awaited();
            false
        })
    }

    /// Removes the value of the key. If it is pinned the mark comes in place of that, which says
    /// whether the slot is claimed, and closed, all the same.
    #[inline]
    fn remove_or(&mut self, key: Key, mark: impl FnOnce(&Slot) -> bool) -> Removed<T> {
        let Some(home) = self.spans.find_mut(key.span()) else {
            return Removed::Nothing;
        };
        let Some(page) = page_if_named(home, key) else {
            return Removed::Nothing;
        };
        let slot = page.slot(slot_of(key));
        if !slot.close() {
            if !slot.is_live() {
                return Removed::Nothing;
            }
            if !mark(slot) {
                self.removed += 1;
                return Removed::Pinned(page);
            }
        }
        // SAFETY: the slot was closed here with its value, and loses its name.
        let value = unsafe { page.take(slot_of(key)) };
        let emptied = take_name::<T>(home, key);
        self.free(key, emptied);
        Removed::Value(value)
    }

    /// Frees the key of a removed value that was pinned, and is now out of its slot.
    pub fn vacate_removed(&mut self, key: Key) {
        self.removed -= 1;
        self.vacate(key);
    }

    /// Frees the key of a closed slot that has no value, or none any more. It takes no memory.
    pub fn vacate(&mut self, key: Key) {
        let home = self
            .spans
            .find_mut(key.span())
            .expect("a live key has a home");
        let emptied = take_name::<T>(home, key);
        self.free(key, emptied);
    }

    /// Frees a key whose slot has lost its name, and forgets its span if that has no value any more
    /// on the page of this number.
    #[inline]
    fn free(&mut self, key: Key, emptied: Option<u32>) {
        self.core.free_live(key);
        if let Some(number) = emptied {
            self.forget_span(key.span(), number);
        }
    }

    /// Forgets a span that has no value any more, unless it is the head of a page that has one; and
    /// gives the memory of the page back if it has none.
    #[cold]
    fn forget_span(&mut self, span: Span, number: u32) {
        let sheet = &mut self.pages[number as usize];
        sheet.spans -= 1;
        let (is_empty, head) = (sheet.spans == 0, sheet.head);
        if is_empty || span != head {
            self.spans.remove(span);
        }
        if is_empty {
            self.give_back(number);
        }
    }

    /// Gives the memory of a page back, which has no value.
    fn give_back(&mut self, number: u32) {
        let head = self.pages[number as usize].head;
        if self
            .spans
            .find(head)
            .is_some_and(|home| home.page == number)
        {
            self.spans.remove(head);
        }
        self.behind.retain(|behind| *behind != number);
        self.blocks.give(number);
    }

    /// Makes a page that of the head, which has none.
    fn make_main(&mut self, head: Span, number: u32) {
        self.ready = false;
        let page = self.page(number as usize);
        let (block, slots) = (Block::at(page.address()), Page::<T>::SLOTS as u16);
        self.spans.insert(head, number, block, slots);
        self.set_hint(head, number);
    }

    /// Moves the values that stayed behind a fold, as far as nobody pins them.
    fn catch_up(&mut self) -> Result<(), Refused> {
        let mut place = 0;
        while let Some(number) = self.behind.get(place).copied() {
            self.spans.reserve(1)?;
            let head = self.pages[number as usize].head;
            let is_done = match self.spans.find(head).copied() {
                None => {
                    self.make_main(head, number);
                    true
                }
                Some(to) => to.page == number || self.move_values(number, to.page),
            };
            if is_done {
                self.behind.retain(|behind| *behind != number);
            } else {
                place += 1;
            }
        }
        Ok(())
    }

    /// Moves each value of a page to the same slot of another one, with the homes of their spans,
    /// and gives its memory back: all of them, or none if one is pinned, or still to come.
    fn move_values(&mut self, from: u32, to: u32) -> bool {
        let (page, other) = (self.page(from as usize), self.page(to as usize));
        if !close_all(page) {
            return false;
        }
        for number in 0..Page::<T>::SLOTS {
            let (slot, free) = (page.slot(number), other.slot(number));
            let name = slot.name();
            if name == NO_NAME {
                continue;
            }
            assert!(free.name() == NO_NAME, "the library folds what fits");
            // SAFETY: both slots are closed, and whoever has the lock has these alone. The one has
            // a value, and loses its name here; the other has none.
            unsafe { page.copy_value(number, other) }
            slot.set_name(NO_NAME);
            free.set_name(name);
            free.open();
            self.move_home(Span::new(0, serial_of(name)), from, to);
        }
        self.blocks.give(from);
        true
    }

    /// Notes that the values of the span are on the second page, and no more on the first.
    fn move_home(&mut self, span: Span, from: u32, to: u32) {
        let page = self.page(to as usize);
        let home = self.spans.find_mut(span).expect("a value has a home");
        if home.page == to {
            return;
        }
        (home.page, home.block) = (to, Block::at(page.address()));
        self.pages[from as usize].spans -= 1;
        self.pages[to as usize].spans += 1;
        self.set_hint(span, to);
    }

    /// Takes so many steps of a compaction at most, which begins with what stayed behind earlier
    /// ones.
    pub fn compact_within(&mut self, budget: usize) -> Result<Compacted, Refused> {
        if !self.is_compacting {
            self.catch_up()?;
        }
        self.is_compacting = true;
        let done = self.compact_some(budget)?;
        self.is_compacting = done.more;
        self.blocks.cool();
        Ok(done)
    }

    /// Ends a compaction where it is, if one has begun.
    pub fn give_up_compaction(&mut self) {
        if std::mem::take(&mut self.is_compacting) {
            self.core.give_up_compaction();
        }
    }

    /// Gives back the pages on which nothing is live, and says how many went.
    pub fn trim(&mut self) -> usize {
        let went = self.core.trim_all();
        self.blocks.cool();
        went
    }

    /// Forgets as `Core::forget` does.
    pub fn forget(&mut self) -> usize {
        self.core.forget().unwrap_or(0)
    }

    /// How many values there are that are not removed, with those that are still to come.
    pub fn len(&self) -> usize {
        self.core.len() - self.removed
    }

    pub fn pages(&self) -> usize {
        self.core.pages()
    }

    pub fn value_pages(&self) -> usize {
        self.pages.iter().filter(|sheet| sheet.spans > 0).count()
    }

    /// As of the core.
    #[cfg(test)]
    pub fn pool_is_empty(&self) -> bool {
        self.core.pool_is_empty()
    }

    pub fn pages_and_most_folds(&self) -> (usize, usize) {
        self.core.pages_and_most_folds()
    }

    /// Keeps a value that was cleared, or gives it back if memory is refused.
    pub fn keep_spare(&mut self, value: T) -> Option<T> {
        if self.spares.try_reserve(1).is_err() {
            return Some(value);
        }
        self.spares.push(value);
        None
    }

    pub fn take_spare(&mut self) -> Option<T> {
        self.spares.pop()
    }

    pub fn take_spares(&mut self) -> Vec<T> {
        std::mem::take(&mut self.spares)
    }

    /// How many pages a walk comes to.
    pub fn page_count(&self) -> usize {
        self.pages.len()
    }

    /// The page of this number, if it has values.
    pub fn page_with_values(&self, number: usize) -> Option<Page<T>> {
        let sheet = &self.pages[number];
        (sheet.spans > 0).then(|| self.page(number))
    }

    /// Drops each value. If one panics, those after it are left.
    fn drop_values(&mut self) {
        if !needs_drop::<T>() && !Values::<T>::APART {
            return;
        }
        for page in self.pages.iter().filter_map(|sheet| sheet.page.as_ref()) {
            for number in 0..Page::<T>::SLOTS {
                let slot = page.page().slot(number);
                if slot.name() != NO_NAME && slot.is_open() {
                    slot.set_name(NO_NAME);
                    // SAFETY: an open slot has a value, and whoever drops the slab has it alone.
                    // Without its name nobody comes to it again.
                    drop(unsafe { page.page().take(number) });
                }
            }
        }
    }
}

impl<T> Compact for Table<T> {
    fn core(&mut self) -> &mut Core {
        &mut self.core
    }

    fn make_room(&mut self) -> Result<(), Refused> {
        self.spans.reserve(1)?;
        self.behind.try_reserve(1).map_err(|_| Refused::OutOfMemory)
    }

    /// Follows a fold of the core: the values of the first group go to the page of the second, or
    /// stay behind until they can. There is room for one more span, and for one more page behind.
    fn follow(&mut self, abandoned: Group, owned: Group) {
        let (head, host) = (abandoned.head(), owned.head());
        for number in &self.behind {
            let sheet = &mut self.pages[*number as usize];
            if sheet.head == head {
                sheet.head = host;
            }
        }
        let Some(from) = self.spans.find(head).copied() else {
            return;
        };
        self.pages[from.page as usize].head = host;
        match self.spans.find(host).copied() {
            None => self.make_main(host, from.page),
            Some(to) if !self.move_values(from.page, to.page) => self.behind.push(from.page),
            Some(_) => {}
        }
        // It is a head no more.
        if from.live == 0 {
            self.spans.remove(head);
        }
    }
}

impl<T> Drop for Table<T> {
    fn drop(&mut self) {
        /// Drops what is left if the drop of a value panicked.
        struct Rest<'t, T>(&'t mut Table<T>);
        impl<T> Drop for Rest<'_, T> {
            fn drop(&mut self) {
                self.0.drop_values();
            }
        }
        Rest(self).0.drop_values();
    }
}

impl<T> Sheet<T> {
    /// Of a block that was never used.
    const NONE: Sheet<T> = Sheet {
        page: None,
        spans: 0,
        head: Span::LEAST,
    };
}

/// The page of a home, whose address stands there for that of a block.
#[inline]
fn page_of<T>(home: &Home) -> Page<T> {
    Page::of(home.block.address())
}

/// The page of the home of the key's span, if the key has its slot there.
#[inline]
fn page_if_named<T>(home: &Home, key: Key) -> Option<Page<T>> {
    let page = page_of(home);
    (slot_of(key) < Page::<T>::SLOTS && page.slot(slot_of(key)).name() == name_of(key))
        .then_some(page)
}

/// The same, if the value of the key is there and not removed.
#[inline]
fn page_if_live<T>(home: &Home, key: Key) -> Option<Page<T>> {
    page_if_named(home, key).filter(|page| page.slot(slot_of(key)).is_live())
}

/// Takes the key's name from its slot, with one of the values that its span has at this home, and
/// says on which page that is if no other one is left.
#[inline]
fn take_name<T>(home: &mut Home, key: Key) -> Option<u32> {
    page_of::<T>(home).slot(slot_of(key)).set_name(NO_NAME);
    home.live -= 1;
    (home.live == 0).then_some(home.page)
}

/// The name of a slot that no key has.
const NO_NAME: u64 = 0;

/// The name of the key's slot, which tells it from each other key that its slot ever has: no
/// generation is 0.
#[inline]
pub(super) fn name_of(key: Key) -> u64 {
    key.numbers().0
}

/// The key of the name at this slot, as the core knows it, if it is one.
pub(super) fn key_of(name: u64, slot: usize) -> Option<Key> {
    Key::of_span(
        Span::new(0, serial_of(name)),
        slot as u8,
        (name >> 32) as u32,
    )
}

#[inline]
fn serial_of(name: u64) -> u32 {
    name as u32
}

#[inline]
pub(super) fn slot_of(key: Key) -> usize {
    key.slot() as usize
}

/// Closes each slot that a key has, or none if one is pinned, removed or still to be filled.
fn close_all<T>(page: Page<T>) -> bool {
    let named = |number: &usize| page.slot(*number).name() != NO_NAME;
    let is_pinned = |number: usize| !page.slot(number).close();
    let Some(pinned) = (0..Page::<T>::SLOTS)
        .filter(named)
        .find(|number| is_pinned(*number))
    else {
        return true;
    };
    for number in (0..pinned).filter(named) {
        page.slot(number).open();
    }
    false
}
