//! Folds, which values follow from page to page, and the moves of pages to blocks of lower numbers.

use super::block::Block;
use super::{is_alone, Row, Values};
use crate::core::{Core, Stepped};
use crate::names::Group;
use crate::refused::Refused;
use crate::slots::Slots;
use crate::spans::Home;

impl<T> Values<T> {
    /// Has the core carry out the next fold, and follows it.
    pub fn step(&mut self, core: &mut Core) -> Result<Stepped, Refused> {
        self.make_room()?;
        let stepped = core.step()?;
        if let Stepped::Folded(abandoned, owned) = stepped {
            self.follow(abandoned, owned);
        }
        Ok(stepped)
    }

    /// Makes room to follow a fold, which may bring one more span here.
    pub fn make_room(&mut self) -> Result<(), Refused> {
        self.grow_spans(1)?;
        self.grow_rows()
    }

    /// Follows a fold: the values of the first group move to the page of the second, each to the
    /// slot where it is.
    pub fn follow(&mut self, abandoned: Group, owned: Group) {
        let Some(&from) = self.spans.find(abandoned.head()) else {
            return;
        };
        match self.spans.find(owned.head()).copied() {
            Some(to) => self.move_values(&from, &to),
            None => self.take_over(&from, owned),
        }
    }

    /// The page of this home becomes that of the group, whose head has no value.
    fn take_over(&mut self, from: &Home, owned: Group) {
        self.forget_room();
        let host = (self.spans).insert(owned.head(), from.page, from.block, from.slots);
        // Its row says which values on the page are its own: none.
        host.own = 0;
        let host = host.number;
        self.rows[host as usize] = Row {
            live: Slots::NONE,
            next: Some(from.number),
        };
        let page = self.paged.page_mut(from.page);
        page.head = Some(host);
        page.guests += 1;
        page.shard = owned.shard() as u8;
        self.note_shared(from.number);
        self.forget_if_empty(from, from.page);
    }

    /// Notes that the span of this number shares its page with others from now on: what was told by
    /// the generations there, its row tells.
    fn note_shared(&mut self, number: u32) {
        let Some(home) = self.spans.home_of(number) else {
            return;
        };
        if is_alone(home) {
            self.rows[number as usize].live = home.block.slots_with_values(home.slots);
        }
        home.own = 0;
    }

    /// Moves each value of the page of the first home to the same slot of the page of the second,
    /// with the homes of their spans, and gives the block back.
    fn move_values(&mut self, from: &Home, to: &Home) {
        assert!(from.page != to.page, "the library folds two pages");
        let host = to.number;
        self.note_shared(host);
        let mut taken = Slots::NONE;
        for number in self.row_from(host) {
            taken.unite(&self.rows[number as usize].live);
        }
        let mut next = Some(from.number);
        while let Some(number) = next {
            self.note_shared(number);
            let row = self.rows[number as usize];
            assert!(taken.unite(&row.live), "the library folds what fits");
            for slot in row.live.iter() {
                // SAFETY: two pages are two blocks. The slot has a value on the one, where nobody
                // finds it from now on, and none on the other.
                unsafe { from.block.move_to::<T>(to.block, slot) };
            }
            next = row.next;
            self.move_home(number, to.page, to.block);
            self.rows[number as usize].next = self.rows[host as usize].next.replace(number);
        }
        let guests = self.paged.page(from.page).guests + 1;
        self.paged.page_mut(to.page).guests += guests;
        self.paged.give(from.page);
        self.forget_if_empty(from, to.page);
    }

    /// Moves the home of the span of this number to the page of that number and block.
    fn move_home(&mut self, number: u32, page: u32, block: Block) {
        if let Some(home) = self.spans.home_of(number) {
            home.page = page;
            home.block = block;
        }
    }

    /// Forgets a span that was the head of a page until now, and is a guest of this one, if it has
    /// no value.
    fn forget_if_empty(&mut self, head: &Home, page: u32) {
        if head.live == 0 {
            self.forget_guest(head.number, page);
        }
    }

    /// Notes that the shard has the group, with its page.
    pub fn note_adopted(&mut self, group: Group, shard: u32) {
        if let Some(home) = self.spans.find(group.head()) {
            self.paged.page_mut(home.page).shard = shard as u8;
        }
    }

    /// Has the homes of page 0 follow it to its block, if it is taken.
    pub(super) fn follow_first(&mut self) {
        let page = *self.paged.page(0);
        let mut next = page.head;
        while let Some(number) = next {
            if let Some(home) = self.spans.home_of(number) {
                (home.block, home.slots) = (page.block(), page.slots());
                if home.own > 0 {
                    home.own = page.slots().into();
                }
            }
            next = self.next_on_page(number);
        }
    }

    /// Hands the memory of all pages without a value to the system.
    pub fn cool(&mut self) {
        self.forget_room();
        self.paged.cool();
    }

    /// Moves at most so many pages of values to blocks of lower numbers, and hands the memory of
    /// free blocks to the system. Says whether a free block lies before a taken one then. If blocks
    /// are not whole system pages, such a block would keep what it shares with a taken one; if they
    /// are, no page moves.
    pub fn pack(&mut self, most: usize) -> bool {
        self.cool();
        let blocks = self.paged.full.get().map(|full| &full.blocks);
        let Some(blocks) = blocks.filter(|blocks| blocks.share_pages()) else {
            return false;
        };
        let (mut within, mut end) = (blocks.numbers(), 0);
        for _ in 0..most {
            let Some((from, to)) = self.paged.full.blocks.swap_ends(&mut within) else {
                break;
            };
            end = end.max(from as usize + 1);
            self.move_page(from, to);
        }
        self.paged.full.blocks.release_rest(end);
        self.paged.full.blocks.has_gaps()
    }

    /// Moves the values of a page to the block of the other number, on which no value is.
    fn move_page(&mut self, from: u32, to: u32) {
        let (old, block, mut next) = self.paged.renumber(from, to);
        while let Some(number) = next {
            let home = self.spans.find_number(number);
            let slots = home.map_or(Slots::NONE, |home| self.slots_of(home));
            for slot in slots.iter() {
                // SAFETY: the blocks are two. The slot has a value on the one, where nobody finds
                // it from now on, and none on the other.
                unsafe { old.move_to::<T>(block, slot) };
            }
            self.move_home(number, to, block);
            next = self.next_on_page(number);
        }
    }
}
