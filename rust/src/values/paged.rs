//! The pages of values, by the numbers of their blocks.

use super::block::{Block, ShortPage};
use super::Values;
use crate::blocks::{make_room, Blocks};
use crate::boxed::Late;
use crate::refused::Refused;
use std::mem;
use std::ptr::NonNull;

/// How many slots the first page has at least.
pub(super) const FEWEST_SLOTS: usize = 4;

/// The pages. The first one begins in a short block, which is replaced by one of twice its slots,
/// and at last by one of the system's memory: so all of them are of that once there are two.
///
/// ```text
///   one value     page 0: a short block of 4 slots
///   five values   page 0: a short block of 8 slots
///   two pages     page 0: block 0      page 1: block 1
/// ```
pub(super) struct Paged<T> {
    // Page 0, be that free or not, if it is in a short block. Then there is no other page.
    short: Option<ShortPage<T>>,
    // They come with the first page that is not in a short block.
    pub full: Late<FullPages>,
}

/// Pages of all slots, by the numbers of their blocks.
pub(super) struct FullPages {
    pub blocks: Blocks,
    pages: Vec<Page>,
}

/// A page of values.
#[derive(Clone, Copy)]
pub(super) struct Page {
    block: Block,
    // The number of the head of its group, into which the next values come: none if the page is
    // free.
    pub head: Option<u32>,
    // How many other spans have values here.
    pub guests: u32,
    // How many slots the block has.
    slots: u16,
    // The shard that has its page of the core, or had it when that was last known.
    pub shard: u8,
}

impl Page {
    /// The page of a block that was never taken.
    const NONE: Page = Page::free(Block::NOWHERE, 0);

    /// A free page in a block of so many slots.
    pub const fn free(block: Block, slots: u16) -> Page {
        Page {
            block,
            head: None,
            guests: 0,
            slots,
            shard: 0,
        }
    }

    pub fn block(&self) -> Block {
        self.block
    }

    pub fn slots(&self) -> u16 {
        self.slots
    }

    /// Is what the other page was, in its own block.
    pub fn take_from(&mut self, other: &Page) {
        let Page { block, slots, .. } = *self;
        *self = Page {
            block,
            slots,
            ..*other
        };
    }
}

impl<T> Paged<T> {
    /// How many slots a page has that is not in a short block: at most 256.
    const SLOTS: u16 = Values::<T>::SLOTS as u16;

    /// No pages.
    pub fn new() -> Paged<T> {
        Paged {
            short: None,
            full: Late::new(),
        }
    }

    /// Whether page 0 is in a short block, or there is none yet.
    pub fn may_be_short(&self) -> bool {
        self.full.get().map_or(true, |full| full.blocks.len() == 0)
    }

    /// How many slots the short block has: none if there is no such block.
    pub fn short_slots(&self) -> usize {
        self.short.as_ref().map_or(0, ShortPage::slots)
    }

    /// The page of this number, which was ever taken.
    #[inline]
    pub fn page(&self, number: u32) -> &Page {
        match &self.short {
            Some(short) => short.page(),
            None => &self.full.pages[number as usize],
        }
    }

    /// The page of this number, which was ever taken, to be changed.
    #[inline]
    pub fn page_mut(&mut self, number: u32) -> &mut Page {
        match &mut self.short {
            Some(short) => short.page_mut(),
            None => &mut self.full.pages[number as usize],
        }
    }

    /// Sees to it that page 0 is in a short block of at least so many slots. If it is taken and has
    /// moved, its homes are to follow. A refusal changes nothing.
    pub fn lengthen(&mut self, slots: usize) -> Result<(), Refused> {
        if slots <= self.short_slots() {
            return Ok(());
        }
        let mut longer = ShortPage::new(slots.next_power_of_two().max(FEWEST_SLOTS))?;
        if let Some(short) = &self.short {
            // SAFETY: the other block has more slots, and the page is there from now on.
            unsafe { short.move_to(longer.page_mut()) };
        }
        self.short = Some(longer);
        Ok(())
    }

    /// Sees to it that so many blocks of all slots are free, and that no page is in a short one. If
    /// page 0 has moved, its homes are to follow. If this is refused, blocks that there are by then
    /// stay, and no page has moved.
    pub fn reserve(&mut self, count: usize) -> Result<(), Refused> {
        let has_first = self.short.as_ref().is_some_and(ShortPage::is_taken);
        let full = self.full.make(FullPages::new::<T>)?;
        full.reserve(count + usize::from(has_first))?;
        if let Some(short) = self.short.take().filter(|_| has_first) {
            let page = full.take::<T>();
            assert!(page == 0, "no block was taken before");
            // SAFETY: the other block has no fewer slots, and the page is there from now on.
            unsafe { short.move_to(&mut full.pages[0]) };
        }
        Ok(())
    }

    /// Takes a free page, whose number comes with it.
    ///
    /// # Panics
    ///
    /// If none is free.
    pub fn take(&mut self) -> (u32, &mut Page) {
        if let Some(short) = &mut self.short {
            let page = short.page_mut();
            assert!(page.head.is_none(), "a block was reserved");
            return (0, page);
        }
        let number = self.full.take::<T>();
        (number, &mut self.full.pages[number as usize])
    }

    /// Frees a page on which no value is. Takes no memory.
    pub fn give(&mut self, number: u32) {
        let page = self.page_mut(number);
        (page.head, page.guests) = (None, 0);
        if self.short.is_none() {
            self.full.blocks.give(number);
        }
    }

    /// Hands the memory of all free pages to the system.
    pub fn cool(&mut self) {
        if !self.short.as_ref().is_some_and(ShortPage::is_taken) {
            self.short = None;
        }
        if let Some(full) = self.full.get_mut() {
            full.blocks.cool();
        }
    }

    /// Has the page of the first number be that of the second one, whose block has no value: both
    /// blocks, and the head.
    pub fn renumber(&mut self, from: u32, to: u32) -> (Block, Block, Option<u32>) {
        let block = block_at::<T>(self.full.blocks.address(to));
        let pages = &mut self.full.pages;
        let page = mem::replace(&mut pages[from as usize], Page::NONE);
        pages[to as usize] = Page { block, ..page };
        (page.block, block, page.head)
    }

    /// The number of the page that has this address among its values, and how many bytes of them
    /// are behind that. It looks at each segment of blocks.
    pub fn find(&self, at: *const u8) -> Option<(u32, usize)> {
        let Some(short) = &self.short else {
            let (number, offset) = self.full.get()?.blocks.find(at)?;
            let before = Values::<T>::bytes_before(Values::<T>::SLOTS);
            return Some((number as u32, before.checked_sub(offset + 1)?));
        };
        let address = short.page().block().address().as_ptr() as usize;
        let behind = address.checked_sub(at as usize)?.checked_sub(1)?;
        (behind < Values::<T>::bytes_before(short.slots())).then_some((0, behind))
    }
}

impl FullPages {
    fn new<T>() -> FullPages {
        FullPages {
            blocks: Blocks::new(Values::<T>::BLOCK_BYTES),
            pages: Vec::new(),
        }
    }

    /// Sees to it that so many blocks are free, and that each has a page.
    fn reserve(&mut self, count: usize) -> Result<(), Refused> {
        self.blocks.reserve_all(count)?;
        let blocks = self.blocks.len();
        if self.pages.len() < blocks {
            make_room(&mut self.pages, blocks)?;
            self.pages.resize(blocks, Page::NONE);
        }
        Ok(())
    }

    /// Takes a free block: the number of its page, which is free.
    ///
    /// # Panics
    ///
    /// If none is free.
    fn take<T>(&mut self) -> u32 {
        let (number, at) = self.blocks.take();
        self.pages[number as usize] = Page::free(block_at::<T>(at), Paged::<T>::SLOTS);
        number
    }
}

/// The block of all slots whose bytes begin here.
fn block_at<T>(at: NonNull<u8>) -> Block {
    // SAFETY: the blocks have `BLOCK_BYTES` bytes.
    unsafe { Block::from_first_byte::<T>(at, Values::<T>::SLOTS) }
}
