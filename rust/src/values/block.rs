//! A page of values, by its address, and a short one of the first slots.

use super::paged::Page;
use super::{Values, LEAN, VACANT};
use crate::names::Key;
use crate::refused::Refused;
use crate::slots::Slots;
use std::alloc::{alloc_zeroed, dealloc, Layout};
use std::marker::PhantomData;
use std::mem::size_of;
use std::ptr::NonNull;
use std::slice;

/// Where a page of values is: the generations stand from this address on, and the values before it,
/// that of slot 0 last. So where a slot is does not go by how many slots the block has.
///
/// ```text
///   .. | value 1 | value 0 | generation 0 | generation 1 | ..
///                          ▲ the address
/// ```
#[derive(Clone, Copy)]
pub(crate) struct Block(NonNull<u8>);

// SAFETY: a block is an address, and who reads or writes there has the values, or a part of them,
// lent.
unsafe impl Send for Block {}
// SAFETY: as above.
unsafe impl Sync for Block {}

impl Block {
    /// Of a page that there is not.
    pub(crate) const NOWHERE: Block = Block(NonNull::dangling());

    /// The block at this address.
    pub(crate) fn at(address: NonNull<u8>) -> Block {
        Block(address)
    }

    /// The block of so many slots whose bytes begin here.
    ///
    /// # Safety
    ///
    /// As many bytes as such a block takes stand there.
    pub(super) unsafe fn from_first_byte<T>(at: NonNull<u8>, slots: usize) -> Block {
        Block(NonNull::new_unchecked(
            at.as_ptr().add(Values::<T>::bytes_before(slots)),
        ))
    }

    /// Where it is.
    #[inline]
    pub(crate) fn address(self) -> NonNull<u8> {
        self.0
    }

    // SAFETY, of all below: the block of a home, and of a page on which spans have values, has the
    // bytes of its slots, and a slot is one of these.

    /// Whether a value stands at the slot with the generation of the key; or a lean slab, which
    /// keeps none, has a value there.
    #[inline]
    pub(super) fn is_of(self, slot: u32, key: Key) -> bool {
        LEAN || self.generation(slot) == key.generation()
    }

    #[inline]
    pub(super) fn generation(self, slot: u32) -> u32 {
        unsafe { self.generation_at(slot).read() }
    }

    /// The slots that have a value, of the first so many. A lean slab does not know them.
    pub(super) fn slots_with_values(self, slots: u16) -> Slots {
        // SAFETY: as above, and so many generations are there, which were zeros at first.
        Slots::of_nonzero(unsafe { slice::from_raw_parts(self.generation_at(0), slots.into()) })
    }

    /// Notes that the slot has no value.
    #[inline]
    pub(super) fn vacate(self, slot: u32) {
        if !LEAN {
            self.set_generation(slot, VACANT);
        }
    }

    #[inline]
    pub(super) fn set_generation(self, slot: u32, generation: u32) {
        unsafe { self.generation_at(slot).write(generation) }
    }

    /// Where the generation of the slot is.
    ///
    /// # Safety
    ///
    /// The slot is one of the block's, which has generations.
    #[inline]
    unsafe fn generation_at(self, slot: u32) -> *mut u32 {
        self.0.as_ptr().cast::<u32>().add(slot as usize)
    }

    /// Where the value of the slot stands, or its address.
    #[inline]
    pub(super) fn stored<T>(self, slot: u32) -> *mut u8 {
        let offset = (1 + slot as usize) * Values::<T>::STORED.size();
        unsafe { self.0.as_ptr().sub(offset) }
    }

    /// Where the value of the slot is, or, where it stands apart, what was written of that.
    #[inline]
    pub(super) fn value<T>(self, slot: u32) -> NonNull<T> {
        let stored = self.stored::<T>(slot);
        if size_of::<T>() == 0 {
            NonNull::dangling()
        } else if Values::<T>::APART {
            unsafe { stored.cast::<NonNull<T>>().read() }
        } else {
            unsafe { NonNull::new_unchecked(stored.cast()) }
        }
    }

    /// Takes the value of the slot out.
    ///
    /// # Safety
    ///
    /// There is one, and nobody finds it any more.
    #[inline]
    pub(super) unsafe fn take<T>(self, slot: u32) -> T {
        let at = self.value::<T>(slot);
        let value = at.as_ptr().read();
        if Values::<T>::APART {
            // It is a block of `reserve`, which nothing names any more.
            dealloc(at.as_ptr().cast(), Layout::new::<T>());
        }
        value
    }

    /// Moves the value of the slot, or its address, to the same slot of another block.
    ///
    /// # Safety
    ///
    /// There is one here, which nobody finds any more, and none there. The blocks are two.
    pub(super) unsafe fn move_to<T>(self, to: Block, slot: u32) {
        let bytes = Values::<T>::STORED.size();
        to.stored::<T>(slot)
            .copy_from_nonoverlapping(self.stored::<T>(slot), bytes);
        if !LEAN {
            to.set_generation(slot, self.generation(slot));
            self.vacate(slot);
        }
    }

    /// Copies all that stands at the first so many slots to those of another block.
    ///
    /// # Safety
    ///
    /// Both have so many slots, and are two. From now on nobody finds the values here.
    unsafe fn copy_slots<T>(self, to: Block, slots: usize) {
        let before = Values::<T>::bytes_before(slots);
        let bytes = before + Values::<T>::bytes_behind(slots);
        let from = self.0.as_ptr().sub(before);
        to.0.as_ptr()
            .sub(before)
            .copy_from_nonoverlapping(from, bytes);
    }
}

/// A page in a block of its first slots, in the global allocator: the first page as long as it is
/// the only one, so that a slab of few values takes little. The block is freed with this.
pub(super) struct ShortPage<T> {
    // No page gets another block, nor another number of slots.
    page: Page,
    values: PhantomData<T>,
}

impl<T> ShortPage<T> {
    /// A free page of so many slots, none of which has a value: at most `MOST_SHORT`, and some.
    pub fn new(slots: usize) -> Result<ShortPage<T>, Refused> {
        assert!(0 < slots && slots <= Values::<T>::MOST_SHORT);
        // SAFETY: such a block has bytes. Zeros are generations of slots without a value.
        let first_byte = NonNull::new(unsafe { alloc_zeroed(Self::layout(slots)) });
        let first_byte = first_byte.ok_or(Refused::OutOfMemory)?;
        // SAFETY: so many bytes stand there.
        let block = unsafe { Block::from_first_byte::<T>(first_byte, slots) };
        Ok(ShortPage {
            page: Page::free(block, slots as u16),
            values: PhantomData,
        })
    }

    fn layout(slots: usize) -> Layout {
        let bytes = Values::<T>::bytes_of_block(slots);
        Layout::from_size_align(bytes, Values::<T>::ALIGN)
            .expect("a block of few slots has a layout")
    }

    pub fn page(&self) -> &Page {
        &self.page
    }

    pub fn page_mut(&mut self) -> &mut Page {
        &mut self.page
    }

    pub fn slots(&self) -> usize {
        self.page.slots().into()
    }

    /// Whether a group has its values here.
    pub fn is_taken(&self) -> bool {
        self.page.head.is_some()
    }

    /// Moves the page to another one, which is free and has at least as many slots, if it is taken.
    ///
    /// # Safety
    ///
    /// The block of the other page has so many slots, and whoever finds values here looks there
    /// from now on.
    pub unsafe fn move_to(&self, to: &mut Page) {
        if self.is_taken() {
            let block = self.page.block();
            block.copy_slots::<T>(to.block(), self.slots());
            to.take_from(&self.page);
        }
    }
}

impl<T> Drop for ShortPage<T> {
    fn drop(&mut self) {
        let (address, slots) = (self.page.block().address().as_ptr(), self.slots());
        // SAFETY: `new` took the block with this layout, and it begins so many bytes before its
        // address. Its values went before.
        unsafe {
            let first_byte = address.sub(Values::<T>::bytes_before(slots));
            dealloc(first_byte, Self::layout(slots));
        }
    }
}
