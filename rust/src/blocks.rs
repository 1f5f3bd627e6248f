//! Blocks of one size, whose memory goes back to the system.

mod system;

use crate::refused::Refused;
use std::ops::Range;
use std::ptr::NonNull;
use system::Runs;

/// What the system has memory in.
const SYSTEM_PAGE: usize = 4096;

/// How much is asked of the system at a time, where that are more blocks than one and no more than
/// 64.
const SEGMENT: usize = 4 << 20;

/// How many blocks come one by one, so that a slab of one page takes little.
const FEW: usize = 4;

/// How much of free blocks keeps its memory, for the next who takes one.
const WARM: usize = 256 << 10;

/// Blocks with numbers from 0 on, each free or taken. A new block is zeros, and one that comes
/// again is as it was left or zeros.
///
/// ```text
///   segment 0                       segment 1
///   | taken | warm | taken | cold |   | cold | ..     a block may begin within a system page
///   | system page | system page | ..                  cold: only what taken blocks share is kept
/// ```
pub(crate) struct Blocks {
    size: usize,
    // How many blocks a segment has.
    per: usize,
    segments: Vec<NonNull<u8>>,
    // Of each block that was ever taken: those behind are new.
    taken: Vec<bool>,
    // The free blocks that are not new, each in one of the two.
    warm: Vec<u32>,
    cold: Vec<u32>,
    // For how many blocks there is memory, and room on each list.
    room: usize,
}

impl Blocks {
    /// No blocks yet, of so many bytes. Each lies at a multiple of the greatest power of two that
    /// divides them, up to 4,096.
    pub fn new(size: usize) -> Blocks {
        Blocks {
            size,
            per: (SEGMENT / size).clamp(1, 64),
            segments: Vec::new(),
            taken: Vec::new(),
            warm: Vec::new(),
            cold: Vec::new(),
            room: 0,
        }
    }

    /// How many blocks there are, free and taken. Their numbers are below that.
    pub fn len(&self) -> usize {
        self.room
    }

    /// Sees to it that a block is free. Where this is refused nothing has changed.
    #[inline]
    pub fn reserve(&mut self) -> Result<(), Refused> {
        if self.warm.is_empty() && self.cold.is_empty() && self.taken.len() == self.room {
            self.grow(1)?;
        }
        Ok(())
    }

    /// Sees to it that so many blocks are free. Where this is refused, those that there are by then
    /// stay.
    pub fn reserve_all(&mut self, count: usize) -> Result<(), Refused> {
        let free = self.room - self.taken.len() + self.warm.len() + self.cold.len();
        if free < count {
            self.grow(count - free)?;
        }
        Ok(())
    }

    /// Makes so many further blocks, and as many more as the lists have room for then.
    #[cold]
    fn grow(&mut self, more: usize) -> Result<(), Refused> {
        let blocks = self.room + more;
        // Room for each block on all lists, so that no call that frees takes memory.
        make_room(&mut self.taken, blocks)?;
        make_room(&mut self.warm, blocks)?;
        make_room(&mut self.cold, blocks)?;
        while self.segments.len() * self.per < blocks {
            let segments = self.segments.len() + 1;
            make_room(&mut self.segments, segments)?;
            let segment = system::map(self.segment_bytes()).ok_or(Refused::OutOfMemory)?;
            self.segments.push(segment);
        }
        let lists = [
            self.taken.capacity(),
            self.warm.capacity(),
            self.cold.capacity(),
        ];
        let mapped = self.segments.len() * self.per;
        self.room = lists.into_iter().fold(mapped, usize::min);
        Ok(())
    }

    /// Takes a free block: its number, and where it is for as long as there are these blocks.
    ///
    /// # Panics
    ///
    /// Where none is free.
    pub fn take(&mut self) -> (u32, NonNull<u8>) {
        let number = match self.warm.pop().or_else(|| self.cold.pop()) {
            Some(number) => number,
            None => self.take_new(),
        };
        self.taken[number as usize] = true;
        (number, self.address(number))
    }

    /// The number of the first block that was never taken.
    // Of 1,048,576 pages in each of 64 shards each takes a block, and some more are free.
    #[allow(clippy::cast_possible_truncation)]
    fn take_new(&mut self) -> u32 {
        let number = self.taken.len();
        assert!(number < self.room, "a block was reserved");
        self.taken.push(false);
        number as u32
    }

    /// Frees a block that is taken. Takes no memory.
    pub fn give(&mut self, number: u32) {
        self.taken[number as usize] = false;
        if self.warm.len() >= (WARM / self.size).max(1) {
            self.cool();
        }
        self.warm.push(number);
    }

    /// Hands the memory of all free blocks to the system, of neighbours as one run.
    pub fn cool(&mut self) {
        self.warm.sort_unstable();
        let mut runs = Runs::new();
        for number in &self.warm {
            let (segment, pages) = self.own_pages(*number);
            if !pages.is_empty() {
                // SAFETY: the pages lie within the segment, and no block that is taken is on any of
                // them.
                unsafe {
                    let at = segment.as_ptr().add(pages.start * SYSTEM_PAGE);
                    runs.add(at, pages.len() * SYSTEM_PAGE);
                }
            }
        }
        runs.release();
        // The lowest is taken first.
        self.cold.extend(self.warm.drain(..).rev());
    }

    /// The numbers of all blocks that were ever taken, as `swap_ends` wants them at first.
    pub fn numbers(&self) -> Range<usize> {
        0..self.taken.len()
    }

    /// Whether a free block may share a system page with another one.
    pub fn share_pages(&self) -> bool {
        self.size % SYSTEM_PAGE != 0
    }

    /// Whether a free block lies before a taken one.
    pub fn has_gaps(&self) -> bool {
        let free = self.taken.iter().position(|taken| !taken);
        free.is_some_and(|free| self.taken[free..].contains(&true))
    }

    /// Takes the lowest free block of the range for the highest taken one, which is free from now
    /// on, if that is the higher one: both numbers. The range is then what lies between.
    // A number has 32 bits.
    #[allow(clippy::cast_possible_truncation)]
    pub fn swap_ends(&mut self, within: &mut Range<usize>) -> Option<(u32, u32)> {
        let low = within.find(|&number| !self.taken[number])?;
        let high = within.rfind(|&number| self.taken[number])?;
        self.taken.swap(low, high);
        Some((high as u32, low as u32))
    }

    /// Hands all memory behind the last taken block to the system, after the free blocks were
    /// handed over and some were swapped. Before that all blocks from this number on were free.
    // A number has 32 bits.
    #[allow(clippy::cast_possible_truncation)]
    pub fn release_rest(&mut self, end: usize) {
        let last = self.taken.iter().rposition(|taken| *taken);
        let count = last.map_or(0, |last| last + 1);
        self.warm.clear();
        self.cold.clear();
        let free = (0..self.taken.len()).filter(|number| !self.taken[*number]);
        // The lowest is taken first.
        self.cold.extend(free.rev().map(|number| number as u32));
        for number in count / self.per..(end + self.per - 1) / self.per {
            let segment = self.segments[number];
            let used = count.saturating_sub(number * self.per).min(self.per) * self.size;
            let first = (used + SYSTEM_PAGE - 1) / SYSTEM_PAGE * SYSTEM_PAGE;
            // SAFETY: no block that is taken lies behind the first `used` bytes of the segment.
            unsafe { system::release(segment.as_ptr().add(first), self.segment_bytes() - first) }
        }
    }

    /// Where the block is.
    pub fn address(&self, number: u32) -> NonNull<u8> {
        let (segment, offset) = self.place(number);
        // SAFETY: the block lies within its segment.
        unsafe { NonNull::new_unchecked(segment.as_ptr().add(offset)) }
    }

    /// The system pages of a free block on which no taken block lies, as those of its segment.
    fn own_pages(&self, number: u32) -> (NonNull<u8>, Range<usize>) {
        let (segment, offset) = self.place(number);
        let first_block = number as usize - number as usize % self.per;
        let is_free = |page: usize| {
            let last = ((page + 1) * SYSTEM_PAGE - 1) / self.size;
            let blocks = page * SYSTEM_PAGE / self.size..=last.min(self.per - 1);
            blocks
                .into_iter()
                .all(|block| !self.is_taken(first_block + block))
        };
        let mut pages = offset / SYSTEM_PAGE..(offset + self.size - 1) / SYSTEM_PAGE + 1;
        // Those between the first and the last are this block's alone.
        if !is_free(pages.start) {
            pages.start += 1;
        }
        if !pages.is_empty() && !is_free(pages.end - 1) {
            pages.end -= 1;
        }
        (segment, pages)
    }

    fn is_taken(&self, number: usize) -> bool {
        self.taken.get(number).is_some_and(|taken| *taken)
    }

    /// The number of the block with this address, and how many bytes behind its beginning that is,
    /// if the block was ever taken. It looks at each segment.
    pub fn find(&self, at: *const u8) -> Option<(usize, usize)> {
        let bytes = self.per * self.size;
        let (number, offset) = self
            .segments
            .iter()
            .enumerate()
            .find_map(|(segment, first)| {
                let offset = (at as usize).checked_sub(first.as_ptr() as usize)?;
                (offset < bytes)
                    .then(|| (segment * self.per + offset / self.size, offset % self.size))
            })?;
        (number < self.taken.len()).then_some((number, offset))
    }

    fn place(&self, number: u32) -> (NonNull<u8>, usize) {
        let number = number as usize;
        (
            self.segments[number / self.per],
            number % self.per * self.size,
        )
    }

    fn segment_bytes(&self) -> usize {
        (self.per * self.size + SYSTEM_PAGE - 1) / SYSTEM_PAGE * SYSTEM_PAGE
    }
}

/// Sees to it that the list has room for so many in all, and beyond a few for some more that come
/// later.
pub(crate) fn make_room<E>(list: &mut Vec<E>, len: usize) -> Result<(), Refused> {
    let more = len - list.len();
    let made = if len <= FEW {
        list.try_reserve_exact(more)
    } else {
        list.try_reserve(more)
    };
    made.map_err(|_| Refused::OutOfMemory)
}

impl Drop for Blocks {
    fn drop(&mut self) {
        for segment in &self.segments {
            // SAFETY: it is what `map` gave, of so many bytes, and who has the blocks uses them no
            // more.
            unsafe { system::unmap(segment.as_ptr(), self.segment_bytes()) }
        }
    }
}

// SAFETY: nobody else has the segments, and the system's calls may come from any thread.
unsafe impl Send for Blocks {}
// SAFETY: nothing is done through `&Blocks` but to read its own fields.
unsafe impl Sync for Blocks {}

#[cfg(test)]
mod tests {
    use super::{system, Blocks, SYSTEM_PAGE};
    use crate::refused::Refused;
    use std::collections::BTreeMap;
    use std::ops::Range;
    use std::ptr::NonNull;
    use std::sync::atomic::Ordering;

    /// Blocks come and go at random. Each that is taken is its own, is found by its address, and
    /// has what was written there; one that was never taken is not found.
    fn come_and_go(size: usize) -> Result<(), Refused> {
        let (mut blocks, mut taken) = (Blocks::new(size), BTreeMap::<u32, NonNull<u8>>::new());
        let mut random = 88_172_645_463_325_252_u64;
        for round in 0..20_000_u32 {
            random ^= random << 13;
            random ^= random >> 7;
            random ^= random << 17;
            let number = (random >> 20) as u32 % 300;
            if let Some(at) = taken.remove(&number) {
                // SAFETY: the block was taken, and its bytes were written.
                let ends = unsafe { (at.as_ptr().read(), at.as_ptr().add(size - 1).read()) };
                assert_eq!(ends, (number as u8, number as u8));
                blocks.give(number);
            } else if taken.len() < 290 {
                blocks.reserve()?;
                let (number, at) = blocks.take();
                // SAFETY: the block is this test's.
                unsafe { at.as_ptr().write_bytes(number as u8, size) };
                assert!((number as usize) < blocks.len() && taken.insert(number, at).is_none());
                let last = at.as_ptr().wrapping_add(size - 1);
                assert_eq!(blocks.find(last), Some((number as usize, size - 1)));
            }
            if round % 1000 == 0 {
                blocks.cool();
            }
        }
        Ok(())
    }

    #[test]
    fn each_is_its_own() -> Result<(), Refused> {
        [64, 1000, 6144, 100_000]
            .into_iter()
            .try_for_each(come_and_go)
    }

    #[test]
    fn lists_grow_with_what_is_taken() -> Result<(), Refused> {
        let mut blocks = Blocks::new(6144);
        blocks.reserve()?;
        assert!(blocks.len() <= 4 && blocks.cold.capacity() <= 4);
        let (_, first) = blocks.take();
        let beyond = first.as_ptr().wrapping_add(6144);
        assert_eq!(
            (blocks.find(first.as_ptr()), blocks.find(beyond)),
            (Some((0, 0)), None)
        );
        blocks.give(0);
        blocks.reserve_all(100)?;
        let room = blocks.cold.capacity();
        assert!(blocks.len() >= 100 && room >= 100);
        assert!((0..100).map(|_| blocks.take().0).eq(0..100));
        (0..100).for_each(|number| blocks.give(number));
        blocks.cool();
        assert_eq!((blocks.cold.len(), blocks.cold.capacity()), (100, room));
        Ok(())
    }

    /// The bytes of the first 64 blocks, which all are of one segment.
    fn bytes(blocks: &Blocks) -> Vec<u8> {
        let at = blocks.address(0).as_ptr();
        // SAFETY: the test has the blocks, and nothing writes to them meanwhile.
        (0..64 * blocks.size)
            .map(|byte| unsafe { at.add(byte).read() })
            .collect()
    }

    /// Of the system pages those are zeros from then on of which each block is free.
    fn free_ones_leave(size: usize) -> Result<(), Refused> {
        let mut blocks = Blocks::new(size);
        blocks.reserve_all(64)?;
        for _ in 0..64 {
            let (number, at) = blocks.take();
            // SAFETY: the block is this test's.
            unsafe { at.as_ptr().write_bytes(number as u8 + 1, size) };
        }
        let is_free = |number: usize| (10..20).contains(&number) || number % 7 == 2;
        (0..64)
            .rev()
            .filter(|number| is_free(*number))
            .for_each(|number| blocks.give(number as u32));
        blocks.cool();
        for (page, bytes) in bytes(&blocks).chunks(SYSTEM_PAGE).enumerate() {
            let number = |byte: usize| (page * SYSTEM_PAGE + byte) / size;
            let is_gone = (number(0)..=number(bytes.len() - 1)).all(is_free);
            for (byte, now) in bytes.iter().enumerate() {
                let was = number(byte) as u8 + 1;
                assert_eq!(
                    *now,
                    if is_gone { 0 } else { was },
                    "of {size}, page {page}"
                );
            }
        }
        Ok(())
    }

    #[test]
    fn free_blocks_leave_the_process() -> Result<(), Refused> {
        for is_one_by_one in [false, true] {
            system::IS_ONE_BY_ONE.store(is_one_by_one, Ordering::Relaxed);
            [512, 1000, 4096, 6144]
                .into_iter()
                .try_for_each(free_ones_leave)?;
        }
        Ok(())
    }

    /// Takes the lowest free block for the highest taken one so many times, and hands over what is
    /// behind: both numbers of each time.
    fn swapped(blocks: &mut Blocks, most: usize) -> Vec<(u32, u32)> {
        blocks.cool();
        let mut within = blocks.numbers();
        let swaps = std::iter::from_fn(|| blocks.swap_ends(&mut within));
        let swaps: Vec<_> = swaps.take(most).collect();
        let end = swaps.iter().map(|(from, _)| *from as usize + 1).max();
        blocks.release_rest(end.unwrap_or(0));
        swaps
    }

    /// Whether the blocks of these numbers are zeros.
    fn are_gone(blocks: &Blocks, mut numbers: Range<u32>) -> bool {
        numbers.all(|number| {
            let at = blocks.address(number).as_ptr();
            // SAFETY: the test has the blocks, and nothing writes to them meanwhile.
            (0..blocks.size).all(|byte| unsafe { at.add(byte).read() } == 0)
        })
    }

    /// What is taken at the highest numbers goes to the lowest, and the next blocks are those
    /// behind.
    #[test]
    fn ends_are_swapped() -> Result<(), Refused> {
        let mut blocks = Blocks::new(2560);
        blocks.reserve_all(100)?;
        for wanted in 0..100 {
            let (number, at) = blocks.take();
            // SAFETY: the block is this test's.
            unsafe { at.as_ptr().write_bytes(1, 2560) };
            assert_eq!(number, wanted);
        }
        (0..100)
            .filter(|number| number % 10 != 3)
            .for_each(|number| blocks.give(number));
        assert!(blocks.share_pages() && blocks.has_gaps());
        // Of the first two behind the last, each may share a system page with that.
        assert_eq!(swapped(&mut blocks, 3), [(93, 0), (83, 1), (73, 2)]);
        assert!(blocks.has_gaps() && are_gone(&blocks, 66..100));
        let swaps = [(63, 4), (53, 5), (43, 6), (33, 7), (23, 8), (13, 9)];
        assert_eq!(swapped(&mut blocks, 100), swaps);
        assert!(!blocks.has_gaps() && are_gone(&blocks, 12..100));
        assert_eq!(swapped(&mut blocks, 100), []);
        assert_eq!((blocks.take().0, blocks.take().0), (10, 11));
        Ok(())
    }
}
