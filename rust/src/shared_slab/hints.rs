//! Where the spans of a shard may have their values, for threads that have no lock.

use super::page::Page;
use std::alloc::{alloc_zeroed, dealloc, Layout};
use std::marker::PhantomData;
use std::mem::size_of;
use std::ptr::{self, NonNull};
use std::sync::atomic::{AtomicPtr, Ordering};

/// How many places the first table has.
const LEAST: usize = 16;

/// How many places a table has at most: as many as a shard may have pages.
const MOST: usize = 1 << 20;

/// Hints, by the serial numbers of spans: of each the page on which it may be. Whoever follows one
/// must look whether the value is there: a hint may be missing, old, or of another span.
///
/// Whoever has the lock of the shard writes them. A table that was outgrown stays for threads that
/// still read it, until the slab is dropped: all of these together have fewer places than the last.
pub(super) struct Hints<T> {
    last: AtomicPtr<Table>,
    pages: PhantomData<Page<T>>,
}

/// What comes before the places of a table, of which there is a power of two.
#[repr(C)]
struct Table {
    older: *mut Table,
    // What of a serial number says the place.
    mask: usize,
}

// SAFETY: it has addresses of pages, in atomics, and does nothing to a page.
unsafe impl<T> Send for Hints<T> {}
// SAFETY: as above.
unsafe impl<T> Sync for Hints<T> {}

impl<T> Hints<T> {
    pub const fn new() -> Hints<T> {
        Hints {
            last: AtomicPtr::new(ptr::null_mut()),
            pages: PhantomData,
        }
    }

    /// The page on which the span of this serial number may be.
    #[inline]
    pub fn find(&self, serial: u32) -> Option<Page<T>> {
        let page = self.place(serial)?.load(Ordering::Acquire);
        NonNull::new(page).map(Page::of)
    }

    /// Writes where the span of this serial number is. Whoever has the lock does.
    pub fn set(&self, serial: u32, page: Page<T>) {
        if let Some(place) = self.place(serial) {
            place.store(page.address().as_ptr(), Ordering::Release);
        }
    }

    /// Where the hint of this serial number is, in the last table.
    #[inline]
    fn place(&self, serial: u32) -> Option<&AtomicPtr<u8>> {
        let table = NonNull::new(self.last.load(Ordering::Acquire))?.as_ptr();
        // SAFETY: a table that was ever the last is there until this is dropped, with its places
        // behind it.
        unsafe {
            let place = serial as usize & (*table).mask;
            Some(&*table.add(1).cast::<AtomicPtr<u8>>().add(place))
        }
    }

    /// How many places the last table has.
    pub fn len(&self) -> usize {
        match NonNull::new(self.last.load(Ordering::Relaxed)) {
            // SAFETY: as in `place`.
            Some(table) => unsafe { table.as_ref() }.mask + 1,
            None => 0,
        }
    }

    /// Makes a larger table, without hints, for so many spans, and says whether it did: if there
    /// are so many places, or no memory, it does not. Whoever has the lock does.
    pub fn grow(&self, spans: usize) -> bool {
        let len = spans.next_power_of_two().clamp(LEAST, MOST);
        if len <= self.len() {
            return false;
        }
        // SAFETY: a table has bytes, and lies as its layout says.
        #[allow(clippy::cast_ptr_alignment)]
        let table = unsafe { alloc_zeroed(Self::layout(len)) }.cast::<Table>();
        if table.is_null() {
            return false;
        }
        let older = self.last.load(Ordering::Relaxed);
        // SAFETY: nobody else has the table yet.
        unsafe {
            table.write(Table {
                older,
                mask: len - 1,
            });
        }
        self.last.store(table, Ordering::Release);
        true
    }

    fn layout(len: usize) -> Layout {
        let bytes = size_of::<Table>() + len * size_of::<AtomicPtr<u8>>();
        Layout::from_size_align(bytes, 16).expect("so few places have a layout")
    }
}

impl<T> Drop for Hints<T> {
    fn drop(&mut self) {
        let mut next = *self.last.get_mut();
        while let Some(table) = NonNull::new(next) {
            // SAFETY: `grow` took it with this layout, and nobody reads it any more.
            unsafe {
                let Table { older, mask } = table.as_ptr().read();
                next = older;
                dealloc(table.as_ptr().cast(), Self::layout(mask + 1));
            }
        }
    }
}
