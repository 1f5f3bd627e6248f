//! Pages of a shared slab: their slots, which stay for as long as there is the slab, and where the
//! values of these are.

use super::slot::Slot;
use crate::boxed;
use crate::refused::Refused;
use crate::values::Values;
use std::alloc::{alloc_zeroed, dealloc, Layout};
use std::marker::PhantomData;
use std::mem::{size_of, MaybeUninit};
use std::ptr::NonNull;

/// A page, by its address. Its slots are never freed before the slab, so that a thread may ask any
/// page that it ever heard of. The memory of its values may be given back while it has none.
pub(super) struct Page<T> {
    at: NonNull<Header>,
    values: PhantomData<*const T>,
}

/// What comes before the slots.
#[repr(C, align(16))]
struct Header {
    values: NonNull<u8>,
}

impl<T> Clone for Page<T> {
    fn clone(&self) -> Page<T> {
        *self
    }
}

impl<T> Copy for Page<T> {}

impl<T> PartialEq for Page<T> {
    fn eq(&self, other: &Page<T>) -> bool {
        self.at == other.at
    }
}

impl<T> Page<T> {
    /// How many slots it has.
    pub const SLOTS: usize = Values::<T>::SLOTS;

    /// How many bytes its values take, a multiple of what each is aligned to: so a block of them
    /// begins at such a multiple too.
    pub const VALUE_BYTES: usize = {
        let bytes = Self::SLOTS * Values::<T>::STORED.size();
        if bytes < 64 {
            64
        } else {
            bytes
        }
    };

    const LAYOUT: Layout = {
        let bytes = size_of::<Header>() + Self::SLOTS * size_of::<Slot>();
        match Layout::from_size_align(bytes, 16) {
            Ok(layout) => layout,
            Err(_) => panic!("so few slots have a layout"),
        }
    };

    /// The page at this address, which is that of one.
    pub fn of(at: NonNull<u8>) -> Page<T> {
        Page {
            at: at.cast(),
            values: PhantomData,
        }
    }

    /// Its address.
    pub fn address(self) -> NonNull<u8> {
        self.at.cast()
    }

    /// One of its slots, by a number below `SLOTS`.
    #[inline]
    pub fn slot<'p>(self, number: usize) -> &'p Slot {
        debug_assert!(number < Self::SLOTS);
        // SAFETY: so many slots stand behind the header, each of atomics, and zeros at first. They
        // are there for as long as the slab is, which each user of a page has or borrows.
        unsafe { &*self.at.as_ptr().add(1).cast::<Slot>().add(number) }
    }

    /// Where the value of a slot stands, or its address.
    #[inline]
    fn stored(self, number: usize) -> NonNull<u8> {
        // SAFETY: a page has a header, which is not written while others have the page, and so many
        // bytes for values there.
        unsafe {
            let values = (*self.at.as_ptr()).values.as_ptr();
            NonNull::new_unchecked(values.add(number * Values::<T>::STORED.size()))
        }
    }

    /// Where the value of a slot is.
    ///
    /// # Safety
    ///
    /// The slot has a value, and the caller has a pin of it, or it alone.
    #[inline]
    pub unsafe fn value(self, number: usize) -> NonNull<T> {
        if size_of::<T>() == 0 {
            NonNull::dangling()
        } else if Values::<T>::APART {
            self.stored(number).cast::<NonNull<T>>().as_ptr().read()
        } else {
            self.stored(number).cast()
        }
    }

    /// Leaves a value at a slot.
    ///
    /// # Safety
    ///
    /// The slot has no value, and the caller has it alone.
    #[inline]
    pub unsafe fn put(self, number: usize, value: Owned<T>) {
        match value {
            Owned::Here(value) => self.value(number).as_ptr().write(value),
            Owned::Apart(value) => {
                let at = NonNull::from(Box::leak(value));
                self.stored(number).cast::<NonNull<T>>().as_ptr().write(at);
            }
        }
    }

    /// Takes the value of a slot out.
    ///
    /// # Safety
    ///
    /// The slot has a value, the caller has it alone, and nobody takes the value from there again.
    #[inline]
    pub unsafe fn take(self, number: usize) -> Owned<T> {
        let value = self.value(number).as_ptr();
        if Values::<T>::APART {
            Owned::Apart(Box::from_raw(value))
        } else {
            Owned::Here(value.read())
        }
    }

    /// Copies the value of a slot to the same one of another page.
    ///
    /// # Safety
    ///
    /// The caller has both slots alone, the one here has a value that nobody takes from here any
    /// more, and the other has none.
    pub unsafe fn copy_value(self, number: usize, to: Page<T>) {
        let bytes = Values::<T>::STORED.size();
        let from = self.stored(number).as_ptr();
        to.stored(number)
            .as_ptr()
            .copy_from_nonoverlapping(from, bytes);
    }
}

/// A page that is freed with this.
pub(super) struct OwnedPage<T>(Page<T>);

impl<T> OwnedPage<T> {
    /// A page whose slots have no value, and whose values are nowhere yet.
    pub fn new() -> Result<OwnedPage<T>, Refused> {
        // SAFETY: the layout has bytes.
        let at =
            NonNull::new(unsafe { alloc_zeroed(Page::<T>::LAYOUT) }).ok_or(Refused::OutOfMemory)?;
        Ok(OwnedPage(Page::of(at)))
    }

    /// The page of values that stand here from now on. Nobody else has the page yet.
    pub fn with_values(self, at: NonNull<u8>) -> OwnedPage<T> {
        // SAFETY: the header is there, and nobody else reads it.
        unsafe { self.0.at.as_ptr().write(Header { values: at }) }
        self
    }

    pub fn page(&self) -> Page<T> {
        self.0
    }
}

impl<T> Drop for OwnedPage<T> {
    fn drop(&mut self) {
        // SAFETY: `new` took it with this layout, and whoever drops it has the slab alone.
        unsafe { dealloc(self.0.at.cast().as_ptr(), Page::<T>::LAYOUT) }
    }
}

/// A value that stands at no slot.
pub(super) enum Owned<T> {
    Here(T),
    /// One of a size or an alignment with which it stands in a block of its own.
    Apart(Box<T>),
}

impl<T> Owned<T> {
    pub fn into_value(self) -> T {
        match self {
            Owned::Here(value) => value,
            Owned::Apart(value) => *value,
        }
    }
}

/// Room for one value that is still to come.
pub(super) struct Room<T>(Option<Box<MaybeUninit<T>>>);

impl<T> Room<T> {
    #[inline]
    pub fn new() -> Result<Room<T>, Refused> {
        let room = Values::<T>::APART.then(boxed::room).transpose()?;
        Ok(Room(room))
    }

    #[inline]
    pub fn fill(self, value: T) -> Owned<T> {
        match self.0 {
            None => Owned::Here(value),
            Some(room) => Owned::Apart(boxed::fill(room, value)),
        }
    }
}
