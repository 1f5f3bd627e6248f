//! Values of a shared slab that are lent, and entries of it that wait for their values.

use super::page::{Page, Room};
use super::table::slot_of;
use super::SharedSlab;
use crate::names::Key;
use std::fmt;
use std::mem::ManuallyDrop;
use std::ops::Deref;
use std::ptr::{self, NonNull};
use std::sync::Arc;

/// A value that is pinned, under its key: what all guards have.
pub(super) struct Pinned<T> {
    value: NonNull<T>,
    page: Page<T>,
    key: Key,
}

impl<T> Clone for Pinned<T> {
    fn clone(&self) -> Pinned<T> {
        *self
    }
}

impl<T> Copy for Pinned<T> {}

impl<T> Pinned<T> {
    /// # Safety
    ///
    /// The value of the key stands at its slot of the page, and is pinned for whoever has this.
    #[inline]
    pub unsafe fn new(page: Page<T>, key: Key) -> Pinned<T> {
        let value = page.value(slot_of(key));
        Pinned { value, page, key }
    }

    pub fn page(self) -> Page<T> {
        self.page
    }

    pub fn key(self) -> Key {
        self.key
    }
}

/// A value that is lent: of [`SharedSlab::get`].
///
/// As long as it is there, the value stays, also when its key is removed, and no compaction moves
/// it. The last one that is dropped drops a value that was removed meanwhile. One that is forgotten
/// ([`std::mem::forget`]) keeps its value until the slab is dropped.
#[must_use = "the value is pinned until this is dropped"]
pub struct Entry<'s, T> {
    slab: &'s SharedSlab<T>,
    pinned: Pinned<T>,
}

// SAFETY: it lends a `&T`, which needs `T: Sync`; and where it is dropped a removed value may be
// too, which needs `T: Send`.
unsafe impl<T: Send + Sync> Send for Entry<'_, T> {}
// SAFETY: through `&Entry` only a `&T` is lent.
unsafe impl<T: Send + Sync> Sync for Entry<'_, T> {}

impl<'s, T> Entry<'s, T> {
    #[inline]
    pub(super) fn new(slab: &'s SharedSlab<T>, pinned: Pinned<T>) -> Entry<'s, T> {
        Entry { slab, pinned }
    }

    /// The key under which it was found.
    #[must_use]
    pub fn key(&self) -> Key {
        self.pinned.key
    }

    /// The same with a share of the slab, so that it borrows nothing.
    ///
    /// # Panics
    ///
    /// Where the value is of another slab.
    pub fn into_owned(self, slab: &Arc<SharedSlab<T>>) -> OwnedEntry<T> {
        assert!(ptr::eq(self.slab, &**slab), "the value is of another slab");
        // The pin goes on.
        let entry = ManuallyDrop::new(self);
        OwnedEntry::new(Arc::clone(slab), entry.pinned)
    }
}

impl<T> Deref for Entry<'_, T> {
    type Target = T;

    #[inline]
    fn deref(&self) -> &T {
        // SAFETY: the value is pinned until this is dropped, and nobody has it to be changed.
        unsafe { self.pinned.value.as_ref() }
    }
}

impl<T> Drop for Entry<'_, T> {
    #[inline]
    fn drop(&mut self) {
        self.slab.let_go(self.pinned);
    }
}

/// A value that is lent, with the slab, which is there for as long as this is: of
/// [`SharedSlab::get_owned`]. Beside that it is as an [`Entry`].
#[must_use = "the value is pinned until this is dropped"]
pub struct OwnedEntry<T> {
    slab: Arc<SharedSlab<T>>,
    pinned: Pinned<T>,
}

// SAFETY: as of `Entry`; and the slab itself may be dropped with it, which `T: Send` allows.
unsafe impl<T: Send + Sync> Send for OwnedEntry<T> {}
// SAFETY: as of `Entry`.
unsafe impl<T: Send + Sync> Sync for OwnedEntry<T> {}

impl<T> OwnedEntry<T> {
    pub(super) fn new(slab: Arc<SharedSlab<T>>, pinned: Pinned<T>) -> OwnedEntry<T> {
        OwnedEntry { slab, pinned }
    }

    /// The key under which it was found.
    #[must_use]
    pub fn key(&self) -> Key {
        self.pinned.key
    }
}

impl<T> Deref for OwnedEntry<T> {
    type Target = T;

    #[inline]
    fn deref(&self) -> &T {
        // SAFETY: as of `Entry`.
        unsafe { self.pinned.value.as_ref() }
    }
}

impl<T> Drop for OwnedEntry<T> {
    fn drop(&mut self) {
        self.slab.let_go(self.pinned);
    }
}

/// What is said of the guards by the value that they lend.
macro_rules! as_the_value {
    ($($guard:ty;)*) => {$(
        impl<T: fmt::Debug> fmt::Debug for $guard {
            fn fmt(&self, f: &mut fmt::Formatter<'_>) -> fmt::Result {
                T::fmt(self, f)
            }
        }

        impl<T: fmt::Display> fmt::Display for $guard {
            fn fmt(&self, f: &mut fmt::Formatter<'_>) -> fmt::Result {
                T::fmt(self, f)
            }
        }

        impl<T: PartialEq> PartialEq<T> for $guard {
            fn eq(&self, other: &T) -> bool {
                **self == *other
            }
        }

        impl<T> AsRef<T> for $guard {
            fn as_ref(&self) -> &T {
                self
            }
        }
    )*};
}

as_the_value! {
    Entry<'_, T>;
    OwnedEntry<T>;
}

/// A key whose value is still to come: of [`SharedSlab::vacant_entry`]. Other threads find nothing
/// under the key until then.
///
/// Where it is dropped without a value, the key finds nothing, now and for ever: it has used up a
/// generation of its slot. One that is forgotten keeps its slot until the slab is dropped.
#[must_use = "an entry that is dropped uses up a key"]
pub struct VacantEntry<'s, T> {
    slab: &'s SharedSlab<T>,
    page: Page<T>,
    key: Key,
    // Until the value comes.
    room: ManuallyDrop<Room<T>>,
}

// SAFETY: a value that is put into it becomes the slab's, as of `SharedSlab::insert`, which any
// thread may call that has the slab shared.
unsafe impl<T: Send + Sync> Send for VacantEntry<'_, T> {}
// SAFETY: through `&VacantEntry` only the key is read.
unsafe impl<T: Send + Sync> Sync for VacantEntry<'_, T> {}

impl<'s, T> VacantEntry<'s, T> {
    /// The entry of a key of the slab, whose slot is closed and has no value.
    #[inline]
    pub(super) fn new(
        slab: &'s SharedSlab<T>,
        page: Page<T>,
        key: Key,
        room: Room<T>,
    ) -> VacantEntry<'s, T> {
        let room = ManuallyDrop::new(room);
        VacantEntry {
            slab,
            page,
            key,
            room,
        }
    }

    /// The key that the value will have.
    #[must_use]
    pub fn key(&self) -> Key {
        self.key
    }

    /// A value that was [cleared](SharedSlab::clear) before or, where there is none, a default one:
    /// to become the value of this entry.
    pub fn spare_or_default(&self) -> T
    where
        T: Default,
    {
        self.slab.spare(self.key).unwrap_or_default()
    }

    /// Keeps the value, which all threads find from now on.
    #[inline]
    pub fn insert(self, value: T) {
        let mut entry = ManuallyDrop::new(self);
        // SAFETY: neither this nor `drop`, which does not run, takes the room again.
        let room = unsafe { ManuallyDrop::take(&mut entry.room) };
        let slot = slot_of(entry.key);
        // SAFETY: the slot is closed and has no value, and this entry has it alone.
        unsafe { entry.page.put(slot, room.fill(value)) }
        entry.page.slot(slot).open();
    }

    /// Keeps the value, and lends it.
    pub fn insert_entry(self, value: T) -> Entry<'s, T> {
        let mut entry = ManuallyDrop::new(self);
        // SAFETY: as in `insert`.
        let room = unsafe { ManuallyDrop::take(&mut entry.room) };
        let slot = slot_of(entry.key);
        // SAFETY: as in `insert`.
        unsafe { entry.page.put(slot, room.fill(value)) }
        entry.page.slot(slot).open_pinned();
        // SAFETY: the value was just put there and pinned.
        Entry::new(entry.slab, unsafe { Pinned::new(entry.page, entry.key) })
    }
}

impl<T> Drop for VacantEntry<'_, T> {
    fn drop(&mut self) {
        self.slab.vacate(self.key);
        // SAFETY: nobody has taken it, and nobody will.
        unsafe { ManuallyDrop::drop(&mut self.room) }
    }
}

impl<T> fmt::Debug for VacantEntry<'_, T> {
    fn fmt(&self, f: &mut fmt::Formatter<'_>) -> fmt::Result {
        f.debug_struct("VacantEntry")
            .field("key", &self.key)
            .finish_non_exhaustive()
    }
}
