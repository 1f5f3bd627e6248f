//! Boxes for which memory may be refused.

use crate::refused::Refused;
use std::alloc::{alloc, Layout};
use std::mem::{size_of, MaybeUninit};
use std::ops::{Deref, DerefMut};

/// Room for a value of this type.
pub(crate) fn room<T>() -> Result<Box<MaybeUninit<T>>, Refused> {
    if size_of::<T>() == 0 {
        return Ok(Box::new(MaybeUninit::uninit()));
    }
    // SAFETY: such a value has bytes.
    let at = unsafe { alloc(Layout::new::<T>()) }.cast::<MaybeUninit<T>>();
    if at.is_null() {
        return Err(Refused::OutOfMemory);
    }
    // SAFETY: the allocator gave it for this layout, and room needs no value.
    Ok(unsafe { Box::from_raw(at) })
}

/// The value in the room that was made for it.
// The box is what is asked for.
#[allow(clippy::unnecessary_box_returns)]
pub(crate) fn fill<T>(mut room: Box<MaybeUninit<T>>, value: T) -> Box<T> {
    room.write(value);
    // SAFETY: the value was just written there.
    unsafe { Box::from_raw(Box::into_raw(room).cast()) }
}

/// The value in a box of its own.
pub(crate) fn boxed<T>(value: T) -> Result<Box<T>, Refused> {
    Ok(fill(room()?, value))
}

/// A value in a box of its own, which is made when it is first needed.
pub(crate) struct Late<T>(Option<Box<T>>);

impl<T> Late<T> {
    pub const fn new() -> Late<T> {
        Late(None)
    }

    /// Makes the value, if there is none yet.
    pub fn make(&mut self, value: impl FnOnce() -> T) -> Result<&mut T, Refused> {
        match &mut self.0 {
            Some(made) => Ok(made),
            none => Ok(none.insert(boxed(value())?)),
        }
    }

    /// The value, if it was made.
    pub fn get(&self) -> Option<&T> {
        self.0.as_deref()
    }

    /// The value, to be changed, if it was made.
    pub fn get_mut(&mut self) -> Option<&mut T> {
        self.0.as_deref_mut()
    }
}

impl<T> Deref for Late<T> {
    type Target = T;

    fn deref(&self) -> &T {
        self.get().expect("the value was made")
    }
}

impl<T> DerefMut for Late<T> {
    fn deref_mut(&mut self) -> &mut T {
        self.get_mut().expect("the value was made")
    }
}
