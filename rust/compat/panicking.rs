//! What the tests of panics in stand-ins for one thread share.

use std::cell::Cell;
use std::panic::{catch_unwind, AssertUnwindSafe};
use std::rc::Rc;

/// A value that panics as it is dropped, if it is to. How many were dropped is counted.
#[derive(Debug)]
pub struct Panics(pub bool, pub Rc<Cell<usize>>);

impl Drop for Panics {
    fn drop(&mut self) {
        self.1.set(self.1.get() + 1);
        assert!(!self.0, "as it should");
    }
}

/// Whether the call panics.
pub fn panics(call: impl FnOnce()) -> bool {
    catch_unwind(AssertUnwindSafe(call)).is_err()
}
