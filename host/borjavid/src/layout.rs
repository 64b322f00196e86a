//! Whether the library that was linked keeps its memory as this package does.

use crate::raw;
use std::error::Error;
use std::fmt;

/// The number of the lent memory's layout that this package was written for. A layout that changes gets the next one.
pub const LAYOUT: u32 = 2;

/// The linked library has another layout: each would read the other's rows as something else.
#[derive(Clone, Copy, PartialEq, Eq, Debug)]
pub struct WrongLayout {
    /// The library's number.
    pub found: u32,
}

impl fmt::Display for WrongLayout {
    fn fmt(&self, out: &mut fmt::Formatter<'_>) -> fmt::Result {
        write!(
            out,
            "the linked library has memory layout {}, this package layout {LAYOUT}: link a library of the same version",
            self.found
        )
    }
}

impl Error for WrongLayout {}

/// Asks the library for its layout's number. [`Memory`](crate::Memory) does so when it is made; a host that lends memory of its own
/// asks once, before its first call.
pub fn check_layout() -> Result<(), WrongLayout> {
    match raw::layout() {
        LAYOUT => Ok(()),
        found => Err(WrongLayout { found }),
    }
}
