//! Why a call of a set manager fails, beside the errors that are generated.

use super::RequestError;
use crate::{AllocationError, SetLayout};
use core::error::Error;
use core::fmt;

/// An allocation for a layout failed. The error has the layout.
pub struct AddLayoutError<L>(pub(super) SetLayout<L>);

impl<L> AddLayoutError<L> {
    /// The layout that was not added.
    #[must_use]
    pub fn into_inner(self) -> SetLayout<L> {
        self.0
    }
}

impl<L> fmt::Debug for AddLayoutError<L> {
    fn fmt(&self, f: &mut fmt::Formatter<'_>) -> fmt::Result {
        f.write_str("AddLayoutError(..)")
    }
}

impl<L> fmt::Display for AddLayoutError<L> {
    fn fmt(&self, f: &mut fmt::Formatter<'_>) -> fmt::Result {
        f.write_str("Host memory exhausted")
    }
}

impl<L> Error for AddLayoutError<L> {}

/// Why no layout was removed.
#[derive(Clone, Copy, Debug, PartialEq, Eq)]
#[non_exhaustive]
pub enum RemoveLayoutError {
    /// The handle is of no layout of the set manager.
    NoLayout,
}

impl fmt::Display for RemoveLayoutError {
    fn fmt(&self, f: &mut fmt::Formatter<'_>) -> fmt::Result {
        match self {
            RemoveLayoutError::NoLayout => f.write_str("Unknown layout"),
        }
    }
}

impl Error for RemoveLayoutError {}

impl From<AllocationError> for RequestError {
    fn from(error: AllocationError) -> Self {
        RequestError::Allocation(error)
    }
}
