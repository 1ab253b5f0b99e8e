//! The version of the library.

use crate::ffi;
use core::fmt;

/// The version of the library that is linked, as three numbers with points between them.
#[derive(Clone, Copy)]
pub struct Version(ffi::Text);

/// The version of the library that is linked.
#[must_use]
pub fn version() -> Version {
    Version(ffi::sedge_version())
}

impl Version {
    /// The version as text, such as `0.3.0`.
    #[must_use]
    pub fn as_str(&self) -> &str {
        self.0.as_str()
    }
}

impl fmt::Display for Version {
    fn fmt(&self, out: &mut fmt::Formatter<'_>) -> fmt::Result {
        out.pad(self.as_str())
    }
}

impl fmt::Debug for Version {
    fn fmt(&self, out: &mut fmt::Formatter<'_>) -> fmt::Result {
        fmt::Display::fmt(self, out)
    }
}
