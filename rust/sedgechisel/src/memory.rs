//! The memory of a type that keeps octets: lent by its caller, or with the feature `nodes` its own.

#[cfg(feature = "nodes")]
use alloc::vec::Vec;
use core::ops::{Deref, DerefMut};

/// Octets that are lent, or owned.
#[derive(Debug)]
pub(crate) enum Memory<'m> {
    Lent(&'m mut [u8]),
    #[cfg(feature = "nodes")]
    Own(Vec<u8>),
}

#[cfg(feature = "nodes")]
impl Memory<'_> {
    /// Memory of this many octets, if there is enough.
    pub(crate) fn own(room: usize) -> Option<Self> {
        crate::nodes::room_for(room).map(Self::Own)
    }
}

impl Deref for Memory<'_> {
    type Target = [u8];

    fn deref(&self) -> &[u8] {
        match self {
            Self::Lent(octets) => octets,
            #[cfg(feature = "nodes")]
            Self::Own(octets) => octets,
        }
    }
}

impl DerefMut for Memory<'_> {
    fn deref_mut(&mut self) -> &mut [u8] {
        match self {
            Self::Lent(octets) => octets,
            #[cfg(feature = "nodes")]
            Self::Own(octets) => octets,
        }
    }
}
