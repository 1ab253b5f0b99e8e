//! Both nodes of the telecommand link, over the program's allocator (feature `nodes`).

#[macro_use]
mod readings;

mod commander;
mod config;
mod ground;
mod link;
mod spacecraft;

pub use commander::{Commander, CommanderAction, CommanderDue, LedgerFault, Mission, Progress};
pub(crate) use config::Raw;
pub use config::{Config, OpenFault, Parameter};
pub use ground::{Ground, Heard, HeardClcw, HeardReport, KeptGround};
pub use link::{Begun, Link, Record, SimFault};
pub use spacecraft::{KeptNumbers, Received, Spacecraft};

use crate::ffi;
use crate::numbers::{done, never};
use alloc::vec::Vec;
use core::iter::{from_fn, FusedIterator};

faults! {
    /// Why a node refuses a call; nothing has changed then.
    LinkFault {
        NotOpen = 1, "the sender is in its state Initial (S6)";
        ClosedMap = 2, "the MAP is not open";
        NotCommand = 3, "the octets are not command packets, or are more of them than one call takes";
        TooLong = 4, "a packet has more octets than it may have";
        QueueFull = 5, "the queue has too few free slots for the units";
        Memory = 6, "out of memory";
        NotKnown = 10, "nothing is known of how far the session has come";
    }
}

/// A buffer for a number of octets, if there is memory for it.
pub(crate) fn room_for(count: usize) -> Option<Vec<u8>> {
    let mut room = Vec::new();
    room.try_reserve_exact(count).ok()?;
    room.resize(count, 0);
    Some(room)
}

/// Takes a packet of `count` octets out of a node. Returns `None` if the count is 0. Calls `take` only if there is
/// memory for the packet.
fn taken(count: usize, take: impl FnOnce(&mut [u8], &mut usize) -> u8) -> Result<Option<Vec<u8>>, LinkFault> {
    if count == 0 {
        return Ok(None);
    }
    let (mut packet, mut written) = (room_for(count).ok_or(LinkFault::Memory)?, 0);
    done(take(&mut packet, &mut written));
    Ok(Some(packet))
}

/// Yields what a call takes out of a node, one item on each request, until none is left. A refusal is the last item.
fn one_by_one<'n, T: 'n>(
    mut take: impl FnMut() -> Result<Option<T>, LinkFault> + 'n,
) -> impl FusedIterator<Item = Result<T, LinkFault>> + 'n {
    let mut is_refused = false;
    let next = move || {
        if is_refused {
            return None;
        }
        let one = take();
        is_refused = one.is_err();
        one.transpose()
    };
    from_fn(next).fuse()
}

/// Judges the result of a call that can be refused only because memory runs out.
fn in_memory(answer: u8) -> Result<(), LinkFault> {
    match answer {
        ffi::SEDGE_OK => Ok(()),
        number => match LinkFault::from_number(number) {
            Some(LinkFault::Memory) => Err(LinkFault::Memory),
            _ => never(),
        },
    }
}

#[cfg(test)]
mod tests {
    use super::*;

    /// Each number has the same name here as in the library, or no name if the library has none.
    #[test]
    fn names_are_those_of_the_library_of_nodes() {
        for it in 0..=u8::MAX {
            let word = ffi::nodes::sedge_link_fault_name(it);
            assert_eq!(LinkFault::from_number(it).map_or("?", LinkFault::name), word.as_str());
            let word = ffi::nodes::sedge_sim_fault_name(it);
            assert_eq!(SimFault::from_number(it).map_or("?", SimFault::name), word.as_str());
            let word = ffi::nodes::sedge_parameter_name(it);
            assert_eq!(Parameter::from_number(it).map_or("?", Parameter::name), word.as_str());
            let word = ffi::nodes::sedge_ledger_fault_name(it);
            assert_eq!(LedgerFault::from_number(it).map_or("?", LedgerFault::name), word.as_str());
        }
    }

    #[test]
    fn defaults_are_those_of_the_library_of_nodes() {
        let mut written = Raw { tm_vcid: 1, blocking: 1, ..Raw::default() };
        ffi::nodes::sedge_config_default(&mut written);
        assert_eq!(written, Config::default().raw());
    }
}
