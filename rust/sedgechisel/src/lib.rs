//! Both ends of the CCSDS telecommand link with COP-1, for programs without a heap: the FECF, telecommand frames, space
//! packets, CLCWs, telemetry frames, the receiver FARM-1, the sender FOP-1, packets in segments and packets in
//! telemetry frames. The feature `nodes` adds both nodes with their queues, and a simulated link; these need an
//! allocator. The standards are CCSDS 133.0-B-2 (space packets), 132.0-B-3 (telemetry), 232.0-B-4 (telecommand) and
//! 232.1-B-2 (COP-1).
//!
//! This crate provides safe types over the library for C. In the proved library each call is proved to do what its
//! contract states. The portable C that the crate compiles if it finds no library, and the crate itself, are tested,
//! not proved. Without `nodes` it allocates nothing, keeps no state of its own, and needs no `std`.
//!
//! - A codec is a type with `decode` and `encode`: [`TcFrame`], [`Packet`], [`Clcw`], [`TmFrame`]. A decoded value
//!   borrows its data from the octets.
//! - A machine is a type that `new` creates, with a call for each event: [`Farm`], [`Fop`], [`Map`], [`TmBuilder`],
//!   [`TmExtractor`].
//! - An [`Executor`] decides what a board executes next, at most once and in order over restarts; the
//!   ground has [`BoardStatus`], [`command_packet`], [`LogOrder`] and [`history_after`].
//! - A refused call returns an `Err` with a small enum of faults, which have the numbers and names of sedgechisel.h.
//!
//! ```
//! use sedgechisel::{Body, Farm, Fecf, SegmentFlags, TcFrame, Verdict};
//!
//! let octets = [0x00, 0x01, 0x08, 0x0e, 0x00, 0xc4, 0x10, 0x05, 0xc0, 0x00, 0x00, 0x00, 0xaa, 0xe7, 0x5d];
//! let mut farm = Farm::new(10, 0)?;
//! let frame = TcFrame::decode(&octets, Fecf::Present)?;
//! if let TcFrame { scid: 1, vcid: 2, body: Body::Ad { n, segment } } = frame {
//!     assert_eq!(farm.ad(n, true), Verdict::Accepted);
//!     assert_eq!((segment.flags, segment.map, segment.data.len()), (SegmentFlags::Alone, 4, 7));
//! }
//! assert_eq!(farm.control_word(frame.vcid)?.encode()?, [0x01, 0x08, 0x00, 0x01]);
//! # Ok::<(), Box<dyn std::error::Error>>(())
//! ```
//!
//! The enums of faults, of alerts and of what became of octets are `#[non_exhaustive]`: they may gain variants later.
//!
//! No call panics, unless the linked library is not the one that this crate was made for.
#![no_std]
#![cfg_attr(docsrs, feature(doc_cfg))]
#![deny(unsafe_code, missing_docs)]
#![warn(clippy::missing_errors_doc, clippy::undocumented_unsafe_blocks)]

#[cfg(feature = "nodes")]
extern crate alloc;
#[cfg(test)]
extern crate std;

#[macro_use]
mod directives;
#[macro_use]
mod numbers;

mod check;
mod clcw;
mod farm;
mod ffi;
mod fop;
mod log;
mod map;
mod memory;
#[cfg(feature = "nodes")]
mod nodes;
mod packet;
mod shown;
mod tc;
mod tm;
mod tm_packets;
mod version;

pub use check::{check, check_append, check_holds, CheckFault};
pub use clcw::{Clcw, ClcwFault};
pub use farm::{CopFault, Farm, FarmFields, FarmMode, Verdict};
pub use fop::{accepted_beyond, Alert, Control, Fop, FopFields, FopState, Next, Reported};
pub use log::{
    command_packet, history_after, BoardStatus, Due, Executor, LogAction, LogFault, LogOrder, LogPlace,
    LogRecord,
};
pub use map::{packets, segments, Dropped, Limits, Map, MapFault, Packets, Segments, Taken};
#[cfg_attr(docsrs, doc(cfg(feature = "nodes")))]
#[cfg(feature = "nodes")]
pub use nodes::{
    Begun, Commander, CommanderAction, CommanderDue, Config, Ground, Heard, HeardClcw, HeardReport,
    KeptGround, KeptNumbers, LedgerFault, Link, LinkFault, Mission, OpenFault, Parameter, Progress, Received,
    Record, SimFault, Spacecraft,
};
pub use packet::{GapCheck, Packet, PacketFault, PacketKind, SequenceFlags};
pub use tc::{Body, Command, Fecf, Segment, SegmentFlags, TcFault, TcFrame, TcFrames};
pub use tm::{Pointer, TmFault, TmFrame, TmFrames};
pub use tm_packets::{Extracted, TakenFrame, TakenFrames, TmBuilder, TmExtractor, TmPackets};
pub use version::{version, Version};
