//! The managed parameters.

use super::{LedgerFault, LinkFault};
use crate::ffi::nodes as raw;
use core::fmt;

numbers! {
    /// The managed parameters, in the order of [`Config`].
    #[non_exhaustive]
    Parameter {
        /// `scid`.
        Scid = 1,
        /// `vcid`.
        Vcid = 2,
        /// `tm_vcid`.
        TmVcid = 3,
        /// `width`.
        Width = 4,
        /// `window`.
        Window = 5,
        /// `limit`.
        Limit = 6,
        /// `timer`.
        Timer = 7,
        /// `part`.
        Part = 8,
        /// `max_packet`.
        MaxPacket = 9,
        /// `maps`.
        Maps = 10,
        /// `ready_slots`.
        ReadySlots = 11,
        /// `bypass_slots`.
        BypassSlots = 12,
        /// `queue_slots`.
        QueueSlots = 13,
        /// `frame_length`.
        FrameLength = 14,
        /// `blocking`.
        Blocking = 15,
    }
}

impl Parameter {
    /// The parameter's name, which is that of its field.
    #[must_use]
    pub const fn name(self) -> &'static str {
        const NAMES: [&str; 15] = [
            "scid",
            "vcid",
            "tm_vcid",
            "width",
            "window",
            "limit",
            "timer",
            "part",
            "max_packet",
            "maps",
            "ready_slots",
            "bypass_slots",
            "queue_slots",
            "frame_length",
            "blocking",
        ];
        NAMES[self.number() as usize - 1]
    }

    /// The values that it may have, in words.
    #[must_use]
    pub const fn range(self) -> &'static str {
        const RANGES: [&str; 15] = [
            "0 to 1,023",
            "0 to 63",
            "0 to 7",
            "even, 2 to 254",
            "1 to width/2",
            "1 to 255",
            "1 to 65,535",
            "1 to 1,016",
            "7 to 65,542",
            "any 64 bits",
            "1 to 64",
            "1 to 64",
            "1 to 65,535",
            "16 to 2,048",
            "0 to 1",
        ];
        RANGES[self.number() as usize - 1]
    }
}

/// The managed parameters, with the ranges and the defaults of docs/PROFILE.md. Both ends of a link have the same
/// `scid`, `vcid`, `tm_vcid`, `width`, `max_packet`, `maps`, `frame_length` and `blocking`. Of the others, only the
/// ground uses `window`, `limit`, `timer`, `part` and `queue_slots`, and only the spacecraft uses `ready_slots` and
/// `bypass_slots`. End a literal with `..Config::default()`, so that it still compiles when a parameter is added.
///
/// ```
/// use sedgechisel::{Config, Parameter};
///
/// let config = Config { window: 4, timer: 3, ..Config::default() };
/// assert_eq!(config.fault(), None);
/// assert_eq!(Config { width: 9, ..config }.fault(), Some(Parameter::Width));
/// ```
#[derive(Clone, Copy, Debug, PartialEq, Eq, Hash)]
pub struct Config {
    /// The spacecraft identifier, 0 to 1,023; default 1.
    pub scid: u16,
    /// The virtual channel of telecommand frames, 0 to 63; default 2.
    pub vcid: u8,
    /// The virtual channel of telemetry frames, 0 to 7; default 0.
    pub tm_vcid: u8,
    /// The width of the receiver's window, even, 2 to 254; default 254.
    pub width: u8,
    /// The sender's window K, 1 to width/2; default 127.
    pub window: u8,
    /// The transmission limit, 1 to 255; default 3.
    pub limit: u8,
    /// The timer's value in ticks, 1 to 65,535; default 10.
    pub timer: u16,
    /// The maximum number of data octets in a segment. Without silence before an initiation, segments of two longer
    /// packets can be joined into a command that nobody submitted. Range 1 to 1,016; default 1,016.
    pub part: u16,
    /// The maximum length of a packet in octets, 7 to 65,542; default 65,542.
    pub max_packet: u32,
    /// The open MAPs, any 64 bits: bit m, of value 2 to the power of m, is 1 if MAP m is open; default all ones.
    pub maps: u64,
    /// The number of packets waiting to be taken at which the buffer on board is full, 1 to 64; default 64.
    pub ready_slots: u8,
    /// The maximum number of bypass packets that wait to be taken, 1 to 64; default 4.
    pub bypass_slots: u8,
    /// The maximum number of units that wait to be sent for the first time, 1 to 65,535; default 1,000.
    pub queue_slots: u16,
    /// The length of a telemetry frame in octets, 16 to 2,048; default 64.
    pub frame_length: u16,
    /// 1 if a segment may contain several packets, 0 to 1; default 0.
    pub blocking: bool,
}

/// The parameters as the library has them: `struct sedge_config`.
#[repr(C)]
#[derive(Clone, Copy, Debug, Default, PartialEq, Eq)]
pub struct Raw {
    pub scid: u32,
    pub vcid: u32,
    pub tm_vcid: u32,
    pub width: u32,
    pub window: u32,
    pub limit: u32,
    pub timer: u32,
    pub part: u32,
    pub max_packet: u32,
    pub maps: u64,
    pub ready_slots: u32,
    pub bypass_slots: u32,
    pub queue_slots: u32,
    pub frame_length: u32,
    pub blocking: u32,
}

impl Default for Config {
    fn default() -> Self {
        Self {
            scid: 1,
            vcid: 2,
            tm_vcid: 0,
            width: 254,
            window: 127,
            limit: 3,
            timer: 10,
            part: 1016,
            max_packet: 65542,
            maps: u64::MAX,
            ready_slots: 64,
            bypass_slots: 4,
            queue_slots: 1000,
            frame_length: 64,
            blocking: false,
        }
    }
}

impl Config {
    /// Returns the first parameter that is out of range, if there is one.
    #[must_use]
    pub fn fault(&self) -> Option<Parameter> {
        match raw::sedge_config_fault(&self.raw()) {
            raw::SEDGE_NO_PARAMETER => None,
            number => Some(Parameter::of(number)),
        }
    }

    pub(super) fn raw(&self) -> Raw {
        Raw {
            scid: self.scid.into(),
            vcid: self.vcid.into(),
            tm_vcid: self.tm_vcid.into(),
            width: self.width.into(),
            window: self.window.into(),
            limit: self.limit.into(),
            timer: self.timer.into(),
            part: self.part.into(),
            max_packet: self.max_packet,
            maps: self.maps,
            ready_slots: self.ready_slots.into(),
            bypass_slots: self.bypass_slots.into(),
            queue_slots: self.queue_slots.into(),
            frame_length: self.frame_length.into(),
            blocking: self.blocking.into(),
        }
    }

    /// The result of a call that opens with this configuration.
    pub(super) fn judge(&self, answer: u8) -> Result<(), OpenFault> {
        match self.fault() {
            Some(parameter) => Err(OpenFault::OutOfRange(parameter)),
            None => super::in_memory(answer).map_err(OpenFault::from),
        }
    }
}

/// Why a node is not opened.
#[derive(Clone, Copy, Debug, PartialEq, Eq, Hash)]
#[non_exhaustive]
pub enum OpenFault {
    /// The first parameter that is out of range.
    OutOfRange(Parameter),
    /// FARM-B in the kept numbers is above 3.
    FarmB,
    /// No ground of this configuration writes this record.
    Kept,
    /// Memory ran out.
    Memory,
    /// A commander is not opened: 3 [`FieldRange`](LedgerFault::FieldRange), 4 [`TooLong`](LedgerFault::TooLong) or 9
    /// [`Memory`](LedgerFault::Memory).
    Ledger(LedgerFault),
}

impl From<LinkFault> for OpenFault {
    fn from(_: LinkFault) -> Self {
        Self::Memory
    }
}

impl From<LedgerFault> for OpenFault {
    fn from(fault: LedgerFault) -> Self {
        Self::Ledger(fault)
    }
}

impl fmt::Display for OpenFault {
    fn fmt(&self, out: &mut fmt::Formatter<'_>) -> fmt::Result {
        match self {
            Self::OutOfRange(it) => write!(out, "{} {}: its range is {}", it.number(), it.name(), it.range()),
            Self::FarmB => out.write_str("FARM-B is not 0 to 3"),
            Self::Kept => out.write_str("no ground of this configuration gives this record"),
            Self::Memory => fmt::Display::fmt(&LinkFault::Memory, out),
            Self::Ledger(fault) => fmt::Display::fmt(fault, out),
        }
    }
}

impl core::error::Error for OpenFault {}
