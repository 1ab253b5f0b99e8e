//! Space packets of 7 to 65,542 octets (CCSDS 133.0-B-2, 4.1).

use crate::ffi;
use core::fmt;

faults! {
    /// Why a space packet is refused (CCSDS 133.0-B-2).
    PacketFault {
        Truncated = 1, "fewer than the 6 octets of the header, or fewer than it declares";
        Version = 2, "the version number is not 000 (4.1.3.2)";
        IdleWithSecondary = 3, "an idle packet with a secondary header (4.1.3.3.3)";
        Room = 4, "there is too little room for the packet";
        FieldRange = 5, "a field out of range, no data or more than 65,536 octets of them, or an idle packet with a \
            secondary header";
    }
}

numbers! {
    /// The packet type (CCSDS 133.0-B-2, 4.1.3.3.2).
    PacketKind {
        /// A telemetry packet.
        Telemetry = 0,
        /// A telecommand packet.
        Telecommand = 1,
    }
}

numbers! {
    /// The sequence flags (CCSDS 133.0-B-2, 4.1.3.4.2).
    SequenceFlags {
        /// A continuation of user data.
        Continuation = 0,
        /// The first part of user data.
        First = 1,
        /// The last part of user data.
        Last = 2,
        /// Unsegmented user data.
        Unsegmented = 3,
    }
}

/// A space packet of 7 to 65,542 octets (CCSDS 133.0-B-2, 4.1).
#[derive(Clone, Copy, Debug, PartialEq, Eq, Hash)]
pub struct Packet<'a> {
    /// The packet type.
    pub kind: PacketKind,
    /// Whether the data field begins with a secondary header (4.1.3.3.3).
    pub secondary: bool,
    /// The application process identifier, below 2,048; idle packets have 2,047 (4.1.3.3.4).
    pub apid: u16,
    /// The sequence flags.
    pub flags: SequenceFlags,
    /// The sequence count or the packet's name, below 16,384 (4.1.3.4.3).
    pub count: u16,
    /// The data field, 1 to 65,536 octets.
    pub data: &'a [u8],
}

impl<'a> Packet<'a> {
    /// The maximum length of a packet in octets.
    pub const LONGEST: usize = 65_542;

    /// Reads the packet at the beginning of the octets. The packet ends where its data end, and octets after it are
    /// ignored.
    ///
    /// # Errors
    ///
    /// Refused with the first of [`PacketFault`] 1 to 3 (1 [`Truncated`](PacketFault::Truncated) for fewer octets than
    /// declared comes last).
    pub fn decode(octets: &'a [u8]) -> Result<Self, PacketFault> {
        let (mut packet, mut part) = (ffi::Packet::default(), ffi::Part::default());
        PacketFault::judge(ffi::packet_decode(octets, &mut packet, &mut part))?;
        Ok(Self {
            kind: PacketKind::of(packet.kind),
            secondary: packet.secondary != 0,
            apid: packet.apid,
            flags: SequenceFlags::of(packet.flags),
            count: packet.count,
            data: part.of(octets),
        })
    }

    /// Writes the packet to the beginning of `out`, and returns its octets, 6 more than its data.
    ///
    /// # Errors
    ///
    /// Refused with the first of 5 [`FieldRange`](PacketFault::FieldRange) and 4 [`Room`](PacketFault::Room), with
    /// nothing written.
    pub fn encode<'o>(&self, out: &'o mut [u8]) -> Result<&'o mut [u8], PacketFault> {
        let packet = ffi::Packet {
            apid: self.apid,
            count: self.count,
            kind: self.kind.number(),
            secondary: self.secondary.into(),
            flags: self.flags.number(),
        };
        let mut total = 0;
        PacketFault::judge(ffi::packet_encode(&packet, self.data, out, &mut total))?;
        Ok(&mut out[..total])
    }

    /// Returns the length in octets of the packet that begins with these octets, from its first 6 octets only; use it
    /// to cut a stream (CCSDS 133.0-B-2, 4.1.3.5).
    ///
    /// # Errors
    ///
    /// Refused with 1 [`Truncated`](PacketFault::Truncated) for fewer than 6 octets, or 2
    /// [`Version`](PacketFault::Version), or 3 [`IdleWithSecondary`](PacketFault::IdleWithSecondary).
    pub fn declared(octets: &[u8]) -> Result<usize, PacketFault> {
        let mut total = 0;
        PacketFault::judge(ffi::packet_declared(octets, &mut total))?;
        Ok(total)
    }
}

/// A check of the sequence counts of all application processes, which shows missing packets (CCSDS 133.0-B-2,
/// 4.1.3.4.3). It has 4,096 octets.
///
/// ```
/// use sedgechisel::{GapCheck, PacketFault};
///
/// let mut gaps = GapCheck::new();
/// assert_eq!([0, 1, 3, 3].map(|count| gaps.see(5, count)), [Ok(None), Ok(Some(0)), Ok(Some(1)), Ok(Some(16383))]);
/// assert_eq!(gaps.see(2048, 0), Err(PacketFault::FieldRange));
/// ```
#[derive(Clone)]
pub struct GapCheck(ffi::GapCheck);

impl GapCheck {
    /// Begins a check that has seen no packet.
    #[must_use]
    pub fn new() -> Self {
        let mut check = ffi::GapCheck { last: [0; 2048] };
        ffi::sedge_gap_check_open(&mut check);
        Self(check)
    }

    /// Records a packet of this APID with this count. Returns the number of packets missing before it, (count - last -
    /// 1) modulo 16,384, or `None` for the first packet of its APID.
    ///
    /// # Errors
    ///
    /// Refused with 5 [`FieldRange`](PacketFault::FieldRange), for an APID above 2,047 or a count above 16,383; nothing
    /// is recorded then.
    pub fn see(&mut self, apid: u16, count: u16) -> Result<Option<u16>, PacketFault> {
        let mut missing = 0;
        match ffi::sedge_gap_check_see(&mut self.0, apid, count, &mut missing) {
            ffi::SEDGE_ABSENT => Ok(None),
            answer => PacketFault::judge(answer).map(|()| Some(missing)),
        }
    }
}

impl Default for GapCheck {
    fn default() -> Self {
        Self::new()
    }
}

/// The number of application processes whose packets were seen.
impl fmt::Debug for GapCheck {
    fn fmt(&self, out: &mut fmt::Formatter<'_>) -> fmt::Result {
        let seen = self.0.last.iter().filter(|last| **last < 16384).count();
        out.debug_struct("GapCheck").field("seen", &seen).finish_non_exhaustive()
    }
}
