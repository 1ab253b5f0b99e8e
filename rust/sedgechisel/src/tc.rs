//! Telecommand transfer frames of at most 1,024 octets (CCSDS 232.0-B-4, 4.1), with or without their FECF.

use crate::ffi;
use crate::numbers::never;
use core::iter::FusedIterator;

faults! {
    /// Why a telecommand frame is refused (CCSDS 232.0-B-4).
    TcFault {
        Short = 1, "fewer than the 5 octets of the header";
        Version = 2, "the version number is not 00 (4.1.2.2)";
        ReservedType = 3, "the control command flag without the bypass flag (4.1.2.3)";
        Spare = 4, "the spare bits are not 00 (4.1.2.4)";
        Length = 5, "the declared total is not the number of octets, or is too small (4.1.2.7)";
        Check = 6, "the last two octets are not the check of those before them (4.1.4)";
        BypassNumber = 7, "a frame with the bypass flag has a number other than 0 (4.1.2.8)";
        EmptyData = 8, "no octet in the data field, or only a segment header";
        Command = 9, "the data of a control frame are neither Unlock nor Set V(R) (4.1.3.3)";
        Room = 10, "there is too little room for the frame";
        FieldRange = 11, "a field out of range, no data, or more than 1,024 octets";
    }
}

numbers! {
    /// The position of a segment in what it is a part of (CCSDS 232.0-B-4, 4.1.3.2.2.2).
    SegmentFlags {
        /// Neither the first nor the last.
        Continuing = 0,
        /// The first of several.
        First = 1,
        /// The last of several.
        Last = 2,
        /// The only one.
        Alone = 3,
    }
}

/// Whether a telecommand frame ends with its FECF, the frame error control field (CCSDS 232.0-B-4, 4.1.4).
#[derive(Clone, Copy, Debug, PartialEq, Eq, Hash)]
pub enum Fecf {
    /// The frame ends with these two octets.
    Present,
    /// The frame has no FECF.
    Absent,
}

/// `true` is [`Present`](Fecf::Present). This conversion is for calls written before [`Fecf`] existed, and will be
/// removed.
impl From<bool> for Fecf {
    fn from(is_present: bool) -> Self {
        if is_present {
            Self::Present
        } else {
            Self::Absent
        }
    }
}

/// A segment: its header, and the data after it (CCSDS 232.0-B-4, 4.1.3.2.2).
#[derive(Clone, Copy, Debug, PartialEq, Eq, Hash)]
pub struct Segment<'a> {
    /// Its position in the packet.
    pub flags: SegmentFlags,
    /// The MAP identifier, below 64.
    pub map: u8,
    /// The data after the segment header, at least one octet.
    pub data: &'a [u8],
}

/// The control commands (CCSDS 232.0-B-4, 4.1.3.3).
#[derive(Clone, Copy, Debug, PartialEq, Eq, Hash)]
pub enum Command {
    /// End a lockout: the octet 00.
    Unlock,
    /// Expect this number next: the octets 82 00 and the number.
    SetVr(u8),
}

/// What a frame carries, by its type (CCSDS 232.0-B-4, 4.1.2.3).
#[derive(Clone, Copy, Debug, PartialEq, Eq, Hash)]
pub enum Body<'a> {
    /// Sequence-controlled data, with the sequence number N(S).
    Ad {
        /// The sequence number N(S).
        n: u8,
        /// The data field.
        segment: Segment<'a>,
    },
    /// Data that bypass the sequence control.
    Bd {
        /// The data field.
        segment: Segment<'a>,
    },
    /// A control command, which bypasses it too.
    Bc(Command),
}

/// A telecommand transfer frame of at most 1,024 octets (CCSDS 232.0-B-4, 4.1).
#[derive(Clone, Copy, Debug, PartialEq, Eq, Hash)]
pub struct TcFrame<'a> {
    /// The spacecraft identifier, below 1,024.
    pub scid: u16,
    /// The virtual channel identifier, below 64.
    pub vcid: u8,
    /// The frame's type, and what it carries.
    pub body: Body<'a>,
}

impl<'a> TcFrame<'a> {
    /// The maximum length of a frame in octets.
    pub const LONGEST: usize = 1024;

    /// Reads all of the octets as one frame, with or without its FECF: `decode(octets, Fecf::Present)`.
    ///
    /// # Errors
    ///
    /// Refused with the first of [`TcFault`] 1 to 9.
    pub fn decode(octets: &'a [u8], fecf: impl Into<Fecf>) -> Result<Self, TcFault> {
        let (mut frame, mut part) = (ffi::TcFrame::default(), ffi::Part::default());
        TcFault::judge(ffi::tc_decode(octets, fecf.into().is_present(), &mut frame, &mut part))?;
        let segment =
            || Segment { flags: SegmentFlags::of(frame.flags), map: frame.map, data: part.of(octets) };
        let body = match frame.kind {
            ffi::SEDGE_TC_AD => Body::Ad { n: frame.n, segment: segment() },
            ffi::SEDGE_TC_BD => Body::Bd { segment: segment() },
            ffi::SEDGE_TC_BC => Body::Bc(Command::from_raw(frame.command, frame.vr)),
            _ => never(),
        };
        Ok(Self { scid: frame.scid, vcid: frame.vcid, body })
    }

    /// Reads the frames that follow one another in the octets, each as long as it declares. Returns each as
    /// [`decode`](Self::decode) reads it, or its fault with its octets. Octets that are left after the last whole frame
    /// are returned at the end, with 1 [`Short`](TcFault::Short) for fewer than 5, or 5 [`Length`](TcFault::Length); no
    /// frame before them has either fault.
    ///
    /// ```
    /// use sedgechisel::{Fecf, TcFault, TcFrame};
    ///
    /// let octets = [0x30, 0x01, 0x08, 0x07, 0x00, 0x00, 0x06, 0xef, 0x30, 0x01];
    /// let mut frames = TcFrame::decode_all(&octets, Fecf::Present);
    /// assert_eq!(frames.next(), Some(Err((TcFault::Check, &octets[..8]))));
    /// assert_eq!(frames.next(), Some(Err((TcFault::Short, &octets[8..]))));
    /// assert_eq!(frames.next(), None);
    /// ```
    #[must_use]
    pub fn decode_all(octets: &'a [u8], fecf: Fecf) -> TcFrames<'a> {
        TcFrames { rest: octets, fecf, channel: None }
    }

    /// Writes the frame to the beginning of `out`, with or without its FECF, and returns its octets, 6 to 1,024.
    ///
    /// # Errors
    ///
    /// Refused with the first of 11 [`FieldRange`](TcFault::FieldRange) and 10 [`Room`](TcFault::Room), with nothing
    /// written.
    pub fn encode<'o>(&self, fecf: impl Into<Fecf>, out: &'o mut [u8]) -> Result<&'o mut [u8], TcFault> {
        let mut frame = ffi::TcFrame { scid: self.scid, vcid: self.vcid, ..ffi::TcFrame::default() };
        let data = match self.body {
            Body::Ad { n, segment } => {
                (frame.kind, frame.n) = (ffi::SEDGE_TC_AD, n);
                segment.put(&mut frame)
            }
            Body::Bd { segment } => {
                frame.kind = ffi::SEDGE_TC_BD;
                segment.put(&mut frame)
            }
            Body::Bc(command) => {
                frame.kind = ffi::SEDGE_TC_BC;
                (frame.command, frame.vr) = command.raw();
                &[]
            }
        };
        let mut total = 0;
        TcFault::judge(ffi::tc_encode(&frame, data, fecf.into().is_present(), out, &mut total))?;
        Ok(&mut out[..total])
    }

    /// Returns the length in octets of the frame that begins with these octets, from its first 5 octets only; use it to
    /// cut a stream (CCSDS 232.0-B-4, 4.1.2.7).
    ///
    /// # Errors
    ///
    /// Refused with 1 [`Short`](TcFault::Short) for fewer than 5 octets, and 5 [`Length`](TcFault::Length) if it
    /// declares fewer than 5, or with the FECF fewer than 7.
    pub fn declared(octets: &[u8], fecf: impl Into<Fecf>) -> Result<usize, TcFault> {
        let mut total = 0;
        TcFault::judge(ffi::tc_declared(octets, fecf.into().is_present(), &mut total))?;
        Ok(total)
    }
}

impl Fecf {
    const fn is_present(self) -> bool {
        matches!(self, Self::Present)
    }
}

/// The frames that follow one another in octets, from [`TcFrame::decode_all`].
#[derive(Clone, Debug)]
pub struct TcFrames<'a> {
    rest: &'a [u8],
    fecf: Fecf,
    channel: Option<(u16, u8)>,
}

impl TcFrames<'_> {
    /// Returns only the frames whose header names this spacecraft and virtual channel, including refused ones, and what
    /// is left at the end. It reads only the headers of other frames, so it takes no time for their FECF.
    ///
    /// ```
    /// use sedgechisel::{Fecf, TcFault, TcFrame};
    ///
    /// let octets = [0x30, 0x01, 0x08, 0x07, 0x00, 0x00, 0x06, 0xef, 0x30, 0x01];
    /// let mut frames = TcFrame::decode_all(&octets, Fecf::Present).of_channel(1, 3);
    /// assert_eq!(frames.next(), Some(Err((TcFault::Short, &octets[8..]))));
    /// ```
    #[must_use]
    pub fn of_channel(self, scid: u16, vcid: u8) -> Self {
        Self { channel: Some((scid, vcid)), ..self }
    }

    /// Whether the header of a frame names the channel, if there is one.
    fn has(&self, frame: &[u8]) -> bool {
        let named = (u16::from_be_bytes([frame[0], frame[1]]) & 0x3ff, frame[2] >> 2);
        self.channel.is_none_or(|it| it == named)
    }
}

impl<'a> Iterator for TcFrames<'a> {
    type Item = Result<TcFrame<'a>, (TcFault, &'a [u8])>;

    fn next(&mut self) -> Option<Self::Item> {
        while !self.rest.is_empty() {
            let all = core::mem::take(&mut self.rest);
            let total = match TcFrame::declared(all, self.fecf) {
                Ok(total) if total <= all.len() => total,
                Ok(_) => return Some(Err((TcFault::Length, all))),
                Err(fault) => return Some(Err((fault, all))),
            };
            let (whole, rest) = all.split_at(total);
            self.rest = rest;
            if self.has(whole) {
                return Some(TcFrame::decode(whole, self.fecf).map_err(|fault| (fault, whole)));
            }
        }
        None
    }
}

impl FusedIterator for TcFrames<'_> {}

impl<'a> Segment<'a> {
    /// Puts the header into the frame, and returns the data.
    fn put(self, frame: &mut ffi::TcFrame) -> &'a [u8] {
        frame.flags = self.flags.number();
        frame.map = self.map;
        self.data
    }
}

impl Command {
    pub(crate) fn from_raw(command: u8, vr: u8) -> Self {
        match command {
            ffi::SEDGE_UNLOCK => Self::Unlock,
            ffi::SEDGE_SET_VR => Self::SetVr(vr),
            _ => never(),
        }
    }

    fn raw(self) -> (u8, u8) {
        match self {
            Self::Unlock => (ffi::SEDGE_UNLOCK, 0),
            Self::SetVr(vr) => (ffi::SEDGE_SET_VR, vr),
        }
    }
}
