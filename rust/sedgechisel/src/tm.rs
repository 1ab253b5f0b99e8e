//! Telemetry transfer frames of 16 to 2,048 octets, with an operational control field and an FECF (CCSDS 132.0-B-3,
//! 4.1).

use crate::ffi;
use core::iter::FusedIterator;

faults! {
    /// Why a telemetry frame is refused (CCSDS 132.0-B-3).
    TmFault {
        Length = 1, "not as many octets as length, or a length outside 16 to 2,048";
        Version = 2, "the version number is not 00 (4.1.2.2)";
        Check = 3, "the last two octets are not the check of those before them (4.1.6)";
        Status = 4, "a flag of the data field status is 1, or its identifier is not 11 (4.1.2.7)";
        Pointer = 5, "a first header pointer at or after the data field's end (4.1.2.7.6)";
        NoOcf = 6, "the frame declares no operational control field (4.1.2.4)";
        Memory = 7, "out of memory for what would be kept";
        NotAPacket = 8, "not exactly one packet, or an idle packet";
        Room = 9, "there is too little room for the frame";
        FieldRange = 10, "a field out of range, a pointer after the data, not 4 to 2,036 octets of data, or a length \
            outside 16 to 2,048";
    }
}

/// The first header pointer (CCSDS 132.0-B-3, 4.1.2.7.6).
#[derive(Clone, Copy, Debug, PartialEq, Eq, Hash)]
pub enum Pointer {
    /// The place in the data, from 0, where the first packet starts.
    At(u16),
    /// There are only idle data in the data field.
    OnlyIdle,
    /// No packet starts in the data field.
    NoStart,
}

/// A telemetry transfer frame of 16 to 2,048 octets (CCSDS 132.0-B-3, 4.1).
#[derive(Clone, Copy, Debug, PartialEq, Eq, Hash)]
pub struct TmFrame<'a> {
    /// The spacecraft identifier, below 1,024.
    pub scid: u16,
    /// The virtual channel identifier, below 8.
    pub vcid: u8,
    /// The master channel frame count.
    pub mc_count: u8,
    /// The virtual channel frame count.
    pub vc_count: u8,
    /// Where the first packet starts.
    pub pointer: Pointer,
    /// The operational control field, as [`Clcw::encode`](crate::Clcw::encode) writes it (4.1.5).
    pub ocf: [u8; 4],
    /// The data field, 4 to 2,036 octets.
    pub data: &'a [u8],
}

impl<'a> TmFrame<'a> {
    /// The maximum length of a frame in octets.
    pub const LONGEST: usize = 2048;

    /// Reads all of the octets as one frame of this length.
    ///
    /// # Errors
    ///
    /// Refused with the first of [`TmFault`] 1 to 6.
    pub fn decode(octets: &'a [u8], length: usize) -> Result<Self, TmFault> {
        let (mut frame, mut part) = (ffi::TmFrame::default(), ffi::Part::default());
        TmFault::judge(ffi::tm_decode(octets, length, &mut frame, &mut part))?;
        Ok(Self {
            scid: frame.scid,
            vcid: frame.vcid,
            mc_count: frame.mc_count,
            vc_count: frame.vc_count,
            pointer: Pointer::from_raw(frame.pointer),
            ocf: frame.ocf,
            data: part.of(octets),
        })
    }

    /// Reads the frames of this length that follow one another in the octets. Returns each as [`decode`](Self::decode)
    /// reads it, or its fault with its octets. Octets that are left at the end are returned last, with 1
    /// [`Length`](TmFault::Length).
    ///
    /// ```
    /// use sedgechisel::{TmExtractor, TmFault, TmFrame};
    ///
    /// let (octets, mut memory) = ([0; 40], [0; 4096]);
    /// let mut extractor = TmExtractor::new(&mut memory);
    /// for frame in TmFrame::decode_all(&octets, 20) {
    ///     match frame {
    ///         Ok(frame) => extractor.take(&frame)?.packets.for_each(|it| println!("{it:?}")),
    ///         Err((fault, octets)) => assert_eq!((fault, octets.len()), (TmFault::Check, 20)),
    ///     }
    /// }
    /// # Ok::<(), TmFault>(())
    /// ```
    #[must_use]
    pub fn decode_all(octets: &'a [u8], length: usize) -> TmFrames<'a> {
        TmFrames { rest: octets, length, channel: None }
    }

    /// Writes the frame and its FECF to the beginning of `out`, and returns its octets, 12 more than its data.
    ///
    /// # Errors
    ///
    /// Refused with the first of 10 [`FieldRange`](TmFault::FieldRange) and 9 [`Room`](TmFault::Room), with nothing
    /// written.
    pub fn encode<'o>(&self, out: &'o mut [u8]) -> Result<&'o mut [u8], TmFault> {
        let mut total = 0;
        TmFault::judge(ffi::tm_encode(&self.raw(), self.data, out, &mut total))?;
        Ok(&mut out[..total])
    }

    /// The fields.
    pub(crate) fn raw(&self) -> ffi::TmFrame {
        ffi::TmFrame {
            scid: self.scid,
            pointer: self.pointer.raw(),
            vcid: self.vcid,
            mc_count: self.mc_count,
            vc_count: self.vc_count,
            ocf: self.ocf,
        }
    }
}

/// The frames that follow one another in octets, from [`TmFrame::decode_all`].
#[derive(Clone, Debug)]
pub struct TmFrames<'a> {
    rest: &'a [u8],
    length: usize,
    channel: Option<(u16, u8)>,
}

impl TmFrames<'_> {
    /// Returns only the frames whose header names this spacecraft and virtual channel, including refused ones, and what
    /// is left at the end: the frames for one [`TmExtractor`](crate::TmExtractor). It reads only the headers of other
    /// frames, so it takes no time for their FECF.
    ///
    /// ```
    /// use sedgechisel::{TmFault, TmFrame};
    ///
    /// let mut octets = [0; 40];
    /// octets[21] = 0x15; // spacecraft 1, virtual channel 2
    /// let mut frames = TmFrame::decode_all(&octets, 20).of_channel(1, 2);
    /// assert_eq!(frames.next(), Some(Err((TmFault::Check, &octets[20..]))));
    /// assert_eq!(frames.next(), None);
    /// ```
    #[must_use]
    pub fn of_channel(self, scid: u16, vcid: u8) -> Self {
        Self { channel: Some((scid, vcid)), ..self }
    }

    /// Whether the header of a frame names the channel, if there is one; also true for what is left.
    fn has(&self, frame: &[u8]) -> bool {
        match (self.channel, frame) {
            (Some(channel), &[high, low, ..]) if frame.len() == self.length => {
                channel == (u16::from_be_bytes([high, low]) >> 4 & 0x3ff, low >> 1 & 7)
            }
            _ => true,
        }
    }
}

impl<'a> Iterator for TmFrames<'a> {
    type Item = Result<TmFrame<'a>, (TmFault, &'a [u8])>;

    fn next(&mut self) -> Option<Self::Item> {
        while !self.rest.is_empty() {
            let (whole, rest) = self.rest.split_at(self.length.max(1).min(self.rest.len()));
            self.rest = rest;
            if self.has(whole) {
                return Some(TmFrame::decode(whole, self.length).map_err(|fault| (fault, whole)));
            }
        }
        None
    }
}

impl FusedIterator for TmFrames<'_> {}

impl Pointer {
    pub(crate) fn from_raw(pointer: u16) -> Self {
        match pointer {
            ffi::SEDGE_POINTER_ONLY_IDLE => Self::OnlyIdle,
            ffi::SEDGE_POINTER_NO_START => Self::NoStart,
            place => Self::At(place),
        }
    }

    /// The number in the library. Places from 2,046 on become 2,045: 2,046 and 2,047 have other meanings, and all these
    /// places are after any data.
    fn raw(self) -> u16 {
        match self {
            Self::At(place) => place.min(ffi::SEDGE_POINTER_ONLY_IDLE - 1),
            Self::OnlyIdle => ffi::SEDGE_POINTER_ONLY_IDLE,
            Self::NoStart => ffi::SEDGE_POINTER_NO_START,
        }
    }
}
