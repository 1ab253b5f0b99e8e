//! The spacecraft.

use super::{in_memory, one_by_one, taken, Config, LinkFault, OpenFault};
use crate::ffi::nodes as raw;
use crate::numbers::{done, never};
use crate::{Clcw, Command, Dropped, FarmMode, TcFault, TmFault, TmFrame, Verdict};
use alloc::vec::Vec;
use core::fmt;
use core::iter::FusedIterator;

/// What the spacecraft makes of octets that it received.
#[derive(Clone, Copy, Debug, PartialEq, Eq, Hash)]
#[non_exhaustive]
pub enum Received {
    /// They do not form a valid telecommand frame.
    Invalid(TcFault),
    /// A frame of another spacecraft or virtual channel.
    Foreign,
    /// A Type-AD frame.
    Sequence {
        /// Its number, N(S).
        n: u8,
        /// What the receiver does with it.
        verdict: Verdict,
        /// The number of packets added to those that wait to be taken.
        ready: usize,
        /// Why octets on its MAP were dropped, if some were.
        dropped: Option<Dropped>,
    },
    /// A Type-BD frame.
    Bypass {
        /// Whether it carried a packet, which is then kept.
        kept: bool,
    },
    /// A Type-BC frame with this control command.
    Control(Command),
}

impl Received {
    pub(super) fn from_raw(received: &raw::Received) -> Self {
        match received.kind {
            raw::SEDGE_RECEIVED_INVALID => Self::Invalid(TcFault::of(received.fault)),
            raw::SEDGE_RECEIVED_FOREIGN => Self::Foreign,
            raw::SEDGE_RECEIVED_AD => Self::Sequence {
                n: received.n,
                verdict: Verdict::of(received.verdict),
                ready: received.ready,
                dropped: (received.dropped != 0).then(|| Dropped::of(received.dropped)),
            },
            4 => Self::Bypass { kept: received.kept },
            5 => Self::Control(Command::from_raw(received.command, received.vr)),
            _ => never(),
        }
    }
}

/// The numbers from which a spacecraft continues after a deliberate restart; the program keeps them meanwhile.
#[derive(Clone, Copy, Debug, Default, PartialEq, Eq, Hash)]
pub struct KeptNumbers {
    /// V(R), the number of the next frame to be accepted.
    pub vr: u8,
    /// FARM-B, the count of Type-B frames modulo 4, 0 to 3.
    pub farm_b: u8,
    /// The next telemetry frame's count on the master channel.
    pub mc_count: u8,
    /// The next telemetry frame's count on the virtual channel.
    pub vc_count: u8,
}

/// The CLCW in a reading of a spacecraft.
pub(super) fn word_of(read: raw::SpacecraftReading) -> Clcw {
    Clcw::from_raw(crate::ffi::Clcw {
        status: read.status,
        vcid: read.vcid,
        flags: read.flags,
        farm_b: read.farm_b,
        value: read.value,
    })
}

/// The spacecraft: it receives packets, reports in CLCWs, and sends telemetry (docs/PROFILE.md, "The node on board").
/// Its memory is released when it is dropped.
///
/// ```
/// use sedgechisel::{Config, Received, Spacecraft, Verdict};
///
/// let mut spacecraft = Spacecraft::new(&Config::default())?;
/// let frame = [0x00, 0x01, 0x08, 0x0e, 0x00, 0xc4, 0x10, 0x05, 0xc0, 0x00, 0x00, 0x00, 0xaa, 0xe7, 0x5d];
/// let received = spacecraft.receive(&frame)?;
/// assert_eq!(received, Received::Sequence { n: 0, verdict: Verdict::Accepted, ready: 1, dropped: None });
/// assert_eq!(spacecraft.take()?, Some((4, frame[6..13].to_vec())));
/// # Ok::<(), Box<dyn std::error::Error>>(())
/// ```
pub struct Spacecraft(raw::Own<raw::Spacecraft>);

/// The receiver's state and V(R).
impl fmt::Debug for Spacecraft {
    fn fmt(&self, out: &mut fmt::Formatter<'_>) -> fmt::Result {
        out.debug_struct("Spacecraft")
            .field("mode", &self.mode())
            .field("vr", &self.control_word().value)
            .finish_non_exhaustive()
    }
}

impl Spacecraft {
    /// Opens a spacecraft that has received nothing.
    ///
    /// # Errors
    ///
    /// Refused with the first parameter that is out of range, or if memory runs out.
    pub fn new(config: &Config) -> Result<Self, OpenFault> {
        let mut spacecraft = Self(raw::Own::default());
        config.judge(raw::sedge_spacecraft_open(spacecraft.0.get(), &config.raw()))?;
        Ok(spacecraft)
    }

    /// Opens a spacecraft that continues with numbers that [`kept_numbers`](Self::kept_numbers) returned before a
    /// deliberate restart. Its receiver is Open with no flag set, and no packet is on board.
    ///
    /// # Errors
    ///
    /// Refused as [`new`](Self::new) is, and then with [`FarmB`](OpenFault::FarmB).
    ///
    /// ```
    /// use sedgechisel::{Config, KeptNumbers, Spacecraft, TmFrame};
    ///
    /// let kept = KeptNumbers { vr: 7, farm_b: 2, mc_count: 255, vc_count: 255 };
    /// let mut spacecraft = Spacecraft::restarted(&Config::default(), kept)?;
    /// let mut room = [0; TmFrame::LONGEST];
    /// let frame = TmFrame::decode(spacecraft.telemetry_frame(&mut room), 64)?;
    /// assert_eq!((frame.mc_count, frame.vc_count), (255, 255));
    /// assert_eq!(spacecraft.kept_numbers(), KeptNumbers { mc_count: 0, vc_count: 0, ..kept });
    /// # Ok::<(), Box<dyn std::error::Error>>(())
    /// ```
    pub fn restarted(config: &Config, kept: KeptNumbers) -> Result<Self, OpenFault> {
        let mut spacecraft = Self(raw::Own::default());
        let read = raw::SpacecraftReading {
            value: kept.vr,
            farm_b: kept.farm_b,
            mc_count: kept.mc_count,
            vc_count: kept.vc_count,
            ..raw::SpacecraftReading::default()
        };
        match raw::sedge_spacecraft_open_kept(spacecraft.0.get(), &config.raw(), &read) {
            raw::SEDGE_NODE_OUT_OF_RANGE if config.fault().is_none() => Err(OpenFault::FarmB),
            answer => config.judge(answer).map(|()| spacecraft),
        }
    }

    /// Returns the present numbers with which [`restarted`](Self::restarted) continues.
    #[must_use]
    pub fn kept_numbers(&self) -> KeptNumbers {
        let read = self.read();
        KeptNumbers { vr: read.value, farm_b: read.farm_b, mc_count: read.mc_count, vc_count: read.vc_count }
    }

    /// Takes octets that came from the ground: normally one telecommand frame with its FECF.
    ///
    /// # Errors
    ///
    /// Refused only with 6 [`Memory`](LinkFault::Memory).
    pub fn receive(&mut self, octets: &[u8]) -> Result<Received, LinkFault> {
        let mut received = raw::Received::default();
        in_memory(raw::spacecraft_receive(self.0.get(), octets, &mut received))?;
        Ok(Received::from_raw(&received))
    }

    /// Takes the oldest packet of sequence-controlled frames, with its MAP, if one waits.
    ///
    /// # Errors
    ///
    /// Refused only with 6 [`Memory`](LinkFault::Memory); the packet waits then.
    pub fn take(&mut self) -> Result<Option<(u8, Vec<u8>)>, LinkFault> {
        let (mut map, mut count) = (0, 0);
        done(raw::sedge_spacecraft_next(self.0.get(), &mut map, &mut count));
        let packet = taken(count, |out, written| raw::spacecraft_take(self.0.get(), &mut map, out, written))?;
        Ok(packet.map(|packet| (map, packet)))
    }

    /// Returns the packets of sequence-controlled frames, each with its MAP, the oldest one first. Each is taken on
    /// request, as [`take`](Self::take) takes it; those that are not requested stay on board. An item is refused only
    /// with 6 [`Memory`](LinkFault::Memory); the iterator then ends, and the packet waits.
    pub fn packets(&mut self) -> impl FusedIterator<Item = Result<(u8, Vec<u8>), LinkFault>> + '_ {
        one_by_one(|| self.take())
    }

    /// Takes the oldest bypass packet, with its MAP, if one is kept.
    ///
    /// # Errors
    ///
    /// Refused only with 6 [`Memory`](LinkFault::Memory); the packet is kept then.
    pub fn take_bypass(&mut self) -> Result<Option<(u8, Vec<u8>)>, LinkFault> {
        let (mut map, mut count) = (0, 0);
        done(raw::sedge_spacecraft_next_bypass(self.0.get(), &mut map, &mut count));
        let packet =
            taken(count, |out, written| raw::spacecraft_take_bypass(self.0.get(), &mut map, out, written))?;
        Ok(packet.map(|packet| (map, packet)))
    }

    /// Returns the bypass packets, each with its MAP, the oldest one first. Each is taken on request, as
    /// [`take_bypass`](Self::take_bypass) takes it; those that are not requested stay on board. An item is refused only
    /// with 6 [`Memory`](LinkFault::Memory); the iterator then ends, and the packet waits.
    pub fn bypass_packets(&mut self) -> impl FusedIterator<Item = Result<(u8, Vec<u8>), LinkFault>> + '_ {
        one_by_one(|| self.take_bypass())
    }

    /// Queues a packet to be sent as telemetry.
    ///
    /// # Errors
    ///
    /// Refused with 8 [`NotAPacket`](TmFault::NotAPacket) (the octets are not exactly one packet, or are an idle
    /// packet) or 7 [`Memory`](TmFault::Memory).
    pub fn telemetry(&mut self, packet: &[u8]) -> Result<(), TmFault> {
        TmFault::judge(raw::spacecraft_telemetry(self.0.get(), packet))
    }

    /// Takes the next telemetry frame, which reports on the receiver, and writes it to the beginning of the buffer.
    pub fn telemetry_frame<'o>(&mut self, room: &'o mut [u8; TmFrame::LONGEST]) -> &'o mut [u8] {
        let mut count = 0;
        done(raw::spacecraft_telemetry_frame(self.0.get(), room, &mut count));
        &mut room[..count]
    }

    /// Takes the next telemetry frame. This is the old name of [`telemetry_frame`](Self::telemetry_frame), up to 0.2.
    #[deprecated(since = "0.3.0", note = "it is `telemetry_frame` now")]
    pub fn report<'o>(&mut self, room: &'o mut [u8; TmFrame::LONGEST]) -> &'o mut [u8] {
        self.telemetry_frame(room)
    }

    fn read(&self) -> raw::SpacecraftReading {
        let mut read = raw::SpacecraftReading::default();
        self.0.read(|it| raw::sedge_spacecraft_read(it, &mut read));
        read
    }

    /// The CLCW that the next telemetry frame carries.
    #[must_use]
    pub fn control_word(&self) -> Clcw {
        word_of(self.read())
    }

    /// The receiver's state.
    #[must_use]
    pub fn mode(&self) -> FarmMode {
        FarmMode::of(self.read().state)
    }

    /// The number of packets of sequence-controlled frames that wait to be taken.
    #[must_use]
    pub fn ready(&self) -> usize {
        self.read().ready
    }

    /// The number of bypass packets that wait to be taken.
    #[must_use]
    pub fn bypassed(&self) -> usize {
        self.read().bypassed
    }

    /// The length of a telemetry frame in octets.
    #[must_use]
    pub fn frame_length(&self) -> usize {
        self.read().frame_length
    }
}
