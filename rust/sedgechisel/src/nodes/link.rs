//! The simulated link between two nodes.

use super::ground::alert_of;
use super::spacecraft::word_of;
use super::{room_for, Config, Heard, HeardClcw, LinkFault, OpenFault, Received};
use crate::ffi::nodes as raw;
use crate::numbers::{done, never};
use crate::{Alert, Clcw, CopFault, FarmMode, FopState, Packet, TcFrame, TmFault};
use alloc::vec::Vec;
use core::fmt;

// enum sedge_event_kind
pub const SEDGE_EVENT_SUBMIT: u8 = 1;
pub const SEDGE_EVENT_BYPASS: u8 = 2;
pub const SEDGE_EVENT_DIRECTIVE: u8 = 3;
pub const SEDGE_EVENT_SEND: u8 = 4;
pub const SEDGE_EVENT_UP_DELIVER: u8 = 5;
pub const SEDGE_EVENT_UP_LOSE: u8 = 6;
pub const SEDGE_EVENT_UP_DAMAGE: u8 = 7;
pub const SEDGE_EVENT_REPORT: u8 = 8;
pub const SEDGE_EVENT_DOWN_DELIVER: u8 = 9;
pub const SEDGE_EVENT_DOWN_LOSE: u8 = 10;
pub const SEDGE_EVENT_DOWN_DAMAGE: u8 = 11;
pub const SEDGE_EVENT_TICK: u8 = 12;
pub const SEDGE_EVENT_TAKE: u8 = 13;
pub const SEDGE_EVENT_TAKE_BYPASS: u8 = 14;
pub const SEDGE_EVENT_TELEMETRY: u8 = 15;
pub const SEDGE_EVENT_DOWN_CLCW: u8 = 16;
pub const SEDGE_EVENT_RESUME: u8 = 17;

faults! {
    /// Why an event does not happen on a simulated link; nothing has changed then.
    SimFault {
        Memory = 6, "out of memory";
        NothingInTransit = 7, "no frame is in transit in this direction";
        NotDetectable = 8, "the receiver's decoder would accept the octets of the damaged frame";
    }
}

/// How a session began.
#[derive(Clone, Copy, Debug, PartialEq, Eq, Hash)]
#[non_exhaustive]
pub enum Begun {
    /// Without CLCW check.
    WithoutCheck,
    /// With CLCW check.
    WithCheck,
    /// With Unlock.
    Unlock,
    /// With Set V(R), to this number.
    SetVr(u8),
}

/// A record of the session. Each initiation that the ground accepts begins a new session.
#[derive(Clone, Copy, Debug, PartialEq, Eq, Hash)]
pub enum Record {
    /// The packets submitted on a MAP.
    Submitted(u8),
    /// The packets that became ready on board on a MAP, taken or not.
    Delivered(u8),
    /// The data fields of Type-AD frames, in the order in which they were first sent.
    Sent,
    /// The data fields of Type-AD frames that were accepted on board.
    Received,
}

impl Record {
    fn raw(self) -> (u8, u8) {
        match self {
            Self::Submitted(map) => (raw::SEDGE_SUBMITTED, map),
            Self::Delivered(map) => (raw::SEDGE_DELIVERED, map),
            Self::Sent => (raw::SEDGE_SENT, 0),
            Self::Received => (raw::SEDGE_RECEIVED, 0),
        }
    }
}

/// A simulated link: a ground, a spacecraft of the same configuration, and the frames in transit between them, first
/// in, first out (docs/PROFILE.md, "The simulated link"). Its memory is released when it is dropped.
///
/// ```
/// use sedgechisel::{Config, Link, Received, Record, SimFault, Verdict};
///
/// let packet = [0x10, 0x05, 0xc0, 0x00, 0x00, 0x00, 0xaa];
/// let mut link = Link::new(&Config::default())?;
/// link.init_without_check()?;
/// link.submit(4, &packet)?;
/// assert_eq!(link.send()?.map(|frame| frame.len()), Some(15));
/// link.up_lose()?;
/// assert_eq!(link.up_deliver(), Err(SimFault::NothingInTransit));
/// assert!(link.record(Record::Delivered(4)).next().is_none());
/// # Ok::<(), Box<dyn std::error::Error>>(())
/// ```
pub struct Link(raw::Own<raw::Sim>);

/// The state of the ground's sender, and the numbers of segments outstanding and acknowledged.
impl fmt::Debug for Link {
    fn fmt(&self, out: &mut fmt::Formatter<'_>) -> fmt::Result {
        out.debug_struct("Link")
            .field("state", &self.state())
            .field("outstanding", &self.outstanding())
            .field("acknowledged", &self.acknowledged())
            .finish_non_exhaustive()
    }
}

/// The result of an event: the fault with which a node refuses, or `memory` if memory runs out.
fn refusal<F>(reply: Result<raw::Reply, SimFault>, of: fn(u8) -> F, memory: F) -> Result<(), F> {
    match reply {
        Ok(reply) if reply.kind == raw::SEDGE_REPLY_REFUSED => Err(of(reply.fault)),
        Ok(_) => Ok(()),
        Err(SimFault::Memory) => Err(memory),
        Err(_) => never(),
    }
}

impl Link {
    /// Opens a link with two new nodes.
    ///
    /// # Errors
    ///
    /// Refused with the first parameter that is out of range, or if memory runs out.
    pub fn new(config: &Config) -> Result<Self, OpenFault> {
        let mut link = Self(raw::Own::default());
        config.judge(raw::sedge_sim_open(link.0.get(), &config.raw()))?;
        Ok(link)
    }

    fn event(&mut self, kind: u8, map: u8, octets: &[u8]) -> Result<raw::Reply, SimFault> {
        let mut reply = raw::Reply::default();
        SimFault::judge(raw::sim_step(self.0.get(), kind, map, (0, 0), octets, &mut reply))?;
        Ok(reply)
    }

    /// Gives the sender a directive. The event always happens, even if the sender refuses the directive.
    fn direct(&mut self, directive: u8, value: u16) -> Result<(), CopFault> {
        let mut reply = raw::Reply::default();
        let own = (directive, value);
        done(raw::sim_step(self.0.get(), SEDGE_EVENT_DIRECTIVE, 0, own, &[], &mut reply));
        match reply.kind {
            raw::SEDGE_REPLY_REFUSED => Err(CopFault::of(reply.fault)),
            _ => Ok(()),
        }
    }

    /// An event that returns a frame or a packet of at most `most` octets. It happens only if memory for these can be
    /// reserved. The octets are returned in a buffer of exactly their length, if there is memory for that too.
    fn given(&mut self, most: usize, kind: u8) -> Result<Option<(u8, Vec<u8>)>, SimFault> {
        let mut room = Vec::new();
        room.try_reserve_exact(most).map_err(|_| SimFault::Memory)?;
        let reply = self.event(kind, 0, &[])?;
        if reply.count == 0 {
            return Ok(None);
        }
        let (mut octets, mut written) = (room_for(reply.count).unwrap_or(room), 0);
        octets.resize(reply.count, 0);
        done(raw::sim_octets(self.0.get(), &mut octets, &mut written));
        Ok(Some((reply.map, octets)))
    }

    directives!();

    /// Submits packets on the ground, as [`Ground::submit`](crate::Ground::submit) does.
    ///
    /// # Errors
    ///
    /// Refused with the first [`LinkFault`] that applies.
    pub fn submit(&mut self, map: u8, packets: &[u8]) -> Result<(), LinkFault> {
        let reply = self.event(SEDGE_EVENT_SUBMIT, map, packets);
        refusal(reply, LinkFault::of, LinkFault::Memory)
    }

    /// Submits a packet on the ground by bypass, as [`Ground::bypass`](crate::Ground::bypass) does.
    ///
    /// # Errors
    ///
    /// Refused with the first [`LinkFault`] of 2 to 6 that applies.
    pub fn bypass(&mut self, map: u8, packet: &[u8]) -> Result<(), LinkFault> {
        let reply = self.event(SEDGE_EVENT_BYPASS, map, packet);
        refusal(reply, LinkFault::of, LinkFault::Memory)
    }

    /// Queues a packet on board, as [`Spacecraft::telemetry`](crate::Spacecraft::telemetry) does.
    ///
    /// # Errors
    ///
    /// Refused with 8 [`NotAPacket`](TmFault::NotAPacket) or 7 [`Memory`](TmFault::Memory).
    pub fn telemetry(&mut self, packet: &[u8]) -> Result<(), TmFault> {
        let reply = self.event(SEDGE_EVENT_TELEMETRY, 0, packet);
        refusal(reply, TmFault::of, TmFault::Memory)
    }

    /// Sends a frame from the ground; it is then in transit on the uplink. Returns `None` if nothing is to be sent now.
    ///
    /// # Errors
    ///
    /// Refused only with 6 [`Memory`](SimFault::Memory).
    pub fn send(&mut self) -> Result<Option<Vec<u8>>, SimFault> {
        let frame = self.given(TcFrame::LONGEST, SEDGE_EVENT_SEND)?;
        Ok(frame.map(|(_, octets)| octets))
    }

    /// Delivers the first frame in transit on the uplink.
    ///
    /// # Errors
    ///
    /// Refused with 7 [`NothingInTransit`](SimFault::NothingInTransit) if there is none, or with 6
    /// [`Memory`](SimFault::Memory).
    pub fn up_deliver(&mut self) -> Result<Received, SimFault> {
        let reply = self.event(SEDGE_EVENT_UP_DELIVER, 0, &[])?;
        Ok(Received::from_raw(&reply.up))
    }

    /// Loses the first frame in transit on the uplink.
    ///
    /// # Errors
    ///
    /// Refused with 7 [`NothingInTransit`](SimFault::NothingInTransit) if there is none.
    pub fn up_lose(&mut self) -> Result<(), SimFault> {
        self.event(SEDGE_EVENT_UP_LOSE, 0, &[]).map(drop)
    }

    /// Delivers these octets, which do not form a valid frame, instead of the first frame in transit on the uplink.
    ///
    /// # Errors
    ///
    /// Refused with 7 [`NothingInTransit`](SimFault::NothingInTransit) if there is none, or with 8
    /// [`NotDetectable`](SimFault::NotDetectable) if the octets form a valid frame.
    pub fn up_damage(&mut self, octets: &[u8]) -> Result<Received, SimFault> {
        let reply = self.event(SEDGE_EVENT_UP_DAMAGE, 0, octets)?;
        Ok(Received::from_raw(&reply.up))
    }

    /// Sends a telemetry frame from the spacecraft; it is then in transit on the downlink. Returns the CLCW in it.
    ///
    /// # Errors
    ///
    /// Refused only with 6 [`Memory`](SimFault::Memory).
    pub fn report(&mut self) -> Result<Clcw, SimFault> {
        let reply = self.event(SEDGE_EVENT_REPORT, 0, &[])?;
        Ok(Clcw::from_raw(reply.report))
    }

    /// Delivers the first frame in transit on the downlink.
    ///
    /// # Errors
    ///
    /// Refused with 7 [`NothingInTransit`](SimFault::NothingInTransit) if there is none, or with 6
    /// [`Memory`](SimFault::Memory).
    pub fn down_deliver(&mut self) -> Result<Heard, SimFault> {
        let reply = self.event(SEDGE_EVENT_DOWN_DELIVER, 0, &[])?;
        Ok(Heard::from_raw(&reply.down))
    }

    /// Loses the first frame in transit on the downlink.
    ///
    /// # Errors
    ///
    /// Refused with 7 [`NothingInTransit`](SimFault::NothingInTransit) if there is none.
    pub fn down_lose(&mut self) -> Result<(), SimFault> {
        self.event(SEDGE_EVENT_DOWN_LOSE, 0, &[]).map(drop)
    }

    /// Delivers these octets, which do not form a valid frame, instead of the first frame in transit on the downlink.
    ///
    /// # Errors
    ///
    /// Refused with 7 [`NothingInTransit`](SimFault::NothingInTransit) if there is none, or with 8
    /// [`NotDetectable`](SimFault::NotDetectable) if the octets form a valid frame.
    pub fn down_damage(&mut self, octets: &[u8]) -> Result<Heard, SimFault> {
        let reply = self.event(SEDGE_EVENT_DOWN_DAMAGE, 0, octets)?;
        Ok(Heard::from_raw(&reply.down))
    }

    /// Delivers the first frame in transit on the downlink, but only its CLCW reaches the ground, as by
    /// [`Ground::clcw`](crate::Ground::clcw); telemetry is unchanged.
    ///
    /// # Errors
    ///
    /// Refused with 7 [`NothingInTransit`](SimFault::NothingInTransit) if there is none.
    pub fn down_clcw(&mut self) -> Result<HeardClcw, SimFault> {
        let reply = self.event(SEDGE_EVENT_DOWN_CLCW, 0, &[])?;
        Ok(HeardClcw::from_raw(&reply.down))
    }

    /// Resumes on the ground, as [`Ground::resume`](crate::Ground::resume) does: a session begins, by Unlock.
    ///
    /// # Errors
    ///
    /// Refused with 10 [`NotKnown`](LinkFault::NotKnown), as that call is.
    pub fn resume(&mut self, value: u8) -> Result<u64, LinkFault> {
        let mut reply = raw::Reply::default();
        done(raw::sim_step(self.0.get(), SEDGE_EVENT_RESUME, 0, (0, value.into()), &[], &mut reply));
        match reply.kind {
            raw::SEDGE_REPLY_REFUSED => Err(LinkFault::of(reply.fault)),
            _ => Ok(reply.whole),
        }
    }

    /// Counts a tick of the ground's clock. Returns the alert, if there is one.
    #[must_use]
    pub fn tick(&mut self) -> Option<Alert> {
        match self.event(SEDGE_EVENT_TICK, 0, &[]) {
            Ok(reply) => alert_of(reply.alert),
            Err(_) => never(),
        }
    }

    /// Takes a packet of sequence-controlled frames on board, with its MAP, if one waits.
    ///
    /// # Errors
    ///
    /// Refused only with 6 [`Memory`](SimFault::Memory).
    pub fn take(&mut self) -> Result<Option<(u8, Vec<u8>)>, SimFault> {
        self.given(Packet::LONGEST, SEDGE_EVENT_TAKE)
    }

    /// Takes a bypass packet on board, with its MAP, if one waits.
    ///
    /// # Errors
    ///
    /// Refused only with 6 [`Memory`](SimFault::Memory).
    pub fn take_bypass(&mut self) -> Result<Option<(u8, Vec<u8>)>, SimFault> {
        self.given(Packet::LONGEST, SEDGE_EVENT_TAKE_BYPASS)
    }

    fn read(&self) -> raw::SimReading {
        let mut read = raw::SimReading::default();
        self.0.read(|it| raw::sedge_sim_read(it, &mut read));
        read
    }

    /// The state of the ground's sender.
    #[must_use]
    pub fn state(&self) -> FopState {
        FopState::of(self.read().state)
    }

    /// The number of segments that were submitted and are not acknowledged.
    #[must_use]
    pub fn outstanding(&self) -> usize {
        self.read().outstanding
    }

    /// How many entries of [`Record::Sent`], from the first on, the ground counts as acknowledged.
    #[must_use]
    pub fn acknowledged(&self) -> usize {
        self.read().acknowledged
    }

    /// How the session began, if one has.
    #[must_use]
    pub fn begun(&self) -> Option<Begun> {
        let read = self.read();
        match read.begun {
            raw::SEDGE_BEGUN_NOT => None,
            raw::SEDGE_BEGUN_WITHOUT_CHECK => Some(Begun::WithoutCheck),
            raw::SEDGE_BEGUN_WITH_CHECK => Some(Begun::WithCheck),
            raw::SEDGE_BEGUN_UNLOCK => Some(Begun::Unlock),
            raw::SEDGE_BEGUN_SET_VR => Some(Begun::SetVr(read.vr)),
            _ => never(),
        }
    }

    /// Whether the session began with nothing in transit, and, if it began without CLCW check, with V(R) = V(S).
    #[must_use]
    pub fn is_clean(&self) -> bool {
        self.read().clean
    }

    /// Whether the session had an idle start (docs/PROMISES.md).
    #[must_use]
    pub fn is_idle(&self) -> bool {
        self.read().idle
    }

    /// Whether a CLCW has taken the ground from S4 or S5 to S1.
    #[must_use]
    pub fn is_confirmed(&self) -> bool {
        self.read().confirmed
    }

    fn read_ground(&self) -> raw::GroundReading {
        let mut read = raw::GroundReading::default();
        self.0.read(|it| raw::sedge_sim_ground_read(it, &mut read));
        read
    }

    /// V(S) of the ground, the number of the next segment to be sent for the first time.
    #[must_use]
    pub fn vs(&self) -> u8 {
        self.read_ground().vs
    }

    /// NN(R) of the ground, the number that the spacecraft was last known to expect.
    #[must_use]
    pub fn nn(&self) -> u8 {
        self.read_ground().nn
    }

    /// The number of outstanding segments that wait to be sent for the first time.
    #[must_use]
    pub fn unsent(&self) -> usize {
        self.read_ground().unsent
    }

    /// The number of outstanding segments that are to be retransmitted.
    #[must_use]
    pub fn due(&self) -> usize {
        self.read_ground().due
    }

    /// The number of bypass packets that wait to be sent.
    #[must_use]
    pub fn bypass_unsent(&self) -> usize {
        self.read_ground().bypassed
    }

    /// The ticks that are left while the ground's timer runs, and 0 while it is off.
    #[must_use]
    pub fn ticks(&self) -> u16 {
        self.read_ground().ticks
    }

    /// The transmission count of the ground's sender, at least 1.
    #[must_use]
    pub fn count(&self) -> u8 {
        self.read_ground().count
    }

    fn read_spacecraft(&self) -> raw::SpacecraftReading {
        let mut read = raw::SpacecraftReading::default();
        self.0.read(|it| raw::sedge_sim_spacecraft_read(it, &mut read));
        read
    }

    /// The CLCW that the next telemetry frame carries.
    #[must_use]
    pub fn control_word(&self) -> Clcw {
        word_of(self.read_spacecraft())
    }

    /// The state of the receiver on board.
    #[must_use]
    pub fn mode(&self) -> FarmMode {
        FarmMode::of(self.read_spacecraft().state)
    }

    /// The number of packets of sequence-controlled frames that wait on board to be taken.
    #[must_use]
    pub fn ready(&self) -> usize {
        self.read_spacecraft().ready
    }

    /// The number of bypass packets that wait on board to be taken.
    #[must_use]
    pub fn bypass_ready(&self) -> usize {
        self.read_spacecraft().bypassed
    }

    /// What was submitted in the session, in order: the MAP and the octets of each submission, or 6
    /// [`Memory`](SimFault::Memory) if there is no memory for a submission.
    pub fn submissions(&self) -> impl ExactSizeIterator<Item = Result<(u8, Vec<u8>), SimFault>> + '_ {
        let (mut map, mut count, mut written) = (0, 0, 0);
        (0..self.0.number(|it, count| raw::sedge_sim_submissions(it, count))).map(move |k| {
            self.0.read(|it| raw::sedge_sim_submission_length(it, k, &mut map, &mut count));
            let mut octets = room_for(count).ok_or(SimFault::Memory)?;
            self.0.read(|it| raw::sim_submission(it, k, &mut map, &mut octets, &mut written));
            Ok((map, octets))
        })
    }

    /// The entries of a record of the session, in order, or 6 [`Memory`](SimFault::Memory) if there is no memory for an
    /// entry.
    pub fn record(&self, record: Record) -> impl ExactSizeIterator<Item = Result<Vec<u8>, SimFault>> + '_ {
        let (number, map) = record.raw();
        let (mut entries, mut count, mut written) = (0, 0, 0);
        self.0.read(|it| raw::sedge_sim_count(it, number, map, &mut entries));
        (0..entries).map(move |k| {
            self.0.read(|it| raw::sedge_sim_entry_length(it, number, map, k, &mut count));
            let mut entry = room_for(count).ok_or(SimFault::Memory)?;
            self.0.read(|it| raw::sim_entry(it, number, map, k, &mut entry, &mut written));
            Ok(entry)
        })
    }
}
