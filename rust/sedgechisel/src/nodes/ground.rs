//! The ground.

use super::{in_memory, one_by_one, taken, Config, LinkFault, OpenFault};
use crate::ffi::nodes as raw;
use crate::numbers::{done, never};
use crate::{Alert, Clcw, ClcwFault, CopFault, FopState, TcFrame, TmFault};
use alloc::vec::Vec;
use core::fmt;
use core::iter::FusedIterator;

/// What the ground makes of a CLCW, whether a telemetry frame carries it or it comes by itself.
#[derive(Clone, Copy, Debug, PartialEq, Eq, Hash)]
#[non_exhaustive]
pub enum HeardReport {
    /// It is passed to the sender.
    Used,
    /// It is not a valid CLCW.
    Refused(ClcwFault),
    /// It reports on another virtual channel.
    OtherChannel,
}

/// What the ground makes of a CLCW that came by itself.
#[derive(Clone, Copy, Debug, PartialEq, Eq, Hash)]
pub struct HeardClcw {
    /// What became of it.
    pub report: HeardReport,
    /// Why the sender has given up, if it has.
    pub alert: Option<Alert>,
}

/// What the ground makes of octets that it received.
#[derive(Clone, Copy, Debug, PartialEq, Eq, Hash)]
#[non_exhaustive]
pub enum Heard {
    /// They do not form a valid telemetry frame.
    Invalid(TmFault),
    /// A frame of another spacecraft or virtual channel.
    Foreign,
    /// A frame of its own channel.
    Frame {
        /// The number of frames that are missing before it, modulo 256; `None` for the first frame.
        gap: Option<u8>,
        /// The number of packets added to those that wait to be taken.
        packets: usize,
        /// What became of its CLCW.
        report: HeardReport,
        /// Why the sender has given up, if it has.
        alert: Option<Alert>,
    },
}

/// The names of two cases up to 0.2.
#[allow(non_snake_case, non_upper_case_globals)]
impl HeardReport {
    /// It reports on another virtual channel.
    #[deprecated(since = "0.3.0", note = "it is `OtherChannel` now")]
    pub const Other: Self = Self::OtherChannel;

    /// It is not a valid CLCW.
    #[must_use]
    #[deprecated(since = "0.3.0", note = "it is `Refused` now")]
    pub const fn None(fault: ClcwFault) -> Self {
        Self::Refused(fault)
    }
}

impl HeardReport {
    fn from_raw(heard: &raw::Heard) -> Self {
        match heard.report {
            raw::SEDGE_REPORT_USED => Self::Used,
            raw::SEDGE_REPORT_REFUSED => Self::Refused(ClcwFault::of(heard.word_fault)),
            raw::SEDGE_REPORT_OTHER_CHANNEL => Self::OtherChannel,
            _ => never(),
        }
    }
}

impl HeardClcw {
    pub(super) fn from_raw(heard: &raw::Heard) -> Self {
        Self { report: HeardReport::from_raw(heard), alert: alert_of(heard.alert) }
    }
}

impl Heard {
    pub(super) fn from_raw(heard: &raw::Heard) -> Self {
        match heard.kind {
            raw::SEDGE_HEARD_INVALID => Self::Invalid(TmFault::of(heard.fault)),
            raw::SEDGE_HEARD_FOREIGN => Self::Foreign,
            raw::SEDGE_HEARD_FRAME => Self::Frame {
                gap: (heard.first == 0).then_some(heard.missing),
                packets: heard.packets,
                report: HeardReport::from_raw(heard),
                alert: alert_of(heard.alert),
            },
            _ => never(),
        }
    }
}

pub(super) fn alert_of(number: u8) -> Option<Alert> {
    (number != 0).then(|| Alert::of(number))
}

/// The record of a ground, from which another continues if the ground is lost: V(S), NN(R) (CCSDS 232.1-B-2, 5.1) and
/// the counts of the submissions that were sent whole. The record has a fixed size, and a program stores it in any
/// form.
#[derive(Clone, Copy, Debug, PartialEq, Eq, Hash)]
pub struct KeptGround {
    /// How many submissions are acknowledged whole, modulo 2^64.
    pub acknowledged: u64,
    /// V(S), the number of the next segment to be sent for the first time.
    pub vs: u8,
    /// NN(R), the number that the spacecraft was last known to expect.
    pub nn: u8,
    /// Whether these numbers are a session's, and no alert has shown a broken condition.
    pub known: bool,
    /// The number of further submissions that were sent whole, 0 to 127.
    pub whole: u8,
    /// For each of these, the oldest first, the number of its segments that are not acknowledged; then zeros.
    pub segments: [u8; 127],
}

/// The ground: it sends packets until they are accepted on board, and takes telemetry (docs/PROFILE.md, "The node on
/// the ground"). Its memory is released when it is dropped.
///
/// ```
/// use sedgechisel::{Config, Ground, TcFrame};
///
/// let mut ground = Ground::new(&Config::default())?;
/// ground.init_without_check()?;
/// ground.submit(4, &[0x10, 0x05, 0xc0, 0x00, 0x00, 0x00, 0xaa])?;
/// let mut room = [0; TcFrame::LONGEST];
/// assert_eq!(ground.pull(&mut room).map(|frame| frame.len()), Some(15));
/// assert_eq!(ground.pull(&mut room), None);
/// # Ok::<(), Box<dyn std::error::Error>>(())
/// ```
pub struct Ground(raw::Own<raw::Ground>);

/// The sender's state, V(S) and NN(R).
impl fmt::Debug for Ground {
    fn fmt(&self, out: &mut fmt::Formatter<'_>) -> fmt::Result {
        out.debug_struct("Ground")
            .field("state", &self.state())
            .field("vs", &self.vs())
            .field("nn", &self.nn())
            .finish_non_exhaustive()
    }
}

impl Ground {
    /// Opens a ground in state S6 with V(S) and NN(R) 0.
    ///
    /// # Errors
    ///
    /// Refused with the first parameter that is out of range, or if memory runs out.
    pub fn new(config: &Config) -> Result<Self, OpenFault> {
        let mut ground = Self(raw::Own::default());
        config.judge(raw::sedge_ground_open(ground.0.get(), &config.raw()))?;
        Ok(ground)
    }

    /// Opens a ground that continues, in state S6, from the record that [`kept`](Self::kept) of a lost ground returned.
    /// It has that ground's V(S), NN(R) and counts of submissions, and the window, the limit and the timer of the
    /// configuration. [`resume`](Self::resume) begins its next session, as after an alert.
    ///
    /// # Errors
    ///
    /// Refused as [`new`](Self::new) is, and then with [`Kept`](OpenFault::Kept).
    ///
    /// ```
    /// use sedgechisel::{Config, Ground, TcFrame};
    ///
    /// let mut ground = Ground::new(&Config::default())?;
    /// ground.init_without_check()?;
    /// ground.submit(4, &[0x10, 0x05, 0xc0, 0x00, 0x00, 0x00, 0xaa])?;
    /// let mut room = [0; TcFrame::LONGEST];
    /// let frame = ground.pull(&mut room);
    /// let kept = ground.kept(); // stored before the frame goes out
    /// # let _ = frame;
    /// drop(ground); // it is lost
    /// let mut ground = Ground::open_at(&Config::default(), &kept)?;
    /// assert_eq!(ground.resume(1), Ok(1)); // a CLCW has V(R) = 1: the packet is on board
    /// # Ok::<(), Box<dyn std::error::Error>>(())
    /// ```
    pub fn open_at(config: &Config, kept: &KeptGround) -> Result<Self, OpenFault> {
        let mut ground = Self(raw::Own::default());
        let record = raw::KeptGround {
            acknowledged: kept.acknowledged,
            vs: kept.vs,
            nn: kept.nn,
            known: kept.known.into(),
            whole: kept.whole,
            segments: kept.segments,
            zeros: [0; 5],
        };
        match raw::sedge_ground_open_kept(ground.0.get(), &config.raw(), &record) {
            raw::SEDGE_NODE_OUT_OF_RANGE if config.fault().is_none() => Err(OpenFault::Kept),
            answer => config.judge(answer).map(|()| ground),
        }
    }

    /// Returns this ground's record, which has a fixed size. A program stores the record after each call, and after a
    /// pull before the frame goes out. If the ground is lost, [`open_at`](Self::open_at) opens another one from the
    /// record. The record contains nothing about submissions that were not sent whole, bypass packets, telemetry, or
    /// what directives set.
    #[must_use]
    pub fn kept(&self) -> KeptGround {
        let mut kept = raw::KeptGround {
            acknowledged: 0,
            vs: 0,
            nn: 0,
            known: 0,
            whole: 0,
            segments: [0; 127],
            zeros: [0; 5],
        };
        self.0.read(|it| raw::sedge_ground_kept(it, &mut kept));
        KeptGround {
            acknowledged: kept.acknowledged,
            vs: kept.vs,
            nn: kept.nn,
            known: kept.known == 1,
            whole: kept.whole,
            segments: kept.segments,
        }
    }

    fn direct(&mut self, directive: u8, value: u16) -> Result<(), CopFault> {
        CopFault::judge(raw::sedge_ground_directive(self.0.get(), directive, value))
    }

    directives!();

    /// Submits one packet on a MAP under sequence control, or with blocking several, one after another. Returns the
    /// number of this submission in its session, from 0. [`resume`](Self::resume) counts submissions. If several
    /// packets together do not fit into one segment of [`part`](Config::part) octets, some of them may be on board
    /// although the submission is not counted.
    ///
    /// # Errors
    ///
    /// Refused with the first [`LinkFault`] of 1 to 6 that applies; nothing has changed then.
    pub fn submit(&mut self, map: u8, packets: &[u8]) -> Result<u64, LinkFault> {
        let number = self.submitted();
        LinkFault::judge(raw::ground_submit(self.0.get(), map, packets))?;
        Ok(number)
    }

    /// Submits one packet on a MAP by bypass (Type-BD), in any state.
    ///
    /// # Errors
    ///
    /// Refused with the first [`LinkFault`] of 2 to 6 that applies.
    pub fn bypass(&mut self, map: u8, packet: &[u8]) -> Result<(), LinkFault> {
        LinkFault::judge(raw::ground_bypass(self.0.get(), map, packet))
    }

    /// Takes the next telecommand frame for the link, with its FECF, and writes it to the beginning of the buffer.
    /// Returns `None` if nothing is to be sent now.
    pub fn pull<'o>(&mut self, room: &'o mut [u8; TcFrame::LONGEST]) -> Option<&'o mut [u8]> {
        let mut count = 0;
        done(raw::ground_pull(self.0.get(), room, &mut count));
        (count > 0).then_some(&mut room[..count])
    }

    /// Returns the next telecommand frames for the link, until nothing is to be sent now. Each is taken on request, as
    /// [`pull`](Self::pull) takes it; those that are not requested stay in the ground. An item is refused only with 6
    /// [`Memory`](LinkFault::Memory); the iterator then ends, and the frame does not count as sent.
    pub fn frames(&mut self) -> impl FusedIterator<Item = Result<Vec<u8>, LinkFault>> + '_ {
        one_by_one(|| {
            let mut count = 0;
            done(raw::sedge_ground_next(self.0.get(), &mut count));
            taken(count, |out, written| raw::ground_pull(self.0.get(), out, written))
        })
    }

    /// Writes the next telecommand frame for the link as `pull` does. Returns `None` if nothing is to be sent now. The
    /// ground does not change. The frame counts as sent once [`advance`](Self::advance) is called, for example when a
    /// radio that may refuse it has taken it.
    pub fn peek<'o>(&self, room: &'o mut [u8; TcFrame::LONGEST]) -> Option<&'o mut [u8]> {
        let mut count = 0;
        self.0.read(|it| raw::ground_peek(it, room, &mut count));
        (count > 0).then_some(&mut room[..count])
    }

    /// Counts the next frame for the link as sent, as `pull` does.
    pub fn advance(&mut self) {
        done(raw::sedge_ground_advance(self.0.get()));
    }

    /// Takes octets that came from the spacecraft: normally one telemetry frame.
    ///
    /// # Errors
    ///
    /// Refused only with 6 [`Memory`](LinkFault::Memory).
    pub fn telemetry(&mut self, octets: &[u8]) -> Result<Heard, LinkFault> {
        let mut heard = raw::Heard::default();
        in_memory(raw::ground_telemetry(self.0.get(), octets, &mut heard))?;
        Ok(Heard::from_raw(&heard))
    }

    /// Takes a CLCW that came by itself, as a front end forwards it. Passes it to the sender, as if it had arrived in a
    /// telemetry frame; telemetry is unchanged. The front end may repeat the last CLCW before the next one, which
    /// changes nothing; it must not forward an older one as if it were new.
    pub fn clcw(&mut self, octets: &[u8; 4]) -> HeardClcw {
        let mut heard = raw::Heard::default();
        done(raw::ground_clcw(self.0.get(), octets, &mut heard));
        HeardClcw::from_raw(&heard)
    }

    /// Restarts the extraction of packets from telemetry, for example after a restart of the spacecraft. An unfinished
    /// packet is dropped. Packets that wait to be taken stay.
    pub fn forget_telemetry(&mut self) {
        done(raw::sedge_ground_forget_telemetry(self.0.get()));
    }

    /// Returns the CLCW that a telemetry frame of any spacecraft and virtual channel carries; `None` if the octets do
    /// not form a valid frame, or the frame carries no CLCW.
    #[must_use]
    pub fn clcw_in(&self, octets: &[u8]) -> Option<Clcw> {
        let mut word = Default::default();
        let found = self.0.is_there(|it| raw::ground_clcw_in(it, octets, &mut word));
        found.then(|| Clcw::from_raw(word))
    }

    /// Returns the CLCW that a telemetry frame carries. This is the old name of [`clcw_in`](Self::clcw_in), up to 0.2.
    #[must_use]
    #[deprecated(since = "0.3.0", note = "it is `clcw_in` now")]
    pub fn report_in(&self, octets: &[u8]) -> Option<Clcw> {
        self.clcw_in(octets)
    }

    /// Takes the oldest packet that telemetry frames carried, if one waits.
    ///
    /// # Errors
    ///
    /// Refused only with 6 [`Memory`](LinkFault::Memory); the packet waits then.
    pub fn take_telemetry(&mut self) -> Result<Option<Vec<u8>>, LinkFault> {
        let mut count = 0;
        done(raw::sedge_ground_next_telemetry(self.0.get(), &mut count));
        taken(count, |out, written| raw::ground_take_telemetry(self.0.get(), out, written))
    }

    /// Returns the packets that telemetry frames carried, the oldest one first. Each is taken on request, as
    /// [`take_telemetry`](Self::take_telemetry) takes it; those that are not requested stay in the ground. An item is
    /// refused only with 6 [`Memory`](LinkFault::Memory); the iterator then ends, and the packet waits.
    pub fn packets(&mut self) -> impl FusedIterator<Item = Result<Vec<u8>, LinkFault>> + '_ {
        one_by_one(|| self.take_telemetry())
    }

    /// Counts a tick of the clock. Returns the alert, if there is one.
    #[must_use]
    pub fn tick(&mut self) -> Option<Alert> {
        alert_of(raw::sedge_ground_tick(self.0.get()))
    }

    /// Returns how many of the segments that were sent and not acknowledged were accepted on board when a CLCW of this
    /// value was made. They are the oldest ones (CCSDS 232.1-B-2, 5.1). If V(S) = NN(R), the result is 0 for every
    /// value. If V(S) is not NN(R) and the value does not lie from NN(R) to V(S), the result is `None`: then nothing is
    /// known of these segments. The call works after an alert too, until V(S) is set or an initiation begins. It uses
    /// only the numbers: after an alert that shows a broken condition nothing is known of these segments, whatever the
    /// call returns. For a CLCW that was made while frames were in transit on the uplink, the result may be too small
    /// (docs/CONTROL.md, "The steps").
    #[must_use]
    pub fn accepted_beyond(&self, value: u8) -> Option<u8> {
        let mut accepted = 0;
        let known = self.0.is_there(|it| raw::sedge_ground_accepted_beyond(it, value, &mut accepted));
        known.then_some(accepted)
    }

    /// Returns how many of the session's submissions, from the first on, are known to be on board whole from a CLCW of
    /// this value (CCSDS 232.1-B-2, 5.1). They are those that are acknowledged, and those whose segments were all
    /// accepted according to the CLCW. The call works after an alert too. It returns `None` if nothing is known: no
    /// session has begun, V(S) was set since, the session ended by an alert that [shows a broken
    /// condition](Alert::shows_a_broken_condition), or V(S) is not NN(R) and the value does not lie from NN(R) to V(S).
    #[must_use]
    pub fn known_on_board(&self, value: u8) -> Option<u64> {
        let mut whole = 0;
        let known = self.0.is_there(|it| raw::sedge_ground_known_on_board(it, value, &mut whole));
        known.then_some(whole)
    }

    /// Begins the next session after the alert `Timer`, `Limit` or `Terminated`, from the point that the ended session
    /// reached. Sets V(S) to the value of a CLCW that was made when nothing was in transit on the uplink, and begins by
    /// Unlock (CCSDS 232.1-B-2, 5.2.4). Returns how many of the ended session's submissions, from the first on, are on
    /// board whole; resubmit those after them. (If the packets of a submission do not fit into one segment together,
    /// some of them may be on board although it is not counted.) If V(S) = NN(R), it accepts any value, so compare the
    /// value with V(S) first (docs/CONTROL.md, "After an alert").
    ///
    /// # Errors
    ///
    /// Refused only with 10 [`NotKnown`](LinkFault::NotKnown), if nothing is known of what is on board: the sender is
    /// not in S6, no session has begun, V(S) was set since, the session ended by an alert that [shows a broken
    /// condition](Alert::shows_a_broken_condition), or V(S) is not NN(R) and the value does not lie from NN(R) to V(S).
    /// Nothing has changed then.
    pub fn resume(&mut self, value: u8) -> Result<u64, LinkFault> {
        let mut whole = 0;
        LinkFault::judge(raw::sedge_ground_resume(self.0.get(), value, &mut whole))?;
        Ok(whole)
    }

    fn read_ground(&self) -> raw::GroundReading {
        let mut read = raw::GroundReading::default();
        self.0.read(|it| raw::sedge_ground_read(it, &mut read));
        read
    }

    ground_readings!();
}
