//! The receiver FARM-1 of one virtual channel (CCSDS 232.1-B-2, section 6).

use crate::clcw::{Clcw, ClcwFault};
use crate::ffi;
use crate::numbers::done;
use core::fmt;

faults! {
    /// Why a call of a receiver or a sender is refused.
    CopFault {
        Width = 1, "the window width is not an even number from 2 to 254";
        Window = 2, "the sender's window K is not from 1 to half the width";
        Limit = 3, "the transmission limit is 0";
        Timer = 4, "the timer's value is 0";
        NotOpen = 6, "the sender is in its state S6";
        Busy = 7, "a unit is already waiting";
        WrongState = 8, "the directive is not allowed in the sender's state";
        Damaged = 255, "a struct has a value that no sender, receiver or MAP can have, or one outside its \
            enumeration";
    }
}

numbers! {
    /// What the receiver does with a Type-AD frame (CCSDS 232.1-B-2, 6.1.8).
    Verdict {
        /// The expected frame: its data is passed on, and V(R) increases by 1.
        Accepted = 0,
        /// In the positive window, ahead of V(R): discarded, and a retransmission is requested.
        Ahead = 1,
        /// The expected frame, but no room for it: discarded, and a retransmission is requested.
        NoBuffer = 2,
        /// In the negative window: a repetition, discarded.
        Behind = 3,
        /// Outside both windows: discarded, and the receiver is locked.
        Outside = 4,
        /// Discarded because of the state.
        Discarded = 5,
    }
}

impl Verdict {
    /// The word that `tctool` prints.
    #[must_use]
    pub const fn name(self) -> &'static str {
        match self {
            Self::Accepted => "accepted",
            Self::Ahead => "ahead",
            Self::NoBuffer => "nobuffer",
            Self::Behind => "behind",
            Self::Outside => "outside",
            Self::Discarded => "discarded",
        }
    }
}

impl fmt::Display for Verdict {
    fn fmt(&self, out: &mut fmt::Formatter<'_>) -> fmt::Result {
        out.pad(self.name())
    }
}

numbers! {
    /// The receiver's state (CCSDS 232.1-B-2, 6.1.2).
    FarmMode {
        /// S1: frames are accepted.
        Open = 0,
        /// S2: there was no room for a frame; a release opens the receiver again.
        Wait = 1,
        /// S3: a number outside both windows arrived; only Unlock opens the receiver again.
        Lockout = 2,
    }
}

/// The numbers of a receiver (CCSDS 232.1-B-2, 6.1), which a program may keep and continue from.
#[derive(Clone, Copy, Debug, PartialEq, Eq, Hash)]
pub struct FarmFields {
    /// The width of both windows together; each is half of it. Even, 2 to 254.
    pub width: u8,
    /// V(R), the number of the next frame to be accepted.
    pub vr: u8,
    /// The lockout flag.
    pub lockout: bool,
    /// The wait flag; while it is set, the retransmit flag is set too.
    pub wait: bool,
    /// The retransmit flag.
    pub retransmit: bool,
    /// FARM-B, the count of Type-B frames modulo 4.
    pub farm_b: u8,
}

/// The receiver FARM-1 of one virtual channel (CCSDS 232.1-B-2, section 6). Pass it only the frames of its own
/// spacecraft and channel: no call here sees which ones a frame belongs to.
#[derive(Clone, Debug, PartialEq, Eq)]
pub struct Farm(ffi::Farm);

impl Farm {
    /// Begins a receiver in state Open, with all flags 0 and FARM-B 0, that expects the number `vr`.
    ///
    /// # Errors
    ///
    /// Refused with 1 [`Width`](CopFault::Width) unless the width of its window is even, 2 to 254.
    pub fn new(width: u8, vr: u8) -> Result<Self, CopFault> {
        let mut farm = ffi::Farm::default();
        CopFault::judge(ffi::sedge_farm_open(&mut farm, width, vr))?;
        Ok(Self(farm))
    }

    /// Returns a receiver with the fields that [`fields`](Farm::fields) returned.
    ///
    /// # Errors
    ///
    /// Refused with 255 [`Damaged`](CopFault::Damaged) if no receiver can have these fields.
    pub fn restore(fields: FarmFields) -> Result<Self, CopFault> {
        let farm = ffi::Farm {
            width: fields.width,
            vr: fields.vr,
            lockout: fields.lockout.into(),
            wait: fields.wait.into(),
            retransmit: fields.retransmit.into(),
            farm_b: fields.farm_b,
        };
        match ffi::sedge_farm_state(&farm) {
            ffi::SEDGE_DAMAGED => Err(CopFault::Damaged),
            _ => Ok(Self(farm)),
        }
    }

    /// Returns the receiver's present fields.
    #[must_use]
    pub fn fields(&self) -> FarmFields {
        FarmFields {
            width: self.0.width,
            vr: self.0.vr,
            lockout: self.0.lockout != 0,
            wait: self.0.wait != 0,
            retransmit: self.0.retransmit != 0,
            farm_b: self.0.farm_b,
        }
    }

    /// The receiver's state.
    #[must_use]
    pub fn mode(&self) -> FarmMode {
        FarmMode::of(ffi::sedge_farm_state(&self.0))
    }

    /// Judges a Type-AD frame with the number `n`; `buffer_free` states whether there is room for its data. If its
    /// verdict is [`Accepted`](Verdict::Accepted), pass on the data.
    #[must_use]
    pub fn ad(&mut self, n: u8, buffer_free: bool) -> Verdict {
        Verdict::of(ffi::sedge_farm_ad(&mut self.0, n, buffer_free))
    }

    /// Counts a Type-BD frame; pass on its data in every state.
    pub fn bd(&mut self) {
        done(ffi::sedge_farm_bd(&mut self.0));
    }

    /// Executes the control command Unlock.
    pub fn unlock(&mut self) {
        done(ffi::sedge_farm_unlock(&mut self.0));
    }

    /// Executes the control command Set V(R); in Lockout it is only counted, and V(R) does not change.
    pub fn set_vr(&mut self, vr: u8) {
        done(ffi::sedge_farm_set_vr(&mut self.0, vr));
    }

    /// Records that there is room on board again.
    pub fn released(&mut self) {
        done(ffi::sedge_farm_released(&mut self.0));
    }

    /// Returns the CLCW that reports the receiver's present state, for the virtual channel `vcid`; the flags for the
    /// radio channel and bit lock are false.
    ///
    /// # Errors
    ///
    /// Refused with 5 [`Range`](ClcwFault::Range) if `vcid` is not below 64.
    pub fn control_word(&self, vcid: u8) -> Result<Clcw, ClcwFault> {
        let mut word = ffi::Clcw::default();
        ClcwFault::judge(ffi::sedge_farm_control_word(&self.0, vcid, &mut word))?;
        Ok(Clcw::from_raw(word))
    }

    /// Returns the CLCW. This is the old name of [`control_word`](Farm::control_word), up to 0.2.
    #[deprecated(since = "0.3.0", note = "it is `control_word` now")]
    #[allow(clippy::missing_errors_doc)]
    pub fn report(&self, vcid: u8) -> Result<Clcw, ClcwFault> {
        self.control_word(vcid)
    }
}
