//! The sender FOP-1 of one virtual channel (CCSDS 232.1-B-2, section 5, in the profile of docs/PROFILE.md).

use crate::clcw::Clcw;
use crate::directives::SEDGE_SET_LIMIT;
use crate::farm::CopFault;
use crate::ffi;
use crate::numbers::never;
use crate::tc::Command;

numbers! {
    /// The sender's state (CCSDS 232.1-B-2, 5.1.2).
    FopState {
        /// Active.
        S1 = 1,
        /// Retransmit without wait.
        S2 = 2,
        /// Retransmit with wait.
        S3 = 3,
        /// Initialising without a control command.
        S4 = 4,
        /// Initialising with a control command.
        S5 = 5,
        /// Initial.
        S6 = 6,
    }
}

reasons! {
    /// Why the sender has given up (CCSDS 232.1-B-2, 5.2.5). An alert discards all units, including the one that waits.
    /// Nothing else discards units.
    Alert {
        Lockout = 1, "a CLCW has the lockout flag";
        NnR = 2, "a CLCW's value is not from NN(R) to V(S)";
        Clcw = 3, "a CLCW has the wait flag without the retransmit flag";
        Synch = 4, "a CLCW requests retransmission when there is nothing to retransmit, or no longer requests it \
            before anything was acknowledged";
        Limit = 5, "a CLCW requests retransmission, and the transmission limit is 1";
        Timer = 6, "the timer has expired, and nothing may be sent again";
        Terminated = 7, "the directive Terminate";
    }
}

/// The control command of the state S5, and whether it must be sent.
#[derive(Clone, Copy, Debug, PartialEq, Eq, Hash)]
pub enum Control {
    /// None, as in all other states.
    Idle,
    /// It must be sent.
    Due(Command),
    /// It has been sent.
    Sent(Command),
}

/// What is to be sent on the link next.
#[derive(Clone, Copy, Debug, PartialEq, Eq, Hash)]
pub enum Next {
    /// The control command Unlock, in a Type-BC frame.
    Unlock,
    /// The control command Set V(R) with this number, in a Type-BC frame.
    SetVr(u8),
    /// The unit that waits, in a Type-AD frame with this number; keep the unit under the number.
    First(u8),
    /// The unit kept under this number, in a Type-AD frame with the number.
    Again(u8),
}

/// The effect of a CLCW.
#[derive(Clone, Copy, Debug, PartialEq, Eq, Hash)]
pub struct Reported {
    /// The number of units that are acknowledged, the oldest of those sent; their slots may be used again.
    pub released: u8,
    /// Why the sender has given up, if it has.
    pub alert: Option<Alert>,
}

/// The numbers of a sender (CCSDS 232.1-B-2, 5.1), which a program may keep and continue from.
///
/// In S1 to S5 the number of units sent is V(S) - NN(R), modulo 256; in S6 no unit is sent or waits, and the timer is
/// off; only S5 has a control command.
#[derive(Clone, Copy, Debug, PartialEq, Eq, Hash)]
pub struct FopFields {
    /// The timer's value in ticks, at least 1.
    pub timer: u16,
    /// The ticks that are left while the timer runs, and 0 while it is off.
    pub ticks: u16,
    /// Half the receiver's window width, 1 to 127: the maximum number of units sent and not acknowledged.
    pub room: u8,
    /// The state.
    pub state: FopState,
    /// V(S), the number of the next unit to be sent for the first time.
    pub vs: u8,
    /// NN(R), the number that the receiver was last known to expect.
    pub nn: u8,
    /// Whether a unit waits to be sent for the first time.
    pub waiting: bool,
    /// The number of units sent and not acknowledged, at most `room`.
    pub sent: u8,
    /// The number of these, the last ones, that are due to be retransmitted.
    pub due: u8,
    /// The window K, 1 to `room`.
    pub window: u8,
    /// The transmission limit, at least 1.
    pub limit: u8,
    /// The transmission count, at least 1.
    pub count: u8,
    /// The control command of S5.
    pub control: Control,
}

/// The sender FOP-1 of one virtual channel (CCSDS 232.1-B-2, section 5, in the profile of docs/PROFILE.md).
///
/// The sender keeps numbers; its caller keeps the units, which are the data of frames. One unit waits to be sent for
/// the first time, and those that are sent and not acknowledged have the numbers from NN(R) to V(S) - 1, modulo 256, at
/// most 127 of them. So 256 slots, one for each number, are always enough:
///
/// ```
/// use sedgechisel::{Clcw, Fop, Next, Reported};
///
/// let mut fop = Fop::new(20, 10, 3, 50)?;
/// let (mut waiting, mut sent) = ("", [""; 256]);
/// fop.init_without_check()?;
/// if fop.submit().is_ok() {
///     waiting = "a unit";
/// }
/// match fop.next() {
///     Some(Next::First(number)) => sent[usize::from(number)] = waiting, // and send it in a Type-AD frame
///     Some(Next::Again(number)) => println!("send {} again", sent[usize::from(number)]),
///     Some(Next::Unlock | Next::SetVr(_)) => println!("send a Type-BC frame"),
///     None => {}
/// }
/// let word = Clcw { vcid: 2, value: 1, ..Clcw::default() };
/// assert_eq!(fop.clcw(2, &word), Some(Reported { released: 1, alert: None }));
/// # Ok::<(), sedgechisel::CopFault>(())
/// ```
#[derive(Clone, Debug, PartialEq, Eq)]
pub struct Fop(ffi::Fop);

impl Fop {
    /// Begins a sender in state S6 with V(S) and NN(R) 0, for a receiver of this window width, with the window K, the
    /// transmission limit and the timer's value in ticks.
    ///
    /// # Errors
    ///
    /// Refused with the first of 1 [`Width`](CopFault::Width) (not even, 2 to 254), 2 [`Window`](CopFault::Window) (not
    /// 1 to half the width), 3 [`Limit`](CopFault::Limit) (0) and 4 [`Timer`](CopFault::Timer) (0).
    pub fn new(width: u8, window: u8, limit: u8, timer: u16) -> Result<Self, CopFault> {
        let mut fop = ffi::Fop::default();
        CopFault::judge(ffi::sedge_fop_open(&mut fop, width, window, limit, timer))?;
        Ok(Self(fop))
    }

    /// Returns a sender with the fields that [`fields`](Fop::fields) returned.
    ///
    /// # Errors
    ///
    /// Refused with 255 [`Damaged`](CopFault::Damaged) if no sender can have these fields.
    pub fn restore(fields: FopFields) -> Result<Self, CopFault> {
        let (control, vr) = fields.control.raw();
        let mut fop = ffi::Fop {
            timer: fields.timer,
            ticks: fields.ticks,
            room: fields.room,
            state: fields.state.number(),
            vs: fields.vs,
            nn: fields.nn,
            waiting: fields.waiting.into(),
            sent: fields.sent,
            due: fields.due,
            window: fields.window,
            limit: fields.limit,
            count: fields.count,
            control,
            vr,
        };
        // Setting the limit to the value that it has changes nothing in a sender. The call refuses fields that no sender
        // can have.
        CopFault::judge(ffi::sedge_fop_directive(&mut fop, SEDGE_SET_LIMIT, fields.limit.into()))?;
        Ok(Self(fop))
    }

    /// Returns the sender's present fields.
    #[must_use]
    pub fn fields(&self) -> FopFields {
        FopFields {
            timer: self.0.timer,
            ticks: self.0.ticks,
            room: self.0.room,
            state: FopState::of(self.0.state),
            vs: self.0.vs,
            nn: self.0.nn,
            waiting: self.0.waiting != 0,
            sent: self.0.sent,
            due: self.0.due,
            window: self.0.window,
            limit: self.0.limit,
            count: self.0.count,
            control: Control::from_raw(self.0.control, self.0.vr),
        }
    }

    /// The sender's state.
    #[must_use]
    pub fn state(&self) -> FopState {
        FopState::of(self.0.state)
    }

    fn direct(&mut self, directive: u8, value: u16) -> Result<(), CopFault> {
        CopFault::judge(ffi::sedge_fop_directive(&mut self.0, directive, value))
    }

    directives!();

    /// Submits a unit to be sent under sequence control. The unit waits, and the caller keeps it.
    ///
    /// # Errors
    ///
    /// Refused with 6 [`NotOpen`](CopFault::NotOpen) in S6, and 7 [`Busy`](CopFault::Busy) while another one waits.
    pub fn submit(&mut self) -> Result<(), CopFault> {
        CopFault::judge(ffi::sedge_fop_submit(&mut self.0))
    }

    /// Takes what is to be sent on the link next, if there is anything.
    #[must_use]
    #[allow(clippy::should_implement_trait)] // the header's name; a sender that has nothing now may have more later
    pub fn next(&mut self) -> Option<Next> {
        let mut number = 0;
        match ffi::sedge_fop_next(&mut self.0, &mut number) {
            ffi::SEDGE_NEXT_NOTHING => None,
            ffi::SEDGE_NEXT_UNLOCK => Some(Next::Unlock),
            ffi::SEDGE_NEXT_SET_VR => Some(Next::SetVr(number)),
            ffi::SEDGE_NEXT_FIRST => Some(Next::First(number)),
            ffi::SEDGE_NEXT_AGAIN => Some(Next::Again(number)),
            _ => never(),
        }
    }

    /// Takes a CLCW for this sender, whose virtual channel is `vcid`. Returns `None`, and changes nothing, if the CLCW
    /// reports on another channel.
    #[must_use]
    pub fn clcw(&mut self, vcid: u8, word: &Clcw) -> Option<Reported> {
        let mut released = 0;
        match ffi::sedge_fop_clcw(&mut self.0, vcid, &word.raw(), &mut released) {
            ffi::SEDGE_ABSENT => None,
            alert => Some(Reported { released, alert: alert_of(alert) }),
        }
    }

    /// Takes a CLCW. This is the old name of [`clcw`](Fop::clcw), up to 0.2.
    #[must_use]
    #[deprecated(since = "0.3.0", note = "it is `clcw` now")]
    pub fn report(&mut self, vcid: u8, word: &Clcw) -> Option<Reported> {
        self.clcw(vcid, word)
    }

    /// Counts a tick of the clock. Returns the alert, if there is one.
    #[must_use]
    pub fn tick(&mut self) -> Option<Alert> {
        alert_of(ffi::sedge_fop_tick(&mut self.0))
    }

    /// Returns how many of the units that were sent and not acknowledged were accepted on board when a CLCW of this
    /// value was made. They are the oldest ones, with the numbers from NN(R) to `value` - 1 (CCSDS 232.1-B-2, 5.1). If
    /// V(S) = NN(R), the result is 0 for every value. If V(S) is not NN(R) and the value does not lie from NN(R) to
    /// V(S), the result is `None`: then nothing is known of these units. The call works after an alert too, until V(S)
    /// is set or an initiation begins. It uses only the numbers: after an alert that shows a broken condition nothing
    /// is known of these units, whatever the call returns. For a CLCW that was made while frames were in transit on the
    /// uplink, the result may be too small (docs/CONTROL.md, "The steps").
    #[must_use]
    pub fn accepted_beyond(&self, value: u8) -> Option<u8> {
        let mut accepted = 0;
        (ffi::sedge_fop_accepted_beyond(&self.0, value, &mut accepted) == ffi::SEDGE_OK).then_some(accepted)
    }
}

/// Returns what [`Fop::accepted_beyond`] returns, for a sender with this NN(R) and V(S).
#[must_use]
pub fn accepted_beyond(nn: u8, vs: u8, value: u8) -> Option<u8> {
    let mut accepted = 0;
    (ffi::sedge_accepted_beyond(nn, vs, value, &mut accepted) == ffi::SEDGE_OK).then_some(accepted)
}

fn alert_of(number: u8) -> Option<Alert> {
    (number != ffi::SEDGE_NO_ALERT).then(|| Alert::of(number))
}

impl Alert {
    /// Returns whether the alert shows a broken condition of the link: true for `Lockout`, `NnR`, `Clcw` and `Synch`.
    /// None of these can occur in a confirmed session that was begun by CLCW check, Unlock or Set V(R), while the
    /// conditions hold (docs/PROMISES.md). So the spacecraft has restarted, the link reorders or repeats frames, or
    /// there is a second station. Before a session is confirmed, the cause may be something that an earlier session
    /// left behind, such as a receiver in Lockout.
    ///
    /// After one of these alerts nothing is known of what is on board until a session begins, and `Ground::resume`
    /// refuses (docs/CONTROL.md, "After a reset"). After any other alert, the next session continues with
    /// `Ground::resume` (docs/CONTROL.md, "After an alert").
    #[must_use]
    pub const fn shows_a_broken_condition(self) -> bool {
        match self {
            Self::Lockout | Self::NnR | Self::Clcw | Self::Synch => true,
            Self::Limit | Self::Timer | Self::Terminated => false,
        }
    }

    /// What to look for after the alert, and how to recover: a text for people.
    #[must_use]
    pub const fn advice(self) -> &'static str {
        match self {
            Self::Lockout | Self::NnR | Self::Clcw | Self::Synch => {
                "a condition is broken (restart on board, reordering, second station?): begin anew"
            }
            Self::Limit | Self::Timer => {
                "frames or CLCWs were lost or late, or the board has no room: after a silent round trip, resume by a newer CLCW, if the boot count is the same"
            }
            Self::Terminated => {
                "the session was terminated: after a silent round trip, resume by a newer CLCW, if the boot count is the same"
            }
        }
    }
}

impl Control {
    fn from_raw(control: u8, vr: u8) -> Self {
        match control {
            ffi::SEDGE_CONTROL_IDLE => Self::Idle,
            ffi::SEDGE_CONTROL_UNLOCK_DUE => Self::Due(Command::Unlock),
            ffi::SEDGE_CONTROL_UNLOCK_SENT => Self::Sent(Command::Unlock),
            ffi::SEDGE_CONTROL_SET_VR_DUE => Self::Due(Command::SetVr(vr)),
            ffi::SEDGE_CONTROL_SET_VR_SENT => Self::Sent(Command::SetVr(vr)),
            _ => never(),
        }
    }

    fn raw(self) -> (u8, u8) {
        match self {
            Self::Idle => (ffi::SEDGE_CONTROL_IDLE, 0),
            Self::Due(Command::Unlock) => (ffi::SEDGE_CONTROL_UNLOCK_DUE, 0),
            Self::Sent(Command::Unlock) => (ffi::SEDGE_CONTROL_UNLOCK_SENT, 0),
            Self::Due(Command::SetVr(vr)) => (ffi::SEDGE_CONTROL_SET_VR_DUE, vr),
            Self::Sent(Command::SetVr(vr)) => (ffi::SEDGE_CONTROL_SET_VR_SENT, vr),
        }
    }
}
