//! Commands that are executed at most once and in order on board, over restarts at any moment: the board's part, and
//! the ground's codecs.

use crate::ffi;
use crate::numbers::{done, never};

faults! {
    /// Why a board does not take a packet, why a record or a status is not read, or why a packet is not written.
    LogFault {
        Layout = 1, "not exactly one packet of this layout, or not the layout's number of octets";
        Check = 2, "the check does not hold, or a field has a value that the layout does not allow";
        Starting = 3, "the board has started, and a copy of its record is being repaired";
        Busy = 4, "the record is being written, a command is being executed, or a restart is due";
        Lost = 5, "the board has lost its record";
        Behind = 6, "a command with this number was executed or passed over";
        Ahead = 7, "the command's number is above the next one";
        OtherBoot = 8, "the order is for a different boot count";
        NotLost = 9, "the order brings a record, but the board still has its own";
        OtherMark = 10, "the order brings a record for another loss";
        FieldRange = 11, "a field is out of range, or the data are too long";
        Room = 12, "the output is too short for the packet";
    }
}

/// One of the two places of the memory that survives restarts.
#[derive(Clone, Copy, Debug, PartialEq, Eq, Hash)]
pub enum LogPlace {
    /// The first place.
    First,
    /// The second place.
    Second,
}

/// What the program on board does next.
#[derive(Debug, PartialEq, Eq)]
pub enum LogAction {
    /// Write these octets at this place.
    Write(LogPlace, [u8; 50]),
    /// Execute the command that was taken last. This is its number.
    Execute(u32),
    /// Restart: an order was obeyed.
    Restart,
}

/// Decides on board which command is executed next: each at most once and in order, over restarts at any moment. It
/// does no input or output, and needs no memory.
///
/// ```
/// use sedgechisel::{Executor, LogAction, LogPlace};
///
/// let mut places = [Executor::new_record(); 2];
/// let mut executor = Executor::start(&places[0], &places[1], 7);
/// while let Some(due) = executor.next() {
///     match due.action() {
///         LogAction::Write(LogPlace::First, octets) => places[0] = *octets,
///         LogAction::Write(LogPlace::Second, octets) => places[1] = *octets,
///         LogAction::Execute(number) => println!("{number}"),
///         LogAction::Restart => break,
///     }
///     due.done();
/// }
/// assert_eq!(&places[0][..4], [0, 0, 0, 1]); // the boot count
/// ```
///
/// The program completes an action before it requests the next one, so this does not compile:
///
/// ```compile_fail,E0499
/// # use sedgechisel::Executor;
/// # let mut executor = Executor::start(&[], &[], 7);
/// let first = executor.next();
/// let second = executor.next();
/// first.map(|due| due.done());
/// ```
#[derive(Clone, Debug)]
pub struct Executor {
    log: ffi::Log,
}

impl Executor {
    /// The number of octets at one place, which holds the record twice.
    pub const RECORD: usize = 50;

    /// The number of octets in a status.
    pub const STATUS: usize = 27;

    /// Starts with the octets at the two places of the memory that survives restarts, 50 each. A place with another
    /// number of octets, or with octets that do not form a valid record, has no record. The mark must differ at each
    /// start, and comes from a clock or is random: if neither place has a record, it is the mark of this loss.
    #[must_use]
    pub fn start(first: &[u8], second: &[u8], mark: u32) -> Self {
        let mut log = ffi::Log::default();
        ffi::log_start(&mut log, first, second, mark);
        Self { log }
    }

    /// Returns the program's next action. If there is none, a command or an order may be passed in.
    #[allow(clippy::should_implement_trait)]
    pub fn next(&mut self) -> Option<Due<'_>> {
        let (mut octets, mut number) = ([0; Self::RECORD], 0);
        let kind = ffi::log_next(&self.log, &mut octets, &mut number);
        let action = match kind {
            ffi::SEDGE_LOG_NOTHING => return None,
            ffi::SEDGE_LOG_WRITE_FIRST => LogAction::Write(LogPlace::First, octets),
            ffi::SEDGE_LOG_WRITE_SECOND => LogAction::Write(LogPlace::Second, octets),
            ffi::SEDGE_LOG_EXECUTE => LogAction::Execute(number),
            ffi::SEDGE_LOG_RESTART => LogAction::Restart,
            _ => never(),
        };
        Some(Due { executor: self, action, kind, number })
    }

    /// Takes the octets of a packet that arrived if it is the next command, and returns the mission's octets in them.
    /// The program keeps these until the command has been executed.
    ///
    /// # Errors
    ///
    /// Any other packet is refused with the first of [`LogFault`] 1 to 7, and changes nothing.
    pub fn offer<'o>(&mut self, octets: &'o [u8]) -> Result<&'o [u8], LogFault> {
        let mut content = ffi::Part::default();
        LogFault::judge(ffi::log_offer(&mut self.log, octets, &mut content))?;
        Ok(content.of(octets))
    }

    /// Takes the octets of an order that arrived. The next action is then to restart; or a board that has lost its
    /// record continues with the record that the order brings.
    ///
    /// # Errors
    ///
    /// Any other packet is refused with the first of [`LogFault`] 1 to 5 and 8 to 10, and changes nothing.
    pub fn obey(&mut self, octets: &[u8]) -> Result<(), LogFault> {
        LogFault::judge(ffi::log_obey(&mut self.log, octets))
    }

    /// Returns the status for telemetry, with the number of commands that wait on board, at most 255.
    #[must_use]
    pub fn status(&self, waiting: usize) -> [u8; Self::STATUS] {
        let mut octets = [0; Self::STATUS];
        done(ffi::log_status(&self.log, waiting, &mut octets));
        octets
    }

    /// Returns the octets that both places have before a new board starts for the first time.
    #[must_use]
    pub fn new_record() -> [u8; Self::RECORD] {
        let mut octets = [0; Self::RECORD];
        done(ffi::log_new_record(&mut octets));
        octets
    }
}

/// An action that is due: the program completes it, and then consumes it with [`done`](Due::done). If it is dropped
/// instead, [`Executor::next`] returns the action again.
#[derive(Debug)]
#[must_use = "the action is due until it is done"]
pub struct Due<'e> {
    executor: &'e mut Executor,
    action: LogAction,
    kind: u8,
    number: u32,
}

impl Due<'_> {
    /// What is due.
    #[must_use]
    pub const fn action(&self) -> &LogAction {
        &self.action
    }

    /// Returns the status for telemetry while the action is due, as [`Executor::status`] does.
    #[must_use]
    pub fn status(&self, waiting: usize) -> [u8; Executor::STATUS] {
        self.executor.status(waiting)
    }

    /// Records that the action is complete.
    pub fn done(self) {
        done(ffi::sedge_log_done(&mut self.executor.log, self.kind, self.number));
    }
}

/// What a board keeps about its commands.
#[derive(Clone, Copy, Debug, Default, PartialEq, Eq, Hash)]
pub struct LogRecord {
    /// How often the board has started.
    pub boot: u32,
    /// The number of the last command that was executed or passed over. Numbers begin at 1.
    pub last: u32,
    /// A bit for each of the 64 numbers up to `last`, the lowest for `last`: 1 if it is known that the command was
    /// executed, whole.
    pub known: u64,
    /// The running check of all commands that were taken ([`history_after`]).
    pub history: u32,
    /// Whether the next command is begun.
    pub begun: bool,
}

/// What the status of a board states.
#[derive(Clone, Copy, Debug, PartialEq, Eq, Hash)]
pub enum BoardStatus {
    /// The record, as it is at both places.
    Says(LogRecord),
    /// The record is being written: the previous status holds.
    Changes,
    /// The board has just started: the previous status holds.
    Starts,
    /// The board has lost its record. This is the mark of the loss.
    Lost(u32),
}

impl BoardStatus {
    /// Reads a status of 27 octets. Also returns how many commands wait on board, at most 255.
    ///
    /// # Errors
    ///
    /// Refused with the first of 1 [`Layout`](LogFault::Layout) and 2 [`Check`](LogFault::Check).
    pub fn decode(octets: &[u8]) -> Result<(Self, u8), LogFault> {
        let mut found = ffi::BoardStatus::default();
        LogFault::judge(ffi::log_status_decode(octets, &mut found))?;
        let kept = found.kept;
        let status = match found.kind {
            ffi::SEDGE_LOG_STATUS_SAYS => Self::Says(LogRecord {
                boot: kept.boot,
                last: kept.last,
                known: kept.known,
                history: kept.history,
                begun: kept.begun != 0,
            }),
            ffi::SEDGE_LOG_STATUS_CHANGES => Self::Changes,
            ffi::SEDGE_LOG_STATUS_STARTS => Self::Starts,
            ffi::SEDGE_LOG_STATUS_LOST => Self::Lost(found.mark),
            _ => never(),
        };
        Ok((status, found.waiting))
    }
}

/// Writes the command packet with this APID, sequence count and number, and the mission's octets, to the beginning of
/// `out`, and returns its octets, 14 more than the mission's.
///
/// # Errors
///
/// Refused with the first of 11 [`FieldRange`](LogFault::FieldRange) and 12 [`Room`](LogFault::Room), with nothing
/// written.
pub fn command_packet<'o>(
    apid: u16, count: u16, number: u32, content: &[u8], out: &'o mut [u8],
) -> Result<&'o mut [u8], LogFault> {
    let mut total = 0;
    LogFault::judge(ffi::log_command_encode(apid, count, number, content, out, &mut total))?;
    Ok(&mut out[..total])
}

/// An order to the board itself. It is sent by bypass (Type-BD).
#[derive(Clone, Copy, Debug, PartialEq, Eq, Hash)]
pub enum LogOrder {
    /// The board with this boot count restarts.
    Restart {
        /// The boot count.
        boot: u32,
    },
    /// The board that has lost its record, with this mark of the loss, gets this record.
    Rebuild {
        /// The mark of the loss.
        mark: u32,
        /// The boot count of the record.
        boot: u32,
        /// The last number of the record.
        last: u32,
    },
}

impl LogOrder {
    /// The number of octets in an order.
    pub const LENGTH: usize = 23;

    /// Writes the order as a packet with this APID and sequence count.
    ///
    /// # Errors
    ///
    /// Refused with 11 [`FieldRange`](LogFault::FieldRange).
    pub fn encode(&self, apid: u16, count: u16) -> Result<[u8; Self::LENGTH], LogFault> {
        let order = match *self {
            Self::Restart { boot } => {
                ffi::LogOrder { boot, last: 0, mark: 0, kind: ffi::SEDGE_LOG_ORDER_RESTART }
            }
            Self::Rebuild { mark, boot, last } => {
                ffi::LogOrder { boot, last, mark, kind: ffi::SEDGE_LOG_ORDER_REBUILD }
            }
        };
        let (mut out, mut total) = ([0; Self::LENGTH], 0);
        LogFault::judge(ffi::log_order_encode(&order, apid, count, &mut out, &mut total))?;
        Ok(out)
    }
}

/// Returns the history after one more command packet: CRC-32 continued over the last four octets of the packet. The
/// history of no packets is 0. A ground compares the history of the packets that it sent with the history of a status.
#[must_use]
pub fn history_after(history: u32, packet: &[u8]) -> u32 {
    ffi::log_history_after(history, packet)
}
