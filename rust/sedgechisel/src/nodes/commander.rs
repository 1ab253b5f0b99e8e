//! A ground whose commands are executed on board once and in order, over restarts of both ends at any moment.

use super::{room_for, Config, Heard, HeardClcw, OpenFault};
use crate::ffi::nodes as raw;
use crate::numbers::{done, never};
use crate::{Alert, FopState, TcFrame};
use alloc::vec::Vec;
use core::fmt;

faults! {
    /// Why a commander refuses a call; nothing has changed then.
    LedgerFault {
        Layout = 1, "not the number of octets of a status";
        Check = 2, "the check of a status does not hold, or a field has a value that the layout does not allow";
        FieldRange = 3, "a MAP is not open, an APID or a sequence count is out of range, or the octets are too many \
            for a packet";
        TooLong = 4, "the packet would be longer than the configured maximum";
        NoNumber = 5, "all numbers have been given";
        NotLost = 6, "the board has not lost its record";
        NoBoot = 7, "no boot count is left for an order that brings a record";
        Owing = 8, "something must be stored or reported first";
        Memory = 9, "out of memory";
    }
}

numbers! {
    /// The progress of a command without a fate, by COP-1.
    Progress {
        /// Not all of it has been sent.
        Waits = 0,
        /// All of it has been sent.
        Sent = 1,
        /// All of it is acknowledged.
        OnBoard = 2,
    }
}

/// The settings of a mission.
#[derive(Clone, Copy, Debug, PartialEq, Eq, Hash)]
pub struct Mission {
    /// The longest time in ticks from sending a frame to the arrival of a CLCW that was made after it.
    pub round_trip: u32,
    /// The APID of orders, 0 to 2,046.
    pub orders: u16,
    /// The APID of the board's status.
    pub status: u16,
    /// The MAP of orders, one that is open.
    pub map: u8,
    /// Whether sending stops after a restart of the board, or the loss of its record, until
    /// [`go_on`](Commander::go_on) is called. The first status of a board counts as a restart.
    pub holds: bool,
}

/// What the program does next.
#[derive(Clone, Copy, Debug, PartialEq, Eq)]
pub enum CommanderAction<'d> {
    /// Append these octets to the store, and make sure that they are there.
    Store(&'d [u8]),
    /// Report that the command with this tag was executed, whole.
    Executed(u64),
    /// Report that nothing is known of the command with this tag: its execution may have begun. It is not executed
    /// later.
    Unknown(u64),
    /// Report that the board has restarted. This is its new boot count.
    Restarted(u32),
    /// Report that the board has lost its record. This is the mark of the loss. The board executes nothing until an
    /// operator calls [`rebuild`](Commander::rebuild).
    RecordLost(u32),
    /// Report that the board has passed the numbers from the first to the second, and that their commands are not this
    /// store's.
    Foreign(u32, u32),
    /// Nothing need be done: the sender has given up for this reason, and the commander begins another session by
    /// itself.
    Alert(Alert),
    /// Take this packet of telemetry. If it contains a status of the board, the commander has taken the status already.
    Telemetry(&'d [u8]),
    /// Send this frame.
    Send(&'d [u8]),
}

/// The commander: a [`Ground`](crate::Ground) whose commands are executed on board once and in order, over restarts of
/// both ends at any moment (docs/COMMANDING.md). On board, an [`Executor`](crate::Executor) takes them. Its memory is
/// released when it is dropped.
///
/// ```
/// use sedgechisel::{Commander, CommanderAction, Config, Mission};
///
/// let mission = Mission { round_trip: 5, orders: 1, status: 2, map: 0, holds: false };
/// let mut store = Vec::new(); // what survives a restart of the program
/// let (mut commander, good) = Commander::open(&Config::default(), &mission, &store)?;
/// store.truncate(good);
/// assert_eq!(commander.command(7, 4, 5, 0, b"on")?, 1);
/// while let Some(due) = commander.next()? {
///     match due.action() {
///         CommanderAction::Store(octets) => store.extend_from_slice(octets),
///         CommanderAction::Send(frame) => println!("{frame:02x?}"),
///         CommanderAction::Telemetry(packet) => println!("{packet:02x?}"),
///         CommanderAction::Alert(_) => {}
///         report => println!("{report:?}"),
///     }
///     due.done()?;
/// }
/// assert_eq!(store.len(), 18 + 6 + 4 + 2 + 4); // the command is in the store, before its frame is sent
/// # Ok::<(), Box<dyn std::error::Error>>(())
/// ```
///
/// The program completes an action before it requests the next one, so this does not compile:
///
/// ```compile_fail,E0499
/// # use sedgechisel::{Commander, Config, Mission};
/// # let mission = Mission { round_trip: 5, orders: 1, status: 2, map: 0, holds: false };
/// # let (mut commander, _) = Commander::open(&Config::default(), &mission, &[]).unwrap();
/// let first = commander.next();
/// let second = commander.next();
/// first.map(|due| due.map(|it| it.done()));
/// ```
pub struct Commander {
    node: raw::Own<raw::Commander>,
    /// The last frame.
    frame: [u8; TcFrame::LONGEST],
    /// The packet of telemetry that was taken, until the program has done with it; otherwise no octets.
    packet: Vec<u8>,
}

/// The sender's state, and the numbers of commands.
impl fmt::Debug for Commander {
    fn fmt(&self, out: &mut fmt::Formatter<'_>) -> fmt::Result {
        out.debug_struct("Commander")
            .field("state", &self.state())
            .field("below", &self.below())
            .field("highest", &self.highest())
            .finish_non_exhaustive()
    }
}

impl Commander {
    /// Opens a commander, with a ground in S6, from the octets of its store; a new store has none. Also returns how
    /// many of the octets are good: truncate the store to this length before you append to it.
    ///
    /// # Errors
    ///
    /// Refused with the first parameter that is out of range, or with [`Ledger`](OpenFault::Ledger) and the first that
    /// applies: 3 [`FieldRange`](LedgerFault::FieldRange) (the MAP of orders is not open, or their APID is above
    /// 2,046), 4 [`TooLong`](LedgerFault::TooLong) (`part` or `max_packet` is below 23), 9
    /// [`Memory`](LedgerFault::Memory).
    pub fn open(config: &Config, mission: &Mission, store: &[u8]) -> Result<(Self, usize), OpenFault> {
        if let Some(parameter) = config.fault() {
            return Err(OpenFault::OutOfRange(parameter));
        }
        let settings = raw::Mission {
            round_trip: mission.round_trip,
            orders: mission.orders,
            status: mission.status,
            map: mission.map,
            holds: mission.holds.into(),
        };
        let (mut node, mut good) = (raw::Own::<raw::Commander>::default(), 0);
        LedgerFault::judge(raw::commander_open(node.get(), &config.raw(), &settings, store, &mut good))?;
        Ok((Self { node, frame: [0; TcFrame::LONGEST], packet: Vec::new() }, good))
    }

    /// Gives the commander a command, after all others, and returns its number. The commander writes the command
    /// packet; `apid` and `sequence` are its APID and its sequence count, `content` the mission's octets, and `tag` is
    /// the caller's own.
    ///
    /// # Errors
    ///
    /// Refused with the first that applies: 3 [`FieldRange`](LedgerFault::FieldRange) (a MAP that is not open, an APID
    /// above 2,046, a sequence count above 16,383, or more than 65,528 octets), 4 [`TooLong`](LedgerFault::TooLong), 5
    /// [`NoNumber`](LedgerFault::NoNumber), 9 [`Memory`](LedgerFault::Memory).
    pub fn command(
        &mut self, tag: u64, map: u8, apid: u16, sequence: u16, content: &[u8],
    ) -> Result<u32, LedgerFault> {
        let (node, mut number) = (self.node.get(), 0);
        LedgerFault::judge(raw::commander_command(node, tag, map, apid, sequence, content, &mut number))?;
        Ok(number)
    }

    /// Returns the program's next action. The program completes it, and then consumes it with
    /// [`done`](CommanderDue::done).
    ///
    /// # Errors
    ///
    /// Refused only with 9 [`Memory`](LedgerFault::Memory); the action is then returned by the next call.
    #[allow(clippy::should_implement_trait)]
    pub fn next(&mut self) -> Result<Option<CommanderDue<'_>>, LedgerFault> {
        let (mut due, mut octets) = (raw::CommanderAction::default(), Vec::new());
        if !self.packet.is_empty() {
            due.kind = raw::SEDGE_COMMANDER_TELEMETRY;
            return Ok(Some(CommanderDue { commander: self, due, octets }));
        }
        LedgerFault::judge(raw::commander_next(self.node.get(), &mut due, &mut self.frame))?;
        match due.kind {
            raw::SEDGE_COMMANDER_NOTHING => return Ok(None),
            raw::SEDGE_COMMANDER_STORE => octets = self.unstored(due.count)?,
            raw::SEDGE_COMMANDER_TELEMETRY => self.packet = self.taken()?,
            _ => {}
        }
        Ok(Some(CommanderDue { commander: self, due, octets }))
    }

    fn unstored(&mut self, count: usize) -> Result<Vec<u8>, LedgerFault> {
        let (mut octets, mut written) = (room_for(count).ok_or(LedgerFault::Memory)?, 0);
        done(raw::commander_unstored(self.node.get(), &mut octets, &mut written));
        Ok(octets)
    }

    /// Takes the oldest packet of telemetry; if it contains a status, the commander takes that too.
    fn taken(&mut self) -> Result<Vec<u8>, LedgerFault> {
        let (mut count, mut written) = (0, 0);
        done(raw::sedge_commander_next_telemetry(self.node.get(), &mut count));
        let mut packet = room_for(count).ok_or(LedgerFault::Memory)?;
        LedgerFault::judge(raw::commander_take_telemetry(self.node.get(), &mut packet, &mut written))?;
        Ok(packet)
    }

    /// Takes octets that came from the board: exactly one telemetry frame. The packets that it completes are actions of
    /// [`next`](Self::next).
    ///
    /// # Errors
    ///
    /// Refused only with 9 [`Memory`](LedgerFault::Memory).
    pub fn telemetry(&mut self, octets: &[u8]) -> Result<Heard, LedgerFault> {
        let mut heard = raw::Heard::default();
        LedgerFault::judge(raw::commander_telemetry(self.node.get(), octets, &mut heard))?;
        Ok(Heard::from_raw(&heard))
    }

    /// Takes a CLCW that came by itself, as [`Ground::clcw`](crate::Ground::clcw) does.
    pub fn clcw(&mut self, octets: &[u8; 4]) -> HeardClcw {
        let mut heard = raw::Heard::default();
        done(raw::commander_clcw(self.node.get(), octets, &mut heard));
        HeardClcw::from_raw(&heard)
    }

    /// Takes the octets of a status that came without a packet. The commander takes those in packets of telemetry by
    /// itself. A status that contains nothing new changes nothing.
    ///
    /// # Errors
    ///
    /// Refused with the first that applies: 1 [`Layout`](LedgerFault::Layout) (not 27 octets), 2
    /// [`Check`](LedgerFault::Check), 9 [`Memory`](LedgerFault::Memory).
    pub fn status(&mut self, octets: &[u8]) -> Result<(), LedgerFault> {
        LedgerFault::judge(raw::commander_status(self.node.get(), octets))
    }

    /// Counts a tick of the clock. An alert is an action of [`next`](Self::next).
    pub fn tick(&mut self) {
        done(raw::sedge_commander_tick(self.node.get()));
    }

    /// Returns the progress of the command with this number, by COP-1 in the current session or, if none is open, the
    /// last one. Only [`Executed`](CommanderAction::Executed) states that it was executed. Returns `None` if the
    /// command has a fate or was not given.
    #[must_use]
    pub fn progress(&self, number: u32) -> Option<Progress> {
        let mut progress = 0;
        let found = self.node.is_there(|it| raw::sedge_commander_progress(it, number, &mut progress));
        found.then(|| Progress::of(progress))
    }

    /// Stops the submission of commands to the ground until [`go_on`](Self::go_on). The ground still sends the commands
    /// that were submitted.
    pub fn pause(&mut self) {
        done(raw::sedge_commander_pause(self.node.get()));
    }

    /// Resumes the sending of commands.
    pub fn go_on(&mut self) {
        done(raw::sedge_commander_go_on(self.node.get()));
    }

    /// Has the order to restart sent to the board, until a restart of the board or the loss of its record is
    /// reported.
    pub fn restart_board(&mut self) {
        done(raw::sedge_commander_restart_board(self.node.get()));
    }

    /// Makes the order that brings a record to a board that has lost its own; an operator decides this. Once a status
    /// shows that the board obeyed it, each command that was stored by now and has no fate is unknown, whether or not
    /// it was sent.
    ///
    /// # Errors
    ///
    /// Refused with the first that applies: 6 [`NotLost`](LedgerFault::NotLost), 7 [`NoBoot`](LedgerFault::NoBoot), 9
    /// [`Memory`](LedgerFault::Memory).
    pub fn rebuild(&mut self) -> Result<(), LedgerFault> {
        LedgerFault::judge(raw::sedge_commander_rebuild(self.node.get()))
    }

    fn read(&self) -> raw::CommanderReading {
        let mut read = raw::CommanderReading::default();
        self.node.read(|it| raw::sedge_commander_read(it, &mut read));
        read
    }

    /// The number up to which every command has its fate.
    #[must_use]
    pub fn below(&self) -> u32 {
        self.read().below
    }

    /// The highest number that was given, or that a command of another ground had on board.
    #[must_use]
    pub fn highest(&self) -> u32 {
        self.read().highest
    }

    /// Whether a fresh store would have less than half as many octets, and nothing is left to be stored or reported.
    #[must_use]
    pub fn is_worth(&self) -> bool {
        self.read().worth == 1
    }

    /// Returns the octets of a fresh store of the same commands. Write them to a new file, replace the store with it,
    /// and call [`renewed`](Self::renewed).
    ///
    /// # Errors
    ///
    /// Refused with the first that applies: 8 [`Owing`](LedgerFault::Owing) (something must be stored or reported
    /// first), 9 [`Memory`](LedgerFault::Memory).
    pub fn fresh(&self) -> Result<Vec<u8>, LedgerFault> {
        let (mut room, mut count) = (4096, 0);
        loop {
            let mut octets = room_for(room).ok_or(LedgerFault::Memory)?;
            match self.node.ask(|it| raw::commander_fresh(it, &mut octets, &mut count)) {
                raw::SEDGE_LEDGER_ROOM => room = room.saturating_mul(2),
                answer => {
                    LedgerFault::judge(answer)?;
                    octets.truncate(count);
                    return Ok(octets);
                }
            }
        }
    }

    /// Records that the store now has this many octets, which begin with those of [`fresh`](Self::fresh).
    pub fn renewed(&mut self, count: usize) {
        done(raw::sedge_commander_renewed(self.node.get(), count));
    }

    fn read_ground(&self) -> raw::GroundReading {
        let mut read = raw::GroundReading::default();
        self.node.read(|it| raw::sedge_commander_read_ground(it, &mut read));
        read
    }

    ground_readings!();
}

/// An action that is due: the program completes it, and then consumes it with [`done`](Self::done). If it is dropped
/// instead, [`Commander::next`] returns octets to be stored, a report or a packet of telemetry again. A frame that is
/// dropped counts as lost on the link, and an alert does not return.
#[derive(Debug)]
#[must_use = "the action is due until it is done"]
pub struct CommanderDue<'c> {
    commander: &'c mut Commander,
    due: raw::CommanderAction,
    /// The octets to be stored; otherwise none.
    octets: Vec<u8>,
}

impl CommanderDue<'_> {
    /// What is due.
    #[must_use]
    pub fn action(&self) -> CommanderAction<'_> {
        let raw::CommanderAction { tag, number, last, count, kind, alert } = self.due;
        match kind {
            raw::SEDGE_COMMANDER_STORE => CommanderAction::Store(&self.octets),
            raw::SEDGE_COMMANDER_EXECUTED => CommanderAction::Executed(tag),
            raw::SEDGE_COMMANDER_UNKNOWN => CommanderAction::Unknown(tag),
            raw::SEDGE_COMMANDER_RESTARTED => CommanderAction::Restarted(number),
            raw::SEDGE_COMMANDER_RECORD_LOST => CommanderAction::RecordLost(number),
            raw::SEDGE_COMMANDER_FOREIGN => CommanderAction::Foreign(number, last),
            raw::SEDGE_COMMANDER_ALERT => CommanderAction::Alert(Alert::of(alert)),
            raw::SEDGE_COMMANDER_TELEMETRY => CommanderAction::Telemetry(&self.commander.packet),
            raw::SEDGE_COMMANDER_SEND => CommanderAction::Send(&self.commander.frame[..count]),
            _ => never(),
        }
    }

    /// Records that the action is complete. After [`Restarted`](CommanderAction::Restarted) and
    /// [`RecordLost`](CommanderAction::RecordLost) the session ends.
    ///
    /// # Errors
    ///
    /// Refused only with 9 [`Memory`](LedgerFault::Memory), and only for a report; [`Commander::next`] then returns the
    /// report again.
    pub fn done(self) -> Result<(), LedgerFault> {
        let node = self.commander.node.get();
        match self.due.kind {
            raw::SEDGE_COMMANDER_STORE => done(raw::sedge_commander_stored(node, self.due.count)),
            raw::SEDGE_COMMANDER_TELEMETRY => self.commander.packet = Vec::new(),
            raw::SEDGE_COMMANDER_ALERT | raw::SEDGE_COMMANDER_SEND => {}
            _ => LedgerFault::judge(raw::sedge_commander_told(node, &self.due))?,
        }
        Ok(())
    }
}
