//! The memory of the nodes and of the link: all of it is given back, whatever happened; and a call answers that there
//! was none only where an allocation was refused, and has changed nothing then.

use crate::allocator::{live, refusing, Live, Refusals};
use crate::common::Chance;
use sedgechisel::*;
use std::collections::VecDeque;
use std::fmt::Debug;

/// What a call is refused by.
trait Fault: PartialEq + Debug {
    fn is_memory(&self) -> bool;
}

macro_rules! faults {
    ($($name:ident $memory:pat,)*) => {
        $(impl Fault for $name {
            fn is_memory(&self) -> bool {
                matches!(self, $memory)
            }
        })*
    };
}

faults! {
    OpenFault OpenFault::Memory | OpenFault::Ledger(LedgerFault::Memory),
    LinkFault LinkFault::Memory,
    LedgerFault LedgerFault::Memory,
    SimFault SimFault::Memory,
    TmFault TmFault::Memory,
    CopFault CopFault::Damaged,
}

/// Two of a kind, which are given the same calls. Of one some allocations are refused, and where it answers that there
/// was no memory the call is made again; so if they answer alike, what was refused changed nothing.
struct Twins<N> {
    tried: N,
    plain: N,
}

/// Random calls of twins, and how many were refused for want of memory.
struct Trial {
    chance: Chance,
    refused: u32,
}

impl Trial {
    /// Makes a call of which some allocations are refused, until it is not refused for want of memory.
    fn tried<T, E: Fault>(&mut self, mut call: impl FnMut() -> Result<T, E>) -> Result<T, E> {
        let refusals = Refusals { after: self.chance.below(6), all: self.chance.once_in(2) };
        match refusing(refusals, &mut call) {
            (Err(fault), is_refused) if fault.is_memory() => {
                assert!(is_refused, "{fault:?}, and no allocation was refused");
                self.refused += 1;
                call()
            }
            (answer, _) => answer,
        }
    }

    fn twins<N, E: Fault>(&mut self, make: impl Fn() -> Result<N, E>) -> Twins<N> {
        let tried = self.tried(&make).expect("a configuration in its ranges");
        Twins { tried, plain: make().expect("a configuration in its ranges") }
    }

    /// Gives both a call, which answers alike, and not that out of memory where none was refused.
    fn both<N, T: PartialEq + Debug, E: Fault>(
        &mut self, twins: &mut Twins<N>, call: impl Fn(&mut N) -> Result<T, E>,
    ) {
        self.answered(twins, call).ok();
    }

    /// The same, with what both answer.
    fn answered<N, T: PartialEq + Debug, E: Fault>(
        &mut self, twins: &mut Twins<N>, call: impl Fn(&mut N) -> Result<T, E>,
    ) -> Result<T, E> {
        let answer = self.tried(|| call(&mut twins.tried));
        let wanted = call(&mut twins.plain);
        assert!(!wanted.as_ref().is_err_and(E::is_memory), "{wanted:?}, and no allocation was refused");
        assert_eq!(answer, wanted);
        answer
    }

    /// What both show alike, by a call that is never refused.
    fn shown<N, T: PartialEq + Debug>(&mut self, twins: &mut Twins<N>, call: impl Fn(&mut N) -> T) -> T {
        let answer = self.tried(|| Ok::<T, LinkFault>(call(&mut twins.tried)));
        assert_eq!(answer, Ok(call(&mut twins.plain)));
        answer.unwrap()
    }

    fn any_config(&mut self) -> Config {
        let chance = &mut self.chance;
        let half = 1 + chance.below(20) as u8;
        Config {
            width: 2 * half,
            window: 1 + chance.below(half.into()) as u8,
            limit: 1 + chance.below(4) as u8,
            timer: 1 + chance.below(20) as u16,
            part: 1 + if chance.once_in(2) { chance.below(30) } else { chance.below(1016) } as u16,
            max_packet: 7 + chance.below(400),
            maps: 0xf0 | u64::from(chance.below(u32::MAX)),
            ready_slots: 1 + chance.below(5) as u8,
            bypass_slots: 1 + chance.below(3) as u8,
            queue_slots: 1 + chance.below(100) as u16,
            frame_length: 16 + chance.below(2033) as u16,
            blocking: chance.once_in(2),
            ..Config::default()
        }
    }

    /// A packet mostly, with a secondary header or without one; or several; or octets that are none.
    fn any_packets(&mut self, kind: PacketKind) -> Vec<u8> {
        let chance = &mut self.chance;
        let many = if chance.once_in(4) { 1 + chance.below(60) } else { 1 };
        let mut octets = Vec::new();
        for _ in 0..many {
            let count = 1 + if chance.once_in(16) { chance.below(600) } else { chance.below(20) };
            let data = chance.octets(count);
            let (secondary, flags) = (chance.once_in(4), SequenceFlags::Unsegmented);
            let packet = Packet { kind, secondary, apid: 5, flags, count: 0, data: &data };
            octets.extend(&*packet.encode(&mut [0; 700]).unwrap());
        }
        self.damaged(octets)
    }

    /// Some have a bit turned.
    fn damaged(&mut self, mut octets: Vec<u8>) -> Vec<u8> {
        if self.chance.once_in(16) {
            let place = self.chance.below(octets.len() as u32) as usize;
            octets[place] ^= 1 << self.chance.below(8);
        }
        octets
    }

    /// A MAP, which may be closed, or none.
    fn any_map(&mut self) -> u8 {
        let more = if self.chance.once_in(8) { self.chance.below(200) } else { 0 };
        (4 + self.chance.below(4) + more) as u8
    }

    /// The first frame on its way: some are lost, and some damaged.
    fn arriving(&mut self, way: &mut VecDeque<Vec<u8>>) -> Option<Vec<u8>> {
        let octets = way.pop_front().filter(|_| !self.chance.once_in(8))?;
        Some(self.damaged(octets))
    }
}

/// The directives to a sender, of a ground or of a link.
macro_rules! directed {
    ($trial:expr, $twins:expr) => {{
        let number = if $trial.chance.once_in(4) { $trial.chance.octet() } else { 1 };
        match $trial.chance.below(10) {
            0 | 1 => $trial.both($twins, |it| it.init_without_check()),
            2 => $trial.both($twins, |it| it.init_with_check()),
            3 => $trial.both($twins, |it| it.init_unlock()),
            4 => $trial.both($twins, |it| it.init_set_vr(number)),
            5 => $trial.both($twins, |it| it.set_vs(number)),
            6 => $trial.both($twins, |it| it.set_window(number)),
            7 => $trial.both($twins, |it| it.set_limit(number)),
            8 => $trial.both($twins, |it| it.set_timer(number.into())),
            _ if $trial.chance.once_in(8) => $trial.both($twins, |it| it.terminate()),
            _ => {}
        }
    }};
}

/// Two nodes, and the frames between them.
struct Nodes {
    ground: Twins<Ground>,
    spacecraft: Twins<Spacecraft>,
    up: VecDeque<Vec<u8>>,
    down: VecDeque<Vec<u8>>,
}

impl Nodes {
    /// On board MAPs may be closed that are open on the ground.
    fn new(trial: &mut Trial) -> Self {
        let config = trial.any_config();
        let maps = if trial.chance.once_in(2) { u64::MAX } else { config.maps };
        Self {
            ground: trial.twins(|| Ground::new(&Config { maps, ..config })),
            spacecraft: trial.twins(|| Spacecraft::new(&config)),
            up: VecDeque::new(),
            down: VecDeque::new(),
        }
    }

    fn step(&mut self, trial: &mut Trial) {
        let Self { ground, spacecraft, up, down } = self;
        match trial.chance.below(16) {
            0 if trial.chance.once_in(4) => {
                let value = trial.shown(ground, |it| it.nn()).wrapping_add(trial.chance.below(3) as u8);
                trial.both(ground, |it| it.resume(value));
            }
            0 => directed!(trial, ground),
            1..=4 => submitted(ground, trial),
            5..=7 => up.extend(sent(ground, trial)),
            8..=10 => {
                if let Some(octets) = trial.arriving(up) {
                    trial.both(spacecraft, |it| it.receive(&octets));
                }
            }
            11 => down.push_back(reported(spacecraft, trial)),
            12 => {
                if let Some(octets) = trial.arriving(down) {
                    trial.both(ground, |it| it.telemetry(&octets));
                    trial.shown(ground, |it| it.clcw_in(&octets));
                }
            }
            13 => {
                let packet = trial.any_packets(PacketKind::Telemetry);
                trial.both(spacecraft, |it| it.telemetry(&packet));
            }
            14 if trial.chance.once_in(2) => {
                trial.both(spacecraft, |it| it.packets().next().transpose());
                trial.both(spacecraft, |it| it.bypass_packets().next().transpose());
                trial.both(ground, |it| it.packets().next().transpose());
            }
            14 => {
                trial.both(spacecraft, |it| it.take());
                trial.both(spacecraft, |it| it.take_bypass());
                trial.both(ground, |it| it.take_telemetry());
            }
            _ => drop(trial.shown(ground, |it| it.tick().map(Alert::number))),
        }
        self.are_read(trial);
    }

    fn are_read(&mut self, trial: &mut Trial) {
        let value = trial.chance.octet();
        trial.shown(&mut self.ground, |it| {
            (it.state(), it.vs(), it.nn(), it.outstanding(), it.accepted_beyond(value), it.frame_length())
        });
        trial.shown(&mut self.ground, |it| {
            (it.submitted(), it.sent_whole(), it.acknowledged_whole(), it.known_on_board(value))
        });
        trial.shown(&mut self.ground, |it| (it.unsent(), it.due(), it.bypassed(), it.ticks(), it.count()));
        trial.shown(&mut self.spacecraft, |it| (it.mode(), it.control_word(), it.frame_length()));
        trial.shown(&mut self.spacecraft, |it| (it.ready(), it.bypassed()));
    }
}

fn submitted(ground: &mut Twins<Ground>, trial: &mut Trial) {
    let (map, packets) = (trial.any_map(), trial.any_packets(PacketKind::Telecommand));
    if trial.chance.once_in(4) {
        trial.both(ground, |it| it.bypass(map, &packets));
    } else {
        trial.both(ground, |it| it.submit(map, &packets));
    }
}

/// The frame that goes on the link next.
fn sent(ground: &mut Twins<Ground>, trial: &mut Trial) -> Option<Vec<u8>> {
    if trial.chance.once_in(2) {
        return trial.answered(ground, |it| it.frames().next().transpose()).unwrap();
    }
    let (count, room) = trial.shown(ground, |it| {
        let mut room = [0; TcFrame::LONGEST];
        (it.pull(&mut room).map(|frame| frame.len()), room)
    });
    count.map(|it| room[..it].to_vec())
}

/// The next telemetry frame.
fn reported(spacecraft: &mut Twins<Spacecraft>, trial: &mut Trial) -> Vec<u8> {
    let (count, room) = trial.shown(spacecraft, |it| {
        let mut room = [0; TmFrame::LONGEST];
        (it.telemetry_frame(&mut room).len(), room)
    });
    room[..count].to_vec()
}

/// An event of the link, and at times what it has recorded.
fn happens(link: &mut Twins<Link>, trial: &mut Trial) {
    let (map, octets) = (trial.any_map(), trial.any_packets(PacketKind::Telecommand));
    match trial.chance.below(22) {
        0 => directed!(trial, link),
        1..=4 => trial.both(link, |it| it.submit(map, &octets)),
        5 => trial.both(link, |it| it.bypass(map, &octets)),
        6..=8 => trial.both(link, |it| it.send()),
        9..=11 => trial.both(link, |it| it.up_deliver()),
        12 if trial.chance.once_in(2) => trial.both(link, |it| it.up_lose()),
        12 => trial.both(link, |it| it.up_damage(&octets)),
        13 => trial.both(link, |it| it.report()),
        14 => trial.both(link, |it| it.down_deliver()),
        15 if trial.chance.once_in(2) => trial.both(link, |it| it.down_lose()),
        15 => trial.both(link, |it| it.down_damage(&octets)),
        16 => drop(trial.shown(link, |it| it.tick().map(Alert::number))),
        17 => trial.both(link, |it| it.take()),
        18 => trial.both(link, |it| it.take_bypass()),
        19 => trial.both(link, |it| it.down_clcw()),
        20 => trial.both(link, |it| it.resume(it.control_word().value)),
        _ => {
            let packet = trial.any_packets(PacketKind::Telemetry);
            trial.both(link, |it| it.telemetry(&packet));
        }
    }
    if trial.chance.once_in(16) {
        is_recorded(link, trial);
    }
}

fn is_recorded(link: &mut Twins<Link>, trial: &mut Trial) {
    trial.shown(link, |it| (it.state(), it.outstanding(), it.acknowledged(), it.begun()));
    trial.shown(link, |it| (it.is_clean(), it.is_idle(), it.is_confirmed()));
    trial.shown(link, |it| {
        (it.vs(), it.nn(), it.unsent(), it.due(), it.bypass_unsent(), it.ticks(), it.count())
    });
    trial.shown(link, |it| (it.control_word(), it.mode(), it.ready(), it.bypass_ready()));
    let (place, map) = (trial.chance.below(4) as usize, trial.any_map());
    for record in [Record::Submitted(map), Record::Delivered(map), Record::Sent, Record::Received] {
        trial.both(link, |it| it.record(record).nth(place).transpose());
    }
    trial.both(link, |it| it.submissions().nth(place).transpose());
}

/// A commander, and the board that stands in for its spacecraft.
struct Commanding {
    commander: Twins<Commander>,
    spacecraft: Spacecraft,
    executor: Executor,
    places: [[u8; 50]; 2],
    store: Vec<u8>,
}

const MISSION: Mission = Mission { round_trip: 1, orders: 1, status: 2, map: 0, holds: false };

/// What is compared of an action: in place of octets, their number and their check.
#[derive(Clone, Copy, Debug, PartialEq)]
enum Acted {
    Octets(u8, usize, u16),
    Report(u8, u64, u32),
}

fn acted(action: CommanderAction) -> Acted {
    // (The check of a whole frame is 0.)
    let octets = |kind, it: &[u8]| Acted::Octets(kind, it.len(), check(&it[..it.len() - 2]));
    match action {
        CommanderAction::Store(it) => octets(1, it),
        CommanderAction::Executed(tag) => Acted::Report(2, tag, 0),
        CommanderAction::Unknown(tag) => Acted::Report(3, tag, 0),
        CommanderAction::Restarted(boot) => Acted::Report(4, 0, boot),
        CommanderAction::RecordLost(mark) => Acted::Report(5, 0, mark),
        CommanderAction::Foreign(first, last) => Acted::Report(6, first.into(), last),
        CommanderAction::Alert(alert) => Acted::Report(7, alert.number().into(), 0),
        CommanderAction::Telemetry(it) => octets(8, it),
        CommanderAction::Send(it) => octets(9, it),
    }
}

impl Commanding {
    fn new(trial: &mut Trial) -> Self {
        let places = [Executor::new_record(); 2];
        let commander = trial.twins(|| opened(&Config::default(), &[]));
        let spacecraft = Spacecraft::new(&Config::default()).unwrap();
        let executor = Executor::start(&places[0], &places[1], 1);
        Self { commander, spacecraft, executor, places, store: Vec::new() }
    }

    fn step(&mut self, trial: &mut Trial) {
        let twins = &mut self.commander;
        match trial.chance.below(16) {
            0..=2 => {
                let content = trial.any_packets(PacketKind::Telecommand);
                let map = trial.any_map();
                trial.both(twins, |it| it.command(7, map, 5, 44, &content));
            }
            3..=9 => self.acts(trial),
            10 => self.board_acts(),
            11..=12 => self.reports(trial),
            13 => {
                let word = self.spacecraft.control_word().encode().unwrap();
                trial.shown(twins, |it| it.clcw(&word));
                let status = trial.damaged(self.executor.status(0).to_vec());
                trial.both(twins, |it| it.status(&status));
            }
            14 if trial.chance.once_in(8) => {
                self.places = [[0; 50]; 2];
                self.restart();
            }
            14 if trial.chance.once_in(2) => trial.both(twins, |it| it.rebuild()),
            14 => trial.shown(twins, |it| it.restart_board()),
            _ => trial.shown(twins, |it| it.tick()),
        }
        self.is_read(trial);
    }

    /// Both complete an action. The frame that goes up, and what is appended to the store, are those of the one of
    /// which nothing is refused.
    fn acts(&mut self, trial: &mut Trial) {
        let Twins { tried, plain } = &mut self.commander;
        let answer = trial.tried(|| {
            let Some(due) = tried.next()? else { return Ok(None) };
            let seen = acted(due.action());
            due.done().map(|()| Some(seen))
        });
        let due = plain.next().unwrap();
        assert_eq!(answer, Ok(due.as_ref().map(|it| acted(it.action()))));
        if let Some(due) = due {
            match due.action() {
                CommanderAction::Store(octets) => self.store.extend_from_slice(octets),
                CommanderAction::Send(frame) => drop(self.spacecraft.receive(frame)),
                _ => {}
            }
            due.done().unwrap();
        }
    }

    fn restart(&mut self) {
        self.spacecraft = Spacecraft::new(&Config::default()).unwrap();
        self.executor = Executor::start(&self.places[0], &self.places[1], 5);
    }

    /// The board does all that is due, and takes all that has arrived.
    fn board_acts(&mut self) {
        loop {
            if let Some(due) = self.executor.next() {
                match due.action() {
                    LogAction::Write(place, octets) => self.places[*place as usize] = *octets,
                    LogAction::Execute(_) => {}
                    LogAction::Restart => return self.restart(),
                }
                due.done();
            } else if let Some((_, order)) = self.spacecraft.take_bypass().unwrap() {
                self.executor.obey(&order).ok();
            } else if let Some((_, command)) = self.spacecraft.take().unwrap() {
                self.executor.offer(&command).ok();
            } else {
                return;
            }
        }
    }

    /// The board sends a frame with its status, which arrives.
    fn reports(&mut self, trial: &mut Trial) {
        let status = self.executor.status(self.spacecraft.ready());
        let (kind, flags) = (PacketKind::Telemetry, SequenceFlags::Unsegmented);
        let packet = Packet { kind, secondary: false, apid: MISSION.status, flags, count: 0, data: &status };
        self.spacecraft.telemetry(packet.encode(&mut [0; 33]).unwrap()).unwrap();
        let frame = trial.damaged(self.spacecraft.telemetry_frame(&mut [0; TmFrame::LONGEST]).to_vec());
        trial.both(&mut self.commander, |it| it.telemetry(&frame));
    }

    fn is_read(&mut self, trial: &mut Trial) {
        let number = trial.chance.below(40);
        let twins = &mut self.commander;
        trial.shown(twins, |it| (it.below(), it.highest(), it.is_worth(), it.progress(number)));
        trial.shown(twins, |it| (it.state(), it.vs(), it.nn(), it.outstanding(), it.frame_length()));
        trial.shown(twins, |it| (it.submitted(), it.sent_whole(), it.acknowledged_whole()));
        trial.shown(twins, |it| (it.unsent(), it.due(), it.bypassed(), it.ticks(), it.count()));
        if trial.chance.once_in(8) {
            trial.both(twins, |it| it.fresh());
            let store = &self.store;
            drop(trial.tried(|| opened(&Config::default(), store)).unwrap());
        }
    }
}

fn opened(config: &Config, store: &[u8]) -> Result<Commander, OpenFault> {
    Commander::open(config, &MISSION, store).map(|it| it.0)
}

/// Plays sessions, of which nothing is left; returns how many calls were refused for want of memory.
fn leaves_nothing(sessions: u32, seed: u64, mut session: impl FnMut(&mut Trial)) -> u32 {
    let mut trial = Trial { chance: Chance(seed), refused: 0 };
    for number in 0..sessions {
        let before = live();
        session(&mut trial);
        assert_eq!(live(), before, "after session {number}");
    }
    trial.refused
}

#[test]
fn the_memory_of_random_nodes() {
    let refused = leaves_nothing(300, 12, |trial| {
        let mut nodes = Nodes::new(trial);
        (0..200).for_each(|_| nodes.step(trial));
    });
    assert!(refused > 1000, "{refused}");
}

#[test]
fn the_memory_of_random_links() {
    let refused = leaves_nothing(200, 13, |trial| {
        let config = trial.any_config();
        let mut link = trial.twins(|| Link::new(&config));
        (0..200).for_each(|_| happens(&mut link, trial));
    });
    assert!(refused > 1000, "{refused}");
}

#[test]
fn the_memory_of_random_commanders() {
    let refused = leaves_nothing(200, 14, |trial| {
        let mut commanding = Commanding::new(trial);
        (0..300).for_each(|_| commanding.step(trial));
    });
    assert!(refused > 1000, "{refused}");
}

/// A node that is dropped has given back all that it took, whichever node and whatever the length of its frames.
#[test]
fn the_memory_of_each_node() {
    fn leaves<N>(make: impl Fn(&Config) -> N, give: impl Fn(&mut N)) {
        for frame_length in 16..=2048 {
            let before = live();
            let mut node = make(&Config { frame_length, ..Config::default() });
            give(&mut node);
            assert!(live().allocations > before.allocations && live().octets > before.octets);
            drop(node);
            assert_eq!(live(), before, "where frames have {frame_length} octets");
        }
    }
    let packet = [0x10, 5, 0xc0, 0, 0, 0, 0xaa];
    leaves(|it| Ground::new(it).unwrap(), |it| it.bypass(4, &packet).unwrap());
    leaves(|it| Spacecraft::new(it).unwrap(), |it| it.telemetry(&packet).unwrap());
    leaves(|it| Link::new(it).unwrap(), |it| it.bypass(4, &packet).unwrap());
    leaves(|it| opened(it, &[]).unwrap(), |it| it.command(7, 4, 5, 44, &packet).map(drop).unwrap());
}

/// Where a node is not opened, nothing is kept.
#[test]
fn nodes_that_are_not_opened() {
    fn leaves<N: Debug>(memory: OpenFault, make: impl Fn(&Config) -> Result<N, OpenFault>) {
        let before = live();
        for after in 0..20 {
            let refusals = Refusals { after, all: true };
            let (made, is_refused) = refusing(refusals, || make(&Config::default()));
            assert_eq!(made.err(), is_refused.then_some(memory));
            let (made, _) = refusing(refusals, || make(&Config { limit: 0, ..Config::default() }));
            assert_eq!(made.err(), Some(OpenFault::OutOfRange(Parameter::Limit)));
        }
        assert!(refusing(Refusals::default(), || make(&Config::default())).1);
        assert_eq!(live(), before);
    }
    leaves(OpenFault::Memory, Ground::new);
    leaves(OpenFault::Memory, Spacecraft::new);
    leaves(OpenFault::Memory, Link::new);
    leaves(OpenFault::Ledger(LedgerFault::Memory), |it| opened(it, &[]));
}

/// An iterator that is refused is at its end, and what it did not give is given by the next one.
#[test]
fn iterators_that_are_refused() {
    fn refused<N, T: PartialEq + Debug>(
        node: &mut N, mut two: impl FnMut(&mut N) -> [Option<Result<T, LinkFault>>; 2], wanted: T,
    ) {
        assert_eq!(refusing(Refusals::default(), || two(node)).0, [Some(Err(LinkFault::Memory)), None]);
        assert_eq!(two(node), [Some(Ok(wanted)), None]);
    }
    let packet = [0x10, 5, 0xc0, 0, 0, 0, 0xaa];
    let mut ground = Ground::new(&Config::default()).unwrap();
    let mut spacecraft = Spacecraft::new(&Config::default()).unwrap();
    ground.init_without_check().unwrap();
    ground.submit(4, &packet).unwrap();
    spacecraft.telemetry(&packet).unwrap();
    ground.telemetry(spacecraft.telemetry_frame(&mut [0; TmFrame::LONGEST])).unwrap();
    let frame = ground.peek(&mut [0; TcFrame::LONGEST]).unwrap().to_vec();
    spacecraft.receive(&frame).unwrap();
    refused(&mut ground, |it| next_two(it.frames()), frame);
    refused(&mut ground, |it| next_two(it.packets()), packet.to_vec());
    refused(&mut spacecraft, |it| next_two(it.packets()), (4, packet.to_vec()));
    ground.bypass(4, &packet).unwrap();
    spacecraft.receive(ground.pull(&mut [0; TcFrame::LONGEST]).unwrap()).unwrap();
    refused(&mut spacecraft, |it| next_two(it.bypass_packets()), (4, packet.to_vec()));
}

fn next_two<T>(mut them: impl Iterator<Item = T>) -> [Option<T>; 2] {
    [them.next(), them.next()]
}

/// A builder and an extractor with memory of their own give it back, and where there is none they are refused.
#[test]
fn the_memory_of_builders_and_extractors() {
    fn leaves<N: Debug>(make: impl Fn() -> Result<N, TmFault>) {
        let before = live();
        let made = make().unwrap();
        assert_eq!(live(), Live { allocations: before.allocations + 1, octets: before.octets + 1000 });
        drop(made);
        let (made, is_refused) = refusing(Refusals::default(), make);
        assert_eq!((made.err(), is_refused, live()), (Some(TmFault::Memory), true, before));
    }
    leaves(|| TmBuilder::owning(1, 0, 20, 1000));
    leaves(|| TmExtractor::owning(1000));
}

/// A packet with this number, of 7 to 306 octets.
fn numbered(kind: PacketKind, number: u16) -> Vec<u8> {
    let data = Chance(number.into()).octets(1 + u32::from(number) % 300);
    let flags = SequenceFlags::Unsegmented;
    let packet = Packet { kind, secondary: false, apid: 5, flags, count: number, data: &data };
    packet.encode(&mut [0; 400]).unwrap().to_vec()
}

/// 2,000 packets wait to be sent, and then 3,000 packets of telemetry: each comes as it was, and none is refused.
#[test]
fn long_queues() {
    let config = Config { queue_slots: 2000, frame_length: 2048, ..Config::default() };
    let (mut ground, mut spacecraft) = (Ground::new(&config).unwrap(), Spacecraft::new(&config).unwrap());
    let (mut up, mut down) = ([0; TcFrame::LONGEST], [0; TmFrame::LONGEST]);
    ground.init_without_check().unwrap();
    (1..=2000).for_each(|it| assert!(ground.submit(4, &numbered(PacketKind::Telecommand, it)).is_ok()));
    let mut taken = 0;
    // A window of 127 is sent in each round.
    for _ in 0..16 {
        while let Some(frame) = ground.pull(&mut up) {
            spacecraft.receive(frame).unwrap();
            let packet = spacecraft.take().unwrap();
            taken += 1;
            assert_eq!(packet, Some((4, numbered(PacketKind::Telecommand, taken))));
        }
        ground.telemetry(spacecraft.telemetry_frame(&mut down)).unwrap();
    }
    assert_eq!(ground.outstanding(), 0);
    (1..=3000).for_each(|it| spacecraft.telemetry(&numbered(PacketKind::Telemetry, it)).unwrap());
    for _ in 0..300 {
        ground.telemetry(spacecraft.telemetry_frame(&mut down)).unwrap();
    }
    for number in 1..=3000 {
        assert_eq!(ground.take_telemetry(), Ok(Some(numbered(PacketKind::Telemetry, number))));
    }
    assert_eq!((taken, ground.take_telemetry()), (2000, Ok(None)));
}
