//! Whole sessions of a commander with a board, over a link that loses frames; either end is killed at any moment, and
//! starts again from its store or its record. Each command is executed at most once and in order.

use crate::common::Chance;
use sedgechisel::*;
use std::collections::BTreeMap;

const MISSION: Mission = Mission { round_trip: 2, orders: 1, status: 2, map: 0, holds: false };
const MAP: u8 = 3;

/// A spacecraft with its executor. The content of a command is its number.
struct Board {
    node: Spacecraft,
    executor: Executor,
    places: [[u8; 50]; 2],
    /// Once in so many actions the board restarts; 0 for never.
    resets: u32,
    /// Whether it drops the commands that arrive.
    drops: bool,
    /// The command that was taken and is not marked as executed.
    open: Option<u32>,
    executed: Vec<u32>,
    /// The commands that a restart has interrupted.
    interrupted: Vec<u32>,
    starts: u32,
}

impl Board {
    fn new() -> Self {
        let places = [Executor::new_record(); 2];
        Self {
            node: Spacecraft::new(&Config::default()).unwrap(),
            executor: Executor::start(&places[0], &places[1], 0),
            places,
            resets: 0,
            drops: false,
            open: None,
            executed: Vec::new(),
            interrupted: Vec::new(),
            starts: 1,
        }
    }

    fn restart(&mut self) {
        self.interrupted.extend(self.open.take());
        self.node = Spacecraft::new(&Config::default()).unwrap();
        self.executor = Executor::start(&self.places[0], &self.places[1], self.starts);
        self.starts += 1;
    }

    /// Completes an action, or takes a packet. A restart may happen before the action is complete: a place is then
    /// written in part, and a command may have been executed or not.
    fn acts(&mut self, chance: &mut Chance) -> bool {
        let mut restarts = self.resets > 0 && chance.once_in(self.resets);
        let Some(due) = self.executor.next() else {
            self.open = None;
            return self.takes();
        };
        match due.action() {
            LogAction::Write(place, octets) => {
                let count = if restarts { chance.below(51) as usize } else { 50 };
                self.places[*place as usize][..count].copy_from_slice(&octets[..count]);
            }
            LogAction::Execute(number) => {
                assert_eq!(self.open, Some(*number));
                if !restarts || chance.once_in(2) {
                    self.executed.push(*number);
                }
            }
            LogAction::Restart => restarts = true,
        }
        if restarts {
            self.restart();
        } else {
            due.done();
        }
        true
    }

    fn takes(&mut self) -> bool {
        if let Some((map, order)) = self.node.take_bypass().unwrap() {
            assert_eq!(map, MISSION.map);
            self.executor.obey(&order).ok();
            return true;
        }
        let Some((map, packet)) = self.node.take().unwrap() else { return false };
        assert_eq!(map, MAP);
        if !self.drops {
            if let Ok(content) = self.executor.offer(&packet) {
                self.open = Some(u32::from_be_bytes(content.try_into().unwrap()));
            }
        }
        true
    }

    fn reports(&mut self) -> Vec<u8> {
        let status = self.executor.status(self.node.ready());
        let (kind, flags) = (PacketKind::Telemetry, SequenceFlags::Unsegmented);
        let packet = Packet { kind, secondary: false, apid: MISSION.status, flags, count: 0, data: &status };
        self.node.telemetry(packet.encode(&mut [0; 33]).unwrap()).unwrap();
        self.node.telemetry_frame(&mut [0; TmFrame::LONGEST]).to_vec()
    }
}

/// What the ground's program has reported to its user.
#[derive(Default)]
struct Reports {
    /// The fate of each command: whether it was executed. A report that is made again is the same.
    fates: BTreeMap<u64, bool>,
    boots: Vec<u32>,
    marks: Vec<u32>,
    alerts: Vec<Alert>,
    packets: u32,
}

impl Reports {
    fn fate(&mut self, tag: u64, is_executed: bool) {
        assert_eq!(*self.fates.entry(tag).or_insert(is_executed), is_executed);
    }

    fn executed(&self) -> usize {
        self.fates.values().filter(|it| **it).count()
    }
}

struct World {
    chance: Chance,
    mission: Mission,
    commander: Commander,
    store: Vec<u8>,
    board: Board,
    reports: Reports,
    /// Of so many frames one is lost; 0 for none.
    loss: u32,
    /// Once in so many actions the ground's program is killed; 0 for never.
    deaths: u32,
    died: u32,
    renewed: u32,
}

fn is_due(chance: &mut Chance, times: u32) -> bool {
    times > 0 && chance.once_in(times)
}

impl World {
    fn new(seed: u64, mission: Mission) -> Self {
        let (commander, good) = Commander::open(&Config::default(), &mission, &[]).unwrap();
        assert_eq!(good, 0);
        Self {
            chance: Chance(seed),
            mission,
            commander,
            store: Vec::new(),
            board: Board::new(),
            reports: Reports::default(),
            loss: 0,
            deaths: 0,
            died: 0,
            renewed: 0,
        }
    }

    fn reopen(&mut self) {
        let (commander, good) = Commander::open(&Config::default(), &self.mission, &self.store).unwrap();
        self.store.truncate(good);
        (self.commander, self.died) = (commander, self.died + 1);
    }

    /// Gives the next commands, whose tags are their numbers.
    fn give(&mut self, count: u32) {
        for _ in 0..count {
            let number = self.commander.highest() + 1;
            let content = number.to_be_bytes();
            assert_eq!(self.commander.command(number.into(), MAP, 5, 0, &content), Ok(number));
        }
    }

    /// Completes an action. If the program is killed, it has begun to write, has reported, or has sent.
    fn ground_acts(&mut self) -> bool {
        let Self { chance, store, board, reports, .. } = self;
        let Some(due) = self.commander.next().unwrap() else { return self.renews() };
        let dies = is_due(chance, self.deaths);
        match due.action() {
            CommanderAction::Store(octets) => {
                let count = if dies { chance.below(octets.len() as u32 + 1) as usize } else { octets.len() };
                store.extend_from_slice(&octets[..count]);
            }
            CommanderAction::Executed(tag) => reports.fate(tag, true),
            CommanderAction::Unknown(tag) => reports.fate(tag, false),
            CommanderAction::Restarted(boot) => reports.boots.push(boot),
            CommanderAction::RecordLost(mark) => reports.marks.push(mark),
            CommanderAction::Foreign(first, last) => panic!("{first} to {last}"),
            CommanderAction::Alert(alert) => reports.alerts.push(alert),
            CommanderAction::Telemetry(_) => reports.packets += 1,
            CommanderAction::Send(frame) => {
                if !is_due(chance, self.loss) {
                    board.node.receive(frame).unwrap();
                }
            }
        }
        if dies {
            self.reopen();
        } else {
            due.done().unwrap();
        }
        true
    }

    /// Replaces the store by a fresh one, if that is worth it.
    fn renews(&mut self) -> bool {
        if !self.commander.is_worth() {
            return false;
        }
        let fresh = self.commander.fresh().unwrap();
        assert!(fresh.len() < self.store.len() / 2);
        (self.store, self.renewed) = (fresh, self.renewed + 1);
        if is_due(&mut self.chance, self.deaths) {
            self.reopen();
        } else {
            self.commander.renewed(self.store.len());
        }
        true
    }

    fn pass(&mut self, ticks: u32) {
        for _ in 0..ticks {
            while self.ground_acts() {}
            while self.board.acts(&mut self.chance) {}
            let frame = self.board.reports();
            if !is_due(&mut self.chance, self.loss) {
                self.commander.telemetry(&frame).unwrap();
            }
            self.commander.tick();
        }
    }

    /// Commands 1 to `last` were given. Each was executed at most once and in order, has its fate, and none is told as
    /// executed that was not.
    fn has_executed(&self, last: u32) {
        let Self { board, reports, .. } = self;
        assert!(board.executed.windows(2).all(|it| it[0] < it[1]), "{:?}", board.executed);
        assert!(reports.fates.keys().copied().eq(1..=u64::from(last)), "{:?}", reports.fates);
        for (tag, is_executed) in &reports.fates {
            let number = *tag as u32;
            assert!(if *is_executed { &board.executed } else { &board.interrupted }.contains(&number));
        }
    }
}

#[test]
fn commands_over_a_lossy_link() {
    let mut world = World::new(21, MISSION);
    world.loss = 5;
    world.give(100);
    world.pass(300);
    world.has_executed(100);
    assert_eq!((world.reports.executed(), world.board.executed.len()), (100, 100));
    assert_eq!(world.reports.boots, [1]);
    assert!(world.reports.packets > 200 && world.renewed > 0);
}

/// Each end is killed at any moment.
#[test]
fn commands_over_restarts_of_both_ends() {
    let (mut died, mut started, mut unknown) = (0, 0, 0);
    for seed in 1..=100 {
        let mut world = World::new(seed, MISSION);
        (world.loss, world.deaths, world.board.resets) = (6, 40, 60);
        let mut ticks = 0;
        while world.commander.highest() < 60
            || world.commander.below() < 60
            || world.commander.next().unwrap().is_some()
        {
            if world.commander.highest() < 60 {
                world.give(1);
            }
            world.pass(1);
            ticks += 1;
            assert!(ticks < 20_000);
        }
        world.has_executed(60);
        died += world.died;
        started += world.board.starts;
        unknown += 60 - world.reports.executed();
    }
    assert!(died > 300 && started > 300 && unknown > 30, "{died} {started} {unknown}");
}

#[test]
fn a_board_that_is_told_to_restart() {
    let mut world = World::new(22, MISSION);
    world.give(20);
    world.pass(20);
    world.board.restart();
    world.give(20);
    world.pass(60);
    world.commander.restart_board();
    world.give(1);
    world.pass(60);
    world.has_executed(41);
    assert_eq!((world.reports.boots, world.board.starts), (vec![1, 2, 3], 3));
}

#[test]
fn commands_that_are_held_back() {
    let mut world = World::new(23, Mission { holds: true, ..MISSION });
    world.give(5);
    world.pass(20);
    assert!(world.board.executed.is_empty());
    world.commander.go_on();
    world.pass(20);
    world.commander.pause();
    world.give(5);
    world.pass(20);
    assert_eq!((world.board.executed.len(), world.commander.progress(6)), (5, Some(Progress::Waits)));
    world.commander.go_on();
    world.pass(20);
    world.has_executed(10);
}

#[test]
fn a_session_after_an_alert() {
    let mut world = World::new(24, MISSION);
    world.give(5);
    world.pass(10);
    world.loss = 1;
    world.give(5);
    world.pass(100);
    assert_eq!((world.reports.executed(), &world.reports.alerts[..]), (5, &[Alert::Timer][..]));
    assert_eq!(world.commander.progress(10), Some(Progress::Sent));
    world.loss = 0;
    world.pass(20);
    world.has_executed(10);
}

#[test]
fn commands_that_the_board_has_dropped() {
    let mut world = World::new(25, MISSION);
    world.give(5);
    world.board.drops = true;
    world.pass(8);
    assert_eq!((world.board.executed.len(), world.commander.progress(5)), (0, Some(Progress::OnBoard)));
    world.board.drops = false;
    world.pass(30);
    world.has_executed(5);
    assert_eq!(world.commander.progress(5), None);
}

#[test]
fn a_record_that_is_brought_back() {
    let mut world = World::new(26, MISSION);
    world.give(5);
    world.pass(20);
    world.board.places = [[0; 50]; 2];
    world.board.restart();
    world.give(2);
    world.pass(20);
    assert_eq!((world.board.executed.len(), &world.reports.marks[..]), (5, &[1][..]));
    world.board.interrupted.extend([6, 7]);
    world.commander.rebuild().unwrap();
    world.give(3);
    world.pass(40);
    world.has_executed(10);
    assert_eq!((world.reports.executed(), &world.board.executed[5..]), (8, &[8, 9, 10][..]));
    assert_eq!(world.reports.boots, [1, 65536 + 1]);
}

/// A fresh store of many commands, with which the program starts again.
#[test]
fn a_fresh_store_of_many_commands() {
    let mut world = World::new(27, MISSION);
    world.give(1000);
    while world.ground_acts() {}
    // A new store has 57 octets and, for each of these commands, 18 and its packet's 6 + 4 + 4 + 4.
    assert_eq!(world.store.len(), 1000 * 36);
    let fresh = world.commander.fresh().unwrap();
    assert_eq!(fresh.len(), 57 + 1000 * 36);
    assert_eq!(fresh[57..], world.store[..]);
    world.store = fresh;
    world.reopen();
    assert_eq!((world.commander.below(), world.commander.highest()), (0, 1000));
    world.pass(200);
    world.has_executed(1000);
}
