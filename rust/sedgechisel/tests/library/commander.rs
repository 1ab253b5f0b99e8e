//! The ground's commander, action by action: octets worked out by Python's struct and zlib, and each refusal.

use crate::allocator::{refusing, Refusals};
use crate::common::octets_of;
use sedgechisel::*;

const MISSION: Mission = Mission { round_trip: 2, orders: 1, status: 2, map: 0, holds: false };
const TAG: u64 = 0x1122_3344_5566_7788;
const MARK: u32 = 0x1234_5678;

// The entries of a store, for a command with the tag TAG on MAP 3: APID 5, count 44, number 1, the octets 1, 2, 3.
const GIVEN: &str = "00000023011122334455667788031005c02c000a0000000101020354997ac4135192f6";
const HEARD: &str = "0000001e0200000001000000010000000000000001de30534300a7fcf126";
const HEARD_OTHER: &str = "0000001e0200000001000000020000000000000003de30534300965575f6";
const HEARD_BROUGHT: &str = "0000001e0200010000000000010000000000000000000000000095d51a92";
const LOSS: &str = "0000000d0312345678767aac24";
const ORDERED: &str = "0000001504123456780001000000000001bdd62e37";
const TOLD: &str = "0000000905678ab8db";
const FRESH: &str = "00000039060000000100000001000000010000000000000001de305343\
    0000000000000000000000000000000000000000000000007c4e0568";
// Every number was given; and the board of the greatest boot count has lost its record, as has one with 65,536 less.
const ALL_GIVEN: &str = "0000003906ffffffff000000000000000000000000000000000000000000\
    00000000000000000000000000000000000000000000008d00c094";
const LAST_BOOT: &str = "000000390600000000ffffffff0000000000000000000000000000000000\
    000000000100000005010000000000000000000000000085c6cab8";
const LAST_BOOT_BUT_ONE: &str = "000000390600000000fffeffff0000000000000000000000000000000000\
    0000000001000000050100000000000000000000000000c2d53c43";

// Statuses.
const SAYS: &str = "0000000001000000010000000000000001de305343000098bf224c";
const OTHER: &str = "0000000001000000020000000000000003de30534300001e5d591c";
const LOST: &str = "03123456780000000000000000000000000000000000ff404768ef";
const BROUGHT: &str = "000001000000000001000000000000000000000000000054817c32";

fn opened(store: &[u8]) -> Commander {
    let (commander, good) = Commander::open(&Config::default(), &MISSION, store).unwrap();
    assert_eq!(good, store.len());
    commander
}

/// The next action is this one; then it is done.
fn acts(commander: &mut Commander, wanted: CommanderAction) {
    let due = commander.next().unwrap().expect("an action");
    assert_eq!(due.action(), wanted);
    due.done().unwrap();
}

fn stores(commander: &mut Commander, octets: &str) {
    acts(commander, CommanderAction::Store(&octets_of(octets)));
}

fn sends(commander: &mut Commander, octets: &str) {
    acts(commander, CommanderAction::Send(&octets_of(octets)));
}

fn rests(commander: &mut Commander) {
    assert!(commander.next().unwrap().is_none());
}

fn with_command() -> Commander {
    let mut commander = opened(&[]);
    assert_eq!(commander.command(TAG, 3, 5, 44, &[1, 2, 3]), Ok(1));
    stores(&mut commander, GIVEN);
    rests(&mut commander);
    commander
}

#[test]
fn a_command_is_executed_and_reported() {
    let mut commander = with_command();
    assert_eq!((commander.below(), commander.highest()), (0, 1));
    commander.status(&octets_of(SAYS)).unwrap();
    stores(&mut commander, HEARD);
    acts(&mut commander, CommanderAction::Restarted(1));
    acts(&mut commander, CommanderAction::Executed(TAG));
    commander.status(&octets_of(SAYS)).unwrap();
    assert!(!commander.is_worth());
    stores(&mut commander, &TOLD.repeat(2));
    rests(&mut commander);
    assert_eq!((commander.below(), commander.highest()), (1, 1));
    assert_eq!(commander.fresh().unwrap(), octets_of(FRESH));
    assert_eq!(opened(&octets_of(FRESH)).command(TAG, 3, 5, 44, &[]), Ok(2));
    assert_eq!(format!("{commander:?}"), "Commander { state: S6, below: 1, highest: 1, .. }");
}

#[test]
fn a_command_is_sent_as_cop_1_has_it() {
    let mut commander = with_command();
    let word = octets_of("01080007").try_into().unwrap();
    assert_eq!(commander.progress(1), Some(Progress::Waits));
    // A CLCW counts once three ticks have passed without a frame.
    (0..3).for_each(|_| commander.tick());
    assert_eq!(commander.clcw(&word), HeardClcw { report: HeardReport::Used, alert: None });
    sends(&mut commander, "3001080700008b9e");
    rests(&mut commander);
    assert_eq!((commander.state(), commander.vs(), commander.nn()), (FopState::S5, 7, 7));
    assert_eq!((commander.outstanding(), commander.unsent(), commander.submitted()), (1, 1, 1));
    assert_eq!(commander.clcw(&word).report, HeardReport::Used);
    sends(&mut commander, "0001081807c31005c02c000a0000000101020354997ac4f748");
    rests(&mut commander);
    assert_eq!(commander.progress(1), Some(Progress::Sent));
    assert_eq!((commander.state(), commander.vs(), commander.nn()), (FopState::S1, 8, 7));
    assert_eq!((commander.outstanding(), commander.unsent(), commander.due()), (1, 0, 0));
    assert_eq!((commander.ticks(), commander.count(), commander.frame_length()), (10, 1, 64));
    commander.clcw(&octets_of("01080008").try_into().unwrap());
    assert_eq!(commander.progress(1), Some(Progress::OnBoard));
    let counts = (commander.submitted(), commander.sent_whole(), commander.acknowledged_whole());
    assert_eq!((counts, commander.bypassed()), ((1, 1, 1), 0));
    assert_eq!((commander.progress(0), commander.progress(2)), (None, None));
}

#[test]
fn another_ground_has_sent_a_command() {
    let mut commander = with_command();
    commander.status(&octets_of(OTHER)).unwrap();
    stores(&mut commander, HEARD_OTHER);
    acts(&mut commander, CommanderAction::Restarted(1));
    acts(&mut commander, CommanderAction::Foreign(1, 2));
    acts(&mut commander, CommanderAction::Unknown(TAG));
    stores(&mut commander, &TOLD.repeat(3));
    rests(&mut commander);
    assert_eq!((commander.below(), commander.highest()), (2, 2));
}

#[test]
fn a_board_is_brought_its_record() {
    let mut commander = with_command();
    assert_eq!(commander.rebuild(), Err(LedgerFault::NotLost));
    commander.status(&octets_of(LOST)).unwrap();
    stores(&mut commander, LOSS);
    acts(&mut commander, CommanderAction::RecordLost(MARK));
    stores(&mut commander, TOLD);
    commander.status(&octets_of(LOST)).unwrap();
    rests(&mut commander);
    commander.rebuild().unwrap();
    stores(&mut commander, ORDERED);
    let order = "2001081e00c01001c000001002000100000000000112345678509f444b025b";
    sends(&mut commander, order);
    rests(&mut commander);
    // The order goes up again three ticks later.
    (0..2).for_each(|_| commander.tick());
    rests(&mut commander);
    commander.tick();
    sends(&mut commander, order);
    commander.status(&octets_of(BROUGHT)).unwrap();
    stores(&mut commander, HEARD_BROUGHT);
    acts(&mut commander, CommanderAction::Restarted(65536));
    acts(&mut commander, CommanderAction::Unknown(TAG));
    stores(&mut commander, &TOLD.repeat(2));
    (0..3).for_each(|_| commander.tick());
    rests(&mut commander);
}

#[test]
fn a_board_is_told_to_restart() {
    let mut commander = opened(&octets_of(FRESH));
    commander.restart_board();
    sends(&mut commander, "2001081e00c01001c0000010010000000100000000000000006d8d1b323215");
    rests(&mut commander);
}

/// Of a store that was cut off anywhere, the whole entries are good.
#[test]
fn a_torn_store() {
    let entries = [GIVEN, HEARD, TOLD, TOLD].map(octets_of);
    let store = entries.concat();
    let whole = |count: usize| {
        let ends = entries.iter().scan(0, |end, it| {
            *end += it.len();
            Some(*end)
        });
        ends.take_while(|it| *it <= count).last().unwrap_or(0)
    };
    for count in 0..=store.len() {
        let (commander, good) = Commander::open(&Config::default(), &MISSION, &store[..count]).unwrap();
        assert_eq!(good, whole(count));
        assert_eq!((commander.below(), commander.highest()), ((good >= 65).into(), (good >= 35).into()));
    }
    for place in 0..store.len() {
        let mut damaged = store.clone();
        damaged[place] ^= 0x10;
        let (_, good) = Commander::open(&Config::default(), &MISSION, &damaged).unwrap();
        assert_eq!(good, whole(place));
    }
}

/// After the program was killed, what it did last is due again.
#[test]
fn what_is_due_after_the_program_was_killed() {
    let store = octets_of(&[GIVEN, HEARD].concat());
    let mut commander = opened(&store);
    acts(&mut commander, CommanderAction::Restarted(1));
    let mut commander = opened(&store);
    acts(&mut commander, CommanderAction::Restarted(1));
    acts(&mut commander, CommanderAction::Executed(TAG));
    stores(&mut commander, &TOLD.repeat(2));
    rests(&mut opened(&octets_of(&[GIVEN, HEARD, TOLD, TOLD].concat())));
    acts(&mut opened(&octets_of(&[GIVEN, HEARD, TOLD].concat())), CommanderAction::Executed(TAG));
    rests(&mut opened(&octets_of(GIVEN)));
}

/// A telemetry frame with the octets of this status.
fn reported(status: &str) -> Vec<u8> {
    let mut spacecraft = Spacecraft::new(&Config::default()).unwrap();
    spacecraft.telemetry(&reported_packet(status)).unwrap();
    spacecraft.telemetry_frame(&mut [0; TmFrame::LONGEST]).to_vec()
}

fn reported_packet(status: &str) -> Vec<u8> {
    octets_of(&["0002c000001a", status].concat())
}

#[test]
fn what_is_dropped_is_due_again() {
    let mut commander = opened(&[]);
    commander.command(TAG, 3, 5, 44, &[1, 2, 3]).unwrap();
    drop(commander.next());
    stores(&mut commander, GIVEN);
    let heard = commander.telemetry(&reported(SAYS)).unwrap();
    assert_eq!(heard, Heard::Frame { gap: None, packets: 1, report: HeardReport::Used, alert: None });
    drop(commander.next());
    acts(&mut commander, CommanderAction::Telemetry(&reported_packet(SAYS)));
    drop(commander.next());
    stores(&mut commander, HEARD);
    drop(commander.next());
    acts(&mut commander, CommanderAction::Restarted(1));
    drop(commander.next());
    acts(&mut commander, CommanderAction::Executed(TAG));
    stores(&mut commander, &TOLD.repeat(2));
    rests(&mut commander);
}

/// A frame that is dropped counts as lost. COP-1 sends it again when the timer expires, and at last gives up.
#[test]
fn a_frame_that_is_dropped_is_sent_again() {
    let mut commander = with_command();
    (0..3).for_each(|_| commander.tick());
    commander.clcw(&octets_of("01080007").try_into().unwrap());
    for _ in 0..3 {
        let due = commander.next().unwrap().unwrap();
        assert_eq!(due.action(), CommanderAction::Send(&octets_of("3001080700008b9e")));
        drop(due);
        rests(&mut commander);
        (0..10).for_each(|_| commander.tick());
    }
    let due = commander.next().unwrap().unwrap();
    assert_eq!(due.action(), CommanderAction::Alert(Alert::Timer));
    drop(due);
    rests(&mut commander);
    assert_eq!(commander.state(), FopState::S6);
}

#[test]
fn commanders_that_are_not_opened() {
    let refused = |config: &Config, mission: &Mission| Commander::open(config, mission, &[]).err();
    let config = Config::default();
    let range = Some(OpenFault::Ledger(LedgerFault::FieldRange));
    assert_eq!(refused(&config, &Mission { orders: 2046, ..MISSION }), None);
    assert_eq!(refused(&config, &Mission { orders: 2047, ..MISSION }), range);
    assert_eq!(refused(&config, &Mission { map: 64, ..MISSION }), range);
    let closed = Config { maps: !1, part: 22, ..config };
    assert_eq!(refused(&closed, &MISSION), range);
    let short = Some(OpenFault::Ledger(LedgerFault::TooLong));
    assert_eq!(refused(&Config { part: 22, ..config }, &MISSION), short);
    assert_eq!(refused(&Config { max_packet: 22, ..config }, &MISSION), short);
    assert_eq!(refused(&Config { part: 23, max_packet: 23, ..config }, &MISSION), None);
    let wide = Some(OpenFault::OutOfRange(Parameter::Width));
    assert_eq!(refused(&Config { width: 3, ..closed }, &MISSION), wide);
    let text = refused(&closed, &MISSION).unwrap().to_string();
    assert_eq!(text, LedgerFault::FieldRange.to_string());
}

/// Each refusal by its number, in the order in which they apply; none changes anything.
#[test]
fn refusals_of_a_commander() {
    let mut commander = opened(&octets_of(GIVEN));
    assert_eq!(commander.status(&octets_of(SAYS)[1..]).map_err(LedgerFault::number), Err(1));
    assert_eq!(commander.status(&[0; 27]).map_err(LedgerFault::number), Err(2));
    assert_eq!(commander.status(&[0; 26]), Err(LedgerFault::Layout));
    assert_eq!(commander.status(&[0; 27]), Err(LedgerFault::Check));
    for (map, apid, sequence) in [(64, 5, 0), (3, 2047, 0), (3, 5, 16384)] {
        assert_eq!(commander.command(1, map, apid, sequence, &[]), Err(LedgerFault::FieldRange));
    }
    assert_eq!(commander.command(1, 3, 5, 0, &[0; 65529]).map_err(LedgerFault::number), Err(3));
    assert_eq!(commander.rebuild().map_err(LedgerFault::number), Err(6));
    rests(&mut commander);
    let config = Config { max_packet: 24, queue_slots: 1, part: 23, ..Config::default() };
    let (mut short, _) = Commander::open(&config, &MISSION, &octets_of(ALL_GIVEN)).unwrap();
    assert_eq!(short.command(1, 3, 5, 0, &[0; 65529]), Err(LedgerFault::FieldRange));
    assert_eq!(short.command(1, 3, 5, 0, &[0; 10]).map_err(LedgerFault::number), Err(4));
    assert_eq!(short.command(1, 3, 5, 0, &[0; 10]), Err(LedgerFault::TooLong));
    assert_eq!(short.command(1, 3, 5, 0, &[0; 9]), Err(LedgerFault::NoNumber));
    assert_eq!(LedgerFault::NoNumber.number(), 5);
    let mut lost = opened(&octets_of(LAST_BOOT));
    assert_eq!(lost.rebuild(), Err(LedgerFault::NoBoot));
    assert_eq!(LedgerFault::NoBoot.number(), 7);
    assert_eq!(opened(&octets_of(LAST_BOOT_BUT_ONE)).rebuild(), Ok(()));
    let mut owing = opened(&[]);
    owing.command(1, 3, 5, 0, &[0; 65528]).unwrap();
    assert_eq!((owing.fresh(), LedgerFault::Owing.number()), (Err(LedgerFault::Owing), 8));
}

/// A call that is refused for want of memory has changed nothing.
#[test]
fn refusals_for_want_of_memory() {
    let all = Refusals { after: 0, all: true };
    let memory = Err(LedgerFault::Memory);
    let mut commander = opened(&[]);
    assert_eq!(refusing(all, || commander.command(TAG, 3, 5, 44, &[1, 2, 3])).0, memory);
    assert_eq!(commander.command(TAG, 3, 5, 44, &[1, 2, 3]), Ok(1));
    assert!(refusing(all, || commander.next().is_err()).0);
    stores(&mut commander, GIVEN);
    assert_eq!(refusing(all, || commander.fresh()).0, Err(LedgerFault::Memory));
    let says = octets_of(SAYS);
    assert_eq!(refusing(all, || commander.status(&says)).0, Err(LedgerFault::Memory));
    let frame = reported(SAYS);
    assert_eq!(refusing(all, || commander.telemetry(&frame)).0, Err(LedgerFault::Memory));
    commander.telemetry(&frame).unwrap();
    assert!(refusing(all, || commander.next().is_err()).0);
    acts(&mut commander, CommanderAction::Telemetry(&reported_packet(SAYS)));
    stores(&mut commander, HEARD);
    let due = commander.next().unwrap().unwrap();
    assert_eq!(refusing(all, || due.done()).0, Err(LedgerFault::Memory));
    acts(&mut commander, CommanderAction::Restarted(1));
    assert_eq!(LedgerFault::Memory.number(), 9);
}
