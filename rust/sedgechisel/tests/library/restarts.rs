//! Commands that are executed at most once and in order on board, over restarts: octets worked out by Python's struct
//! and zlib.

use crate::common::octets_of;
use sedgechisel::*;

const COMMAND: &str = "1005c02c000a0000012d010203831d43f2";
const BEFORE: u32 = 0x8a3b_0c5d;
const AFTER: u32 = 0x4313_d201;

/// What stands at a place: the record with its check, twice.
fn place(octets: &str) -> Vec<u8> {
    octets_of(&octets.repeat(2))
}

/// The next action is a write of these octets at this place; then it is done.
fn writes(executor: &mut Executor, at: LogPlace, octets: &str) {
    let due = executor.next().unwrap();
    assert_eq!(*due.action(), LogAction::Write(at, place(octets).try_into().unwrap()));
    due.done();
}

fn both(executor: &mut Executor, octets: &str) {
    writes(executor, LogPlace::First, octets);
    writes(executor, LogPlace::Second, octets);
}

#[test]
fn a_command_is_executed_on_board() {
    let command = octets_of(COMMAND);
    let mut executor = Executor::start(&[], &place("000000060000012c00000000000000018a3b0c5d00003d9558"), 5);
    assert_eq!(executor.offer(&command), Err(LogFault::Starting));
    assert_eq!(BoardStatus::decode(&executor.status(0)), Ok((BoardStatus::Starts, 0)));
    writes(&mut executor, LogPlace::First, "000000060000012c00000000000000018a3b0c5d00003d9558");
    assert_eq!(BoardStatus::decode(&executor.status(0)), Ok((BoardStatus::Changes, 0)));
    both(&mut executor, "000000070000012c00000000000000018a3b0c5d00ef6f23b9");
    assert!(executor.next().is_none());
    assert_eq!(executor.offer(&command[1..]), Err(LogFault::Layout));
    assert_eq!(executor.offer(&command), Ok(&[1, 2, 3][..]));
    assert_eq!(executor.offer(&command), Err(LogFault::Busy));
    both(&mut executor, "000000070000012c00000000000000014313d2010188f21436");
    assert_eq!(executor.next().unwrap().action(), &LogAction::Execute(301));
    let due = executor.next().unwrap();
    assert_eq!(due.action(), &LogAction::Execute(301));
    let kept = LogRecord { boot: 7, last: 300, known: 1, history: AFTER, begun: true };
    assert_eq!(BoardStatus::decode(&due.status(1000)), Ok((BoardStatus::Says(kept), 255)));
    due.done();
    both(&mut executor, "000000070000012d00000000000000034313d201002f3264dd");
    assert_eq!(executor.offer(&command), Err(LogFault::Behind));
    let mut out = [0; 14];
    let later = command_packet(5, 46, 303, &[], &mut out).unwrap();
    assert_eq!(executor.offer(later), Err(LogFault::Ahead));
    let other = LogOrder::Restart { boot: 6 }.encode(6, 44).unwrap();
    assert_eq!(executor.obey(&other), Err(LogFault::OtherBoot));
    assert_eq!(
        executor.status(3)[..],
        octets_of("00000000070000012d00000000000000034313d201000369cfb79e")[..]
    );
    let restart = LogOrder::Restart { boot: 7 }.encode(6, 45).unwrap();
    assert_eq!(restart[..], octets_of("1006c02d001001000000070000000000000000e1cc51f8")[..]);
    assert_eq!(executor.obey(&restart), Ok(()));
    assert_eq!(executor.next().unwrap().action(), &LogAction::Restart);
    assert_eq!(executor.obey(&restart), Err(LogFault::Busy));
}

#[test]
fn a_record_is_lost_and_brought() {
    let mark = 0x1234_5678;
    let mut executor = Executor::start(&[0; 50], &[0xff; 50], mark);
    assert!(executor.next().is_none());
    assert_eq!(BoardStatus::decode(&executor.status(0)), Ok((BoardStatus::Lost(mark), 0)));
    assert_eq!(executor.offer(&octets_of(COMMAND)), Err(LogFault::Lost));
    let other = LogOrder::Rebuild { mark: 5, boot: 65543, last: 301 }.encode(6, 46).unwrap();
    assert_eq!(executor.obey(&other), Err(LogFault::OtherMark));
    let order = LogOrder::Rebuild { mark, boot: 65543, last: 301 }.encode(6, 46).unwrap();
    assert_eq!(order[..], octets_of("1006c02e001002000100070000012d123456782d00bf90")[..]);
    assert_eq!(executor.obey(&order), Ok(()));
    both(&mut executor, "000100070000012d00000000000000000000000000062827c2");
    assert_eq!(executor.obey(&order), Err(LogFault::NotLost));
    assert_eq!(Executor::new_record()[..], place("0000000000000000000000000000000000000000004104c58b")[..]);
}

#[test]
fn commands_from_the_ground() {
    let mut out = [0x55; 18];
    assert_eq!(command_packet(5, 44, 301, &[1, 2, 3], &mut out[..16]), Err(LogFault::Room));
    assert_eq!(command_packet(5, 44, 0, &[1, 2, 3], &mut out), Err(LogFault::FieldRange));
    assert_eq!(out, [0x55; 18]);
    assert_eq!(*command_packet(5, 44, 301, &[1, 2, 3], &mut out).unwrap(), octets_of(COMMAND)[..]);
    assert_eq!(out[17], 0x55);
    assert_eq!(LogOrder::Restart { boot: 7 }.encode(2048, 45), Err(LogFault::FieldRange));
    assert_eq!(BoardStatus::decode(&[0; 26]), Err(LogFault::Layout));
    assert_eq!(BoardStatus::decode(&[0; 27]), Err(LogFault::Check));
    assert_eq!(history_after(BEFORE, &octets_of(COMMAND)), AFTER);
    assert_eq!(history_after(0, &octets_of(COMMAND)), 0x42b1_791c);
}
