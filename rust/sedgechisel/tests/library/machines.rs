//! The receiver, the sender, and packets in segments: rows worked by hand, the receiver's table, and each refusal; both
//! over a link that loses a third of the frames and of the reports, and in random calls.

use crate::common::{octets_of, Chance};
use sedgechisel::*;
use std::time::Instant;

/// The receiver's fields: width 10, V(R), the flags and FARM-B.
fn fields(vr: u8, lockout: u8, wait: u8, retransmit: u8, farm_b: u8) -> FarmFields {
    FarmFields { width: 10, vr, lockout: lockout != 0, wait: wait != 0, retransmit: retransmit != 0, farm_b }
}

/// A width of 10 has a positive and a negative window of 5 each.
#[test]
fn a_receiver_locks_and_opens() {
    let mut farm = Farm::new(10, 0).unwrap();
    assert_eq!(farm.fields(), fields(0, 0, 0, 0, 0));
    assert_eq!((farm.ad(4, true), farm.fields()), (Verdict::Ahead, fields(0, 0, 0, 1, 0)));
    assert_eq!((farm.ad(251, true), farm.fields()), (Verdict::Behind, fields(0, 0, 0, 1, 0)));
    assert_eq!((farm.ad(5, true), farm.fields()), (Verdict::Outside, fields(0, 1, 0, 1, 0)));
    assert_eq!(farm.ad(0, true), Verdict::Discarded);
    farm.set_vr(7);
    assert_eq!((farm.fields(), farm.mode()), (fields(0, 1, 0, 1, 1), FarmMode::Lockout));
    farm.unlock();
    assert_eq!((farm.fields(), farm.mode()), (fields(0, 0, 0, 0, 2), FarmMode::Open));
    assert_eq!((farm.ad(0, true), farm.fields()), (Verdict::Accepted, fields(1, 0, 0, 0, 2)));
}

#[test]
fn a_receiver_waits_for_a_buffer() {
    let mut farm = Farm::new(10, 255).unwrap();
    assert_eq!(farm.ad(255, true), Verdict::Accepted);
    assert_eq!(farm.ad(255, true), Verdict::Behind);
    assert_eq!((farm.ad(0, false), farm.fields()), (Verdict::NoBuffer, fields(0, 0, 1, 1, 0)));
    assert_eq!((farm.mode(), farm.ad(0, true)), (FarmMode::Wait, Verdict::Discarded));
    farm.released();
    assert_eq!(farm.fields(), fields(0, 0, 0, 1, 0));
    farm.bd();
    farm.set_vr(9);
    assert_eq!((farm.ad(9, true), farm.fields()), (Verdict::Accepted, fields(10, 0, 0, 0, 2)));
}

#[test]
fn a_receiver_reports() {
    let report = |farm: &Farm| farm.control_word(2).and_then(|it| it.encode()).unwrap();
    let mut farm = Farm::new(10, 0).unwrap();
    assert_eq!((farm.ad(0, false), report(&farm)), (Verdict::NoBuffer, [0x01, 0x08, 0x18, 0x00]));
    assert_eq!((farm.ad(5, true), report(&farm)), (Verdict::Outside, [0x01, 0x08, 0x38, 0x00]));
    farm.released();
    assert_eq!(report(&farm), [0x01, 0x08, 0x28, 0x00]);
    farm.set_vr(9);
    assert_eq!(report(&farm), [0x01, 0x08, 0x2a, 0x00]);
    farm.unlock();
    assert_eq!(report(&farm), [0x01, 0x08, 0x04, 0x00]);
    assert_eq!(farm.control_word(64), Err(ClcwFault::Range));
    assert_eq!(farm.control_word(63).map(|it| it.vcid), Ok(63));
}

/// The names of calls before 0.3.
#[test]
#[allow(deprecated)]
fn machines_by_older_names() {
    let (mut farm, mut fop) = (Farm::new(10, 0).unwrap(), Fop::new(10, 5, 3, 10).unwrap());
    farm.bd();
    assert_eq!(farm.report(2), farm.control_word(2));
    assert_eq!(fop.report(3, &farm.control_word(2).unwrap()), None);
    assert_eq!(fop.report(2, &farm.control_word(2).unwrap()), Some(Reported { released: 0, alert: None }));
}

/// What may happen to a receiver.
#[derive(Clone, Copy, Debug)]
enum Event {
    Ad(u8, bool),
    Bd,
    Unlock,
    SetVr(u8),
    Released,
}

fn give(farm: &mut Farm, event: Event) -> Option<Verdict> {
    match event {
        Event::Ad(n, buffer_free) => return Some(farm.ad(n, buffer_free)),
        Event::Bd => farm.bd(),
        Event::Unlock => farm.unlock(),
        Event::SetVr(vr) => farm.set_vr(vr),
        Event::Released => farm.released(),
    }
    None
}

/// The receiver's table (docs/PROFILE.md), cell by cell: of each event what is answered, and the fields after it, in
/// the states Open, Wait, Lockout, and Lockout with the wait flag. Each receiver has the width 10, V(R) 100 and
/// FARM-B 3.
#[test]
fn the_table() {
    use Verdict::*;
    let states =
        [fields(100, 0, 0, 1, 3), fields(100, 0, 1, 1, 3), fields(100, 1, 0, 1, 3), fields(100, 1, 1, 1, 3)];
    let [open, wait, lockout, both] = states;
    let counted = |it: FarmFields| FarmFields { farm_b: 0, ..it };
    let (next, unlocked, seven) = (fields(101, 0, 0, 0, 3), fields(100, 0, 0, 0, 0), fields(7, 0, 0, 0, 0));
    let only_open = |verdict| [verdict, Discarded, Discarded, Discarded].map(Some);
    let locks = [Outside, Outside, Discarded, Discarded].map(Some);
    let rows = [
        (Event::Ad(100, true), only_open(Accepted), [next, wait, lockout, both]),
        (Event::Ad(100, false), only_open(NoBuffer), [wait, wait, lockout, both]),
        (Event::Ad(101, true), only_open(Ahead), states),
        (Event::Ad(104, false), only_open(Ahead), states),
        (Event::Ad(105, true), locks, [lockout, both, lockout, both]),
        (Event::Ad(94, true), locks, [lockout, both, lockout, both]),
        (Event::Ad(95, true), only_open(Behind), states),
        (Event::Ad(99, false), only_open(Behind), states),
        (Event::Bd, [None; 4], states.map(counted)),
        (Event::Unlock, [None; 4], [unlocked; 4]),
        (Event::SetVr(7), [None; 4], [seven, seven, counted(lockout), counted(both)]),
        (Event::Released, [None; 4], [open, open, lockout, lockout]),
    ];
    for (event, answers, after) in rows {
        for state in 0..4 {
            let mut farm = Farm::restore(states[state]).unwrap();
            let answer = give(&mut farm, event);
            assert_eq!((answer, farm.fields()), (answers[state], after[state]), "{event:?} in state {state}");
        }
    }
}

#[test]
fn receivers_that_are_none() {
    for width in 0..=255 {
        let is_width = width >= 2 && width % 2 == 0;
        assert_eq!(Farm::new(width, 3).err(), (!is_width).then_some(CopFault::Width));
        let restored = Farm::restore(FarmFields { width, ..fields(100, 1, 1, 1, 2) });
        assert_eq!(restored.err(), (!is_width).then_some(CopFault::Damaged));
    }
    assert_eq!(Farm::restore(fields(100, 0, 1, 0, 2)), Err(CopFault::Damaged));
    assert_eq!(Farm::restore(fields(100, 0, 1, 1, 4)), Err(CopFault::Damaged));
    let kept = Farm::restore(fields(100, 1, 1, 1, 3)).unwrap();
    assert_eq!(Farm::restore(kept.fields()), Ok(kept));
}

/// A sender to a receiver of the width 254.
fn a_sender() -> Fop {
    Fop::new(254, 127, 3, 10).unwrap()
}

fn word(retransmit: bool, value: u8) -> Clcw {
    Clcw { vcid: 2, retransmit, value, ..Clcw::default() }
}

fn reported(released: u8, alert: Option<Alert>) -> Option<Reported> {
    Some(Reported { released, alert })
}

fn send_first(fop: &mut Fop, number: u8) {
    assert_eq!(fop.submit(), Ok(()));
    assert_eq!((fop.fields().waiting, fop.submit()), (true, Err(CopFault::Busy)));
    assert_eq!((fop.next(), fop.fields().waiting), (Some(Next::First(number)), false));
}

/// Three units, of which the second is lost: one is acknowledged, and two are sent again.
#[test]
fn a_sender_sends_again() {
    let mut fop = a_sender();
    assert_eq!((fop.init_without_check(), fop.state(), fop.next()), (Ok(()), FopState::S1, None));
    (0..3).for_each(|it| send_first(&mut fop, it));
    let FopFields { vs, nn, sent, ticks, .. } = fop.fields();
    assert_eq!((vs, nn, sent, ticks), (3, 0, 3, 10));
    assert_eq!((fop.clcw(2, &word(true, 1)), fop.state()), (reported(1, None), FopState::S2));
    let FopFields { nn, sent, due, .. } = fop.fields();
    assert_eq!((nn, sent, due), (1, 2, 2));
    assert_eq!((fop.next(), fop.next()), (Some(Next::Again(1)), Some(Next::Again(2))));
    let wait = Clcw { wait: true, ..word(true, 1) };
    assert_eq!((fop.clcw(2, &wait), fop.state(), fop.next()), (reported(0, None), FopState::S3, None));
    assert_eq!((fop.clcw(2, &word(false, 3)), fop.state()), (reported(2, None), FopState::S1));
    assert_eq!((fop.fields().sent, fop.fields().ticks), (0, 0));
    assert_eq!(fop.clcw(2, &word(false, 4)), reported(0, Some(Alert::NnR)));
    assert_eq!(fop.state(), FopState::S6);
}

/// A word of another virtual channel is no report of this sender's.
#[test]
fn a_report_of_another_channel() {
    let mut fop = a_sender();
    fop.init_without_check().unwrap();
    send_first(&mut fop, 0);
    let before = fop.clone();
    for value in 0..=255 {
        assert_eq!(fop.clcw(3, &word(true, value)), None);
    }
    assert_eq!(fop, before);
    assert_eq!(fop.clcw(2, &word(false, 1)), reported(1, None));
}

/// The timer ends three times, and then the sender gives up.
#[test]
fn a_sender_gives_up() {
    let mut fop = a_sender();
    fop.init_without_check().unwrap();
    send_first(&mut fop, 0);
    assert_eq!((0..100).find_map(|tick| fop.tick().map(|alert| (tick, alert))), Some((29, Alert::Timer)));
    assert_eq!((fop.state(), fop.fields().sent), (FopState::S6, 0));
}

/// Each reason to give up, once: two units were sent, and this report comes, in S1 with the limit 3 or 1.
#[test]
fn why_a_sender_gives_up() {
    let flags = |lockout, wait, retransmit| Clcw { vcid: 2, lockout, wait, retransmit, ..Clcw::default() };
    for (limit, word, alert) in [
        (3, Clcw { value: 1, ..flags(true, false, false) }, Alert::Lockout),
        (3, Clcw { value: 3, ..flags(false, false, false) }, Alert::NnR),
        (3, Clcw { value: 1, ..flags(false, true, false) }, Alert::Clcw),
        (3, Clcw { value: 2, ..flags(false, false, true) }, Alert::Synch),
        (1, Clcw { value: 1, ..flags(false, false, true) }, Alert::Limit),
    ] {
        let mut fop = Fop::new(254, 127, limit, 10).unwrap();
        fop.init_without_check().unwrap();
        (0..2).for_each(|it| send_first(&mut fop, it));
        assert_eq!(fop.clcw(2, &word).and_then(|it| it.alert), Some(alert));
        assert_eq!((fop.state(), fop.terminate()), (FopState::S6, Err(CopFault::WrongState)));
    }
}

/// After an alert a report still says which of the two units sent were accepted, until an initiation begins: then there
/// are no such units, so the number is 0. Where a report is beyond V(S), nothing is known of them.
#[test]
fn what_was_accepted() {
    let mut fop = a_sender();
    fop.init_without_check().unwrap();
    (0..2).for_each(|it| send_first(&mut fop, it));
    assert_eq!((fop.terminate(), fop.state()), (Ok(()), FopState::S6));
    assert_eq!([0, 1, 2, 3, 255].map(|it| fop.accepted_beyond(it)), [Some(0), Some(1), Some(2), None, None]);
    fop.init_without_check().unwrap();
    assert_eq!([1, 2, 255].map(|it| fop.accepted_beyond(it)), [Some(0); 3]);
    assert_eq!([250, 1, 5, 6].map(|it| accepted_beyond(250, 5, it)), [Some(0), Some(7), Some(11), None]);
    assert_eq!((accepted_beyond(5, 9, 200), accepted_beyond(9, 9, 200)), (None, Some(0)));
}

#[test]
fn the_directives() {
    let mut fop = a_sender();
    assert_eq!((fop.submit(), fop.terminate()), (Err(CopFault::NotOpen), Err(CopFault::WrongState)));
    assert_eq!((fop.set_window(5), fop.fields().window), (Ok(()), 5));
    assert_eq!((fop.set_window(128), fop.set_window(0)), (Err(CopFault::Window), Err(CopFault::Window)));
    assert_eq!((fop.set_limit(9), fop.fields().limit, fop.set_limit(0)), (Ok(()), 9, Err(CopFault::Limit)));
    assert_eq!((fop.set_timer(300), fop.set_timer(0)), (Ok(()), Err(CopFault::Timer)));
    assert_eq!((fop.set_vs(7), fop.fields().vs, fop.fields().nn), (Ok(()), 7, 7));
    assert_eq!((fop.init_with_check(), fop.state(), fop.fields().ticks), (Ok(()), FopState::S4, 300));
    assert_eq!((fop.clcw(2, &word(false, 7)), fop.state()), (reported(0, None), FopState::S1));
    assert_eq!((fop.set_vs(8), fop.init_unlock()), (Err(CopFault::WrongState), Err(CopFault::WrongState)));
    assert_eq!((fop.terminate(), fop.state()), (Ok(()), FopState::S6));
    assert_eq!((fop.init_unlock(), fop.state()), (Ok(()), FopState::S5));
    assert_eq!((fop.fields().control, fop.next()), (Control::Due(Command::Unlock), Some(Next::Unlock)));
    assert_eq!((fop.fields().control, fop.next()), (Control::Sent(Command::Unlock), None));
    assert_eq!((fop.terminate(), fop.init_set_vr(200)), (Ok(()), Ok(())));
    let FopFields { control, vs, nn, .. } = fop.fields();
    assert_eq!((control, vs, nn), (Control::Due(Command::SetVr(200)), 200, 200));
    assert_eq!(fop.next(), Some(Next::SetVr(200)));
    assert_eq!(fop.fields().control, Control::Sent(Command::SetVr(200)));
    assert_eq!((fop.clcw(2, &word(false, 200)), fop.state()), (reported(0, None), FopState::S1));
    assert_eq!(fop.fields().control, Control::Idle);
}

#[test]
fn senders_that_are_none() {
    assert_eq!(Fop::new(253, 1, 1, 1), Err(CopFault::Width));
    assert_eq!(Fop::new(0, 0, 0, 0), Err(CopFault::Width));
    assert_eq!(Fop::new(10, 6, 1, 1), Err(CopFault::Window));
    assert_eq!(Fop::new(10, 0, 0, 0), Err(CopFault::Window));
    assert_eq!(Fop::new(10, 5, 0, 0), Err(CopFault::Limit));
    assert_eq!(Fop::new(10, 5, 1, 0), Err(CopFault::Timer));
    let good = FopFields {
        timer: 10,
        ticks: 4,
        room: 5,
        state: FopState::S3,
        vs: 7,
        nn: 5,
        waiting: true,
        sent: 2,
        due: 1,
        window: 5,
        limit: 3,
        count: 1,
        control: Control::Idle,
    };
    let sets = Control::Sent(Command::SetVr(7));
    let commands = FopFields { state: FopState::S5, nn: 7, sent: 0, due: 0, control: sets, ..good };
    assert_eq!(Fop::restore(good).map(|it| it.fields()), Ok(good));
    assert_eq!(Fop::restore(commands).map(|it| it.fields()), Ok(commands));
    for wrong in [
        FopFields { timer: 0, ..good },
        FopFields { room: 128, ..good },
        FopFields { room: 4, ..good },
        FopFields { state: FopState::S5, ..good },
        FopFields { state: FopState::S6, ..good },
        FopFields { ticks: 0, ..good },
        FopFields { ticks: 0, ..commands },
        FopFields { state: FopState::S1, ..commands },
        FopFields { control: Control::Sent(Command::SetVr(5)), ..commands },
        FopFields { vs: 8, ..good },
        FopFields { sent: 3, ..good },
        FopFields { due: 3, ..good },
        FopFields { window: 0, ..good },
        FopFields { limit: 0, ..good },
        FopFields { count: 0, ..good },
    ] {
        assert_eq!(Fop::restore(wrong), Err(CopFault::Damaged));
    }
}

/// What came of a segment, with the packets in hexadecimal digits.
fn is_taken(taken: Taken, packets: &[&str], dropped: Option<Dropped>) {
    let wanted: Vec<Vec<u8>> = packets.iter().map(|it| octets_of(it)).collect();
    assert_eq!(
        (taken.packets.collect::<Vec<_>>(), taken.dropped),
        (wanted.iter().map(|it| &it[..]).collect(), dropped)
    );
}

const ONE: &str = "1005c0000000aa";
const TWO: &str = "1005c0010001bbcc";

#[test]
fn packets_from_segments() {
    use SegmentFlags::*;
    let (one, both) = (octets_of(ONE), [octets_of(ONE), octets_of(TWO)].concat());
    let mut memory = [0x55; 8];
    let mut map = Map::new(&mut memory, false);
    is_taken(map.take(Alone, &one), &[ONE], None);
    is_taken(map.take(Last, &one), &[], Some(Dropped::NoBeginning));
    is_taken(map.take(First, &one[..4]), &[], None);
    assert_eq!(map.open_part(), Some(&one[..4]));
    is_taken(map.take(Continuing, &one[4..5]), &[], None);
    is_taken(map.take(Last, &one[5..]), &[ONE], None);
    assert_eq!(map.open_part(), None);
    is_taken(map.take(First, &one[..4]), &[], None);
    is_taken(map.take(Alone, &one), &[ONE], Some(Dropped::Interrupted));
    is_taken(map.take(First, &both[..9]), &[], Some(Dropped::TooLong));
    is_taken(map.take(Alone, &both), &[], Some(Dropped::TooLong));
    is_taken(Map::new(&mut [0; 15], false).take(Alone, &both), &[], Some(Dropped::NotAPacket));
    is_taken(map.take(Alone, &one[..6]), &[], Some(Dropped::NotAPacket));
    is_taken(map.take(First, &[]), &[], None);
    assert_eq!(map.open_part(), Some(&[][..]));
    is_taken(Map::new(&mut [], false).take(Alone, &one), &[], Some(Dropped::TooLong));
}

#[test]
fn packets_in_blocks() {
    let both = [octets_of(ONE), octets_of(TWO)].concat();
    let mut memory = [0; 8];
    let mut map = Map::new(&mut memory, true);
    is_taken(map.take(SegmentFlags::Alone, &both), &[ONE, TWO], None);
    is_taken(map.take(SegmentFlags::Alone, &[]), &[], Some(Dropped::NotAPacket));
    is_taken(Map::new(&mut [0; 7], true).take(SegmentFlags::Alone, &both), &[], Some(Dropped::TooLong));
    let mut after = packets(&both);
    assert_eq!((after.by_ref().count(), after.next()), (2, None));
    assert_eq!(packets(&both[..14]).collect::<Vec<_>>(), [&both[..7]]);
    assert_eq!(packets(&[]).next(), None);
}

#[test]
fn segments_of_packets() {
    use SegmentFlags::*;
    let (one, both) = (octets_of(ONE), [octets_of(ONE), octets_of(TWO)].concat());
    let limits = |part, blocking| Limits { part, max_packet: 8, blocking };
    let cut = |octets, limits| segments(octets, &limits).unwrap().collect::<Vec<_>>();
    assert_eq!(
        cut(&one, limits(3, false)),
        [(First, &one[..3]), (Continuing, &one[3..6]), (Last, &one[6..])]
    );
    assert_eq!(cut(&one, limits(7, false)), [(Alone, &one[..])]);
    assert_eq!(cut(&both, limits(15, true)), [(Alone, &both[..])]);
    assert_eq!(cut(&both, limits(8, true)), [(Alone, &both[..7]), (Alone, &both[7..])]);
    let four = [(First, &both[..4]), (Last, &both[4..7]), (First, &both[7..11]), (Last, &both[11..])];
    assert_eq!(cut(&both, limits(4, true)), four);
    let mut thirds = segments(&one, &limits(3, false)).unwrap();
    assert_eq!((thirds.len(), thirds.get(2), thirds.get(3)), (3, Some((Last, &one[6..])), None));
    assert_eq!((thirds.next(), thirds.len(), thirds.get(usize::MAX)), (Some((First, &one[..3])), 2, None));
}

/// Packets that have at most `part` octets together go into one segment, and one that has more is cut.
fn cut_plainly(packets: &[Vec<u8>], part: usize) -> Vec<(SegmentFlags, Vec<u8>)> {
    let mut groups: Vec<Vec<u8>> = Vec::new();
    for packet in packets {
        match groups.last_mut() {
            Some(group) if group.len() + packet.len() <= part => group.extend(packet),
            _ => groups.push(packet.clone()),
        }
    }
    let cut = |group: Vec<u8>| {
        let last = (group.len() - 1) / part;
        let flags = move |k| match (k == 0, k == last) {
            (true, true) => SegmentFlags::Alone,
            (true, false) => SegmentFlags::First,
            (false, true) => SegmentFlags::Last,
            (false, false) => SegmentFlags::Continuing,
        };
        group.chunks(part).enumerate().map(|(k, data)| (flags(k), data.to_vec())).collect::<Vec<_>>()
    };
    groups.into_iter().flat_map(cut).collect()
}

#[test]
fn segments_of_random_packets() {
    let mut chance = Chance(9);
    for _ in 0..2000 {
        let (many, part) = (1 + chance.below(20), 1 + chance.below(60));
        let mut packet = || {
            let more = chance.below(24);
            [&[0x10, 5, 0xc0, 0, 0, more as u8][..], &chance.octets(more + 1)].concat()
        };
        let packets: Vec<Vec<u8>> = (0..many).map(|_| packet()).collect();
        let (octets, wanted) = (packets.concat(), cut_plainly(&packets, part as usize));
        let mut cut = segments(&octets, &Limits { part, max_packet: 30, blocking: true }).unwrap();
        for (k, (flags, data)) in wanted.iter().enumerate() {
            assert_eq!((cut.len(), cut.get(k)), (wanted.len() - k, Some((*flags, &data[..]))));
            assert_eq!(cut.next(), Some((*flags, &data[..])));
        }
        assert_eq!((cut.len(), cut.next(), cut.next(), cut.get(wanted.len())), (0, None, None, None));
    }
}

/// Sixteen times as many packets take no more than some sixteen times as long.
#[test]
fn many_packets_are_cut_in_time() {
    let limits = Limits { part: 7, max_packet: 7, blocking: true };
    let time = |count| {
        let octets = octets_of(ONE).repeat(count);
        let begun = Instant::now();
        assert_eq!(segments(&octets, &limits).unwrap().count(), count);
        begun.elapsed()
    };
    let least = |count| (0..30).map(|_| time(count)).min().unwrap();
    let (few, many) = (least(1000), least(16_000));
    assert!(many < few * 64, "{many:?} for 16,000 packets, and {few:?} for 1,000");
}

#[test]
fn octets_that_are_not_cut() {
    let both = [octets_of(ONE), octets_of(TWO)].concat();
    let refused = |count: usize, part, max_packet, blocking| {
        segments(&both[..count], &Limits { part, max_packet, blocking }).err()
    };
    assert_eq!(refused(7, 3, 8, false), None);
    assert_eq!(refused(6, 3, 8, false), Some(MapFault::NotAPacket));
    assert_eq!(refused(15, 3, 8, false), Some(MapFault::NotAPacket));
    assert_eq!(refused(0, 3, 7, true), Some(MapFault::NotAPacket));
    assert_eq!(refused(15, 3, 7, true), Some(MapFault::TooLong));
    assert_eq!(refused(7, 0, 8, false), Some(MapFault::Damaged));
}

const CHANNEL: u8 = 2;
const UNITS: u16 = 1000;

/// A thousand units go up, each once and in sequence, and all are acknowledged.
#[test]
fn a_thousand_units() {
    let mut chance = Chance(1);
    let mut farm = Farm::new(20, 0).unwrap();
    let mut fop = Fop::new(20, 10, 255, 5).unwrap();
    let (mut waiting, mut sent) = ([0; 2], [[0; 2]; 256]);
    let (mut submitted, mut handed_on, mut acknowledged) = (0, 0, 0);
    fop.init_without_check().unwrap();
    while acknowledged < UNITS {
        if submitted < UNITS && fop.submit().is_ok() {
            waiting = submitted.to_be_bytes();
            submitted += 1;
        }
        if let Some(next) = fop.next() {
            let number = match next {
                Next::First(number) => {
                    sent[usize::from(number)] = waiting;
                    number
                }
                Next::Again(number) => number,
                other => panic!("{other:?} in a session without a control command"),
            };
            if !chance.once_in(3) {
                handed_on += arrived(&mut farm, number, &sent[usize::from(number)], handed_on);
            }
        }
        let report = farm.control_word(CHANNEL).and_then(|it| it.encode()).unwrap();
        if !chance.once_in(3) {
            let word = Clcw::decode(&report).unwrap();
            let Reported { released, alert } = fop.clcw(CHANNEL, &word).unwrap();
            assert_eq!(alert, None);
            acknowledged += u16::from(released);
        }
        assert_eq!(fop.tick(), None);
    }
    assert_eq!((handed_on, submitted, fop.fields().sent), (UNITS, UNITS, 0));
}

/// A unit goes up in a frame; the number of units that are handed on then, 0 or 1.
fn arrived(farm: &mut Farm, n: u8, unit: &[u8], expected: u16) -> u16 {
    let mut room = [0; 16];
    let segment = Segment { flags: SegmentFlags::Alone, map: 4, data: unit };
    let frame = TcFrame { scid: 1, vcid: CHANNEL, body: Body::Ad { n, segment } };
    let octets = frame.encode(Fecf::Present, &mut room).unwrap();
    assert_eq!(TcFrame::decode(octets, Fecf::Present), Ok(frame));
    let is_accepted = farm.ad(n, true) == Verdict::Accepted;
    assert!(!is_accepted || unit == expected.to_be_bytes());
    u16::from(is_accepted)
}

/// Whatever is called, a sender stays one, and its fields make it again.
#[test]
fn random_calls_of_a_sender() {
    let mut chance = Chance(6);
    let mut fop = Fop::new(20, 10, 2, 5).unwrap();
    let (mut sent, mut alerts) = (0, 0);
    for _ in 0..100_000 {
        let number = fop.fields().vs.wrapping_add(any_near(&mut chance));
        let done = match chance.below(12) {
            0 => fop.init_without_check(),
            1 => fop.init_with_check(),
            2 => fop.init_unlock(),
            3 => fop.init_set_vr(number),
            4 if chance.once_in(8) => fop.terminate(),
            5 => fop.set_vs(number),
            6 => fop.set_window(chance.below(12) as u8),
            7 => fop.set_limit(chance.below(4) as u8),
            8 => fop.set_timer(chance.below(8) as u16),
            _ => fop.submit(),
        };
        assert_ne!(done, Err(CopFault::Damaged));
        sent += u32::from(fop.next().is_some());
        let word = Clcw { vcid: CHANNEL, value: number, ..any_word(&mut chance) };
        alerts += u32::from(fop.clcw(CHANNEL, &word).unwrap().alert.is_some());
        alerts += u32::from(chance.once_in(4) && fop.tick().is_some());
        assert_eq!(Fop::restore(fop.fields()), Ok(fop.clone()));
    }
    assert!(sent > 1000 && alerts > 1000);
}

/// Whatever is called, a receiver stays one, and its fields make it again.
#[test]
fn random_calls_of_a_receiver() {
    let mut chance = Chance(7);
    let mut farm = Farm::new(20, 0).unwrap();
    let mut accepted = 0;
    for _ in 0..100_000 {
        let number = farm.fields().vr.wrapping_add(any_near(&mut chance));
        match chance.below(8) {
            0 => farm.released(),
            1 => farm.bd(),
            2 => farm.unlock(),
            3 => farm.set_vr(number),
            _ => accepted += u32::from(farm.ad(number, !chance.once_in(4)) == Verdict::Accepted),
        }
        assert_eq!(farm.mode() == FarmMode::Lockout, farm.control_word(CHANNEL).unwrap().lockout);
        assert_eq!(Farm::restore(farm.fields()), Ok(farm.clone()));
    }
    assert!(accepted > 1000);
}

/// Mostly 0, as a step from a number.
fn any_near(chance: &mut Chance) -> u8 {
    if chance.once_in(4) {
        chance.octet()
    } else {
        0
    }
}

fn any_word(chance: &mut Chance) -> Clcw {
    let (retransmit, lockout) = (chance.once_in(4), chance.once_in(32));
    Clcw { retransmit, lockout, wait: retransmit && chance.once_in(2), ..Clcw::default() }
}
