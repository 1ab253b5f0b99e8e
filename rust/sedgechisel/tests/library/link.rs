//! The simulated link: rows worked by hand, in which each event, each record and each way to begin comes once.

use crate::common::octets_of;
use sedgechisel::*;

const P0: &str = "1005C0000000AA";
const P1: &str = "1005C0010000AB";

fn a_link(config: &Config) -> Link {
    Link::new(config).unwrap()
}

fn control_frame(command: Command) -> Vec<u8> {
    let frame = TcFrame { scid: 1, vcid: 2, body: Body::Bc(command) };
    frame.encode(Fecf::Present, &mut [0; 16]).unwrap().to_vec()
}

/// What a link knows of how its session began: clean, with an idle start, confirmed.
fn opening(link: &Link) -> (Option<Begun>, [bool; 3]) {
    (link.begun(), [link.is_clean(), link.is_idle(), link.is_confirmed()])
}

/// A session begins in each of the four ways; a report that is on its way down makes it no clean one.
#[test]
fn sessions_begin() {
    let mut link = a_link(&Config::default());
    assert_eq!((link.begun(), link.state(), link.send()), (None, FopState::S6, Ok(None)));
    link.init_without_check().unwrap();
    assert_eq!(
        (opening(&link), link.state()),
        ((Some(Begun::WithoutCheck), [true, true, false]), FopState::S1)
    );
    link.terminate().unwrap();
    link.report().unwrap();
    link.init_with_check().unwrap();
    assert_eq!(
        (opening(&link), link.state()),
        ((Some(Begun::WithCheck), [false, true, false]), FopState::S4)
    );
    link.down_deliver().unwrap();
    assert_eq!((opening(&link), link.state()), ((Some(Begun::WithCheck), [false, true, true]), FopState::S1));
    for (command, begun) in [(Command::Unlock, Begun::Unlock), (Command::SetVr(9), Begun::SetVr(9))] {
        link.terminate().unwrap();
        assert_eq!(link.terminate(), Err(CopFault::WrongState));
        match command {
            Command::Unlock => link.init_unlock().unwrap(),
            Command::SetVr(vr) => link.init_set_vr(vr).unwrap(),
        }
        assert_eq!((opening(&link), link.state()), ((Some(begun), [true, true, false]), FopState::S5));
        assert_eq!(link.send(), Ok(Some(control_frame(command))));
        assert_eq!(link.up_deliver(), Ok(Received::Control(command)));
    }
    // The receiver expects 9 now.
    for vs in [5, 9] {
        link.terminate().unwrap();
        link.set_vs(vs).unwrap();
        link.init_without_check().unwrap();
        assert_eq!(opening(&link), (Some(Begun::WithoutCheck), [vs == 9, vs == 9, false]));
    }
}

/// Two packets, of which the first arrives; the report on it takes it from what is outstanding.
#[test]
fn records() {
    let mut link = a_link(&Config::default());
    link.init_without_check().unwrap();
    link.submit(4, &octets_of(P0)).unwrap();
    link.submit(5, &octets_of(P1)).unwrap();
    assert_eq!(link.send(), Ok(Some(octets_of("0001080E00C41005C0000000AAE75D"))));
    assert!(link.send().unwrap().is_some());
    let received = Received::Sequence { n: 0, verdict: Verdict::Accepted, ready: 1, dropped: None };
    assert_eq!((link.up_deliver(), link.up_lose()), (Ok(received), Ok(())));
    let entries = |record| link.record(record).collect::<Result<Vec<_>, _>>().unwrap();
    let fields = [octets_of("C41005C0000000AA"), octets_of("C51005C0010000AB")];
    assert_eq!(entries(Record::Submitted(4)), [octets_of(P0)]);
    assert_eq!(entries(Record::Submitted(5)), [octets_of(P1)]);
    assert_eq!(entries(Record::Delivered(4)), [octets_of(P0)]);
    assert!(entries(Record::Delivered(5)).is_empty());
    assert_eq!(entries(Record::Sent), fields);
    assert_eq!(entries(Record::Received), fields[..1]);
    assert_eq!((link.outstanding(), link.acknowledged()), (2, 0));
    assert_eq!(link.report().unwrap().encode(), Ok([0x01, 0x08, 0x00, 0x01]));
    assert_eq!(link.down_lose(), Ok(()));
    link.report().unwrap();
    let heard = Heard::Frame { gap: None, packets: 0, report: HeardReport::Used, alert: None };
    assert_eq!(link.down_deliver(), Ok(heard));
    assert_eq!((link.outstanding(), link.acknowledged()), (1, 1));
    assert_eq!((link.vs(), link.nn(), waits(&link)), (2, 1, (0, 0, 0, 10, 1)));
    assert_eq!((link.take(), link.take()), (Ok(Some((4, octets_of(P0)))), Ok(None)));
}

/// What waits on the ground, the ticks that are left, and the transmission count.
fn waits(link: &Link) -> (usize, usize, usize, u16, u8) {
    (link.unsent(), link.due(), link.bypass_unsent(), link.ticks(), link.count())
}

/// What is read of the nodes while a buffer is full on board, and one frame is sent again.
#[test]
fn nodes_are_read() {
    let mut link = a_link(&Config { ready_slots: 1, ..Config::default() });
    link.init_without_check().unwrap();
    link.submit(4, &octets_of(P0)).unwrap();
    link.submit(4, &octets_of(P1)).unwrap();
    link.bypass(4, &octets_of(P0)).unwrap();
    assert_eq!((link.vs(), link.nn(), waits(&link)), (0, 0, (2, 0, 1, 0, 1)));
    for _ in 0..3 {
        link.send().unwrap();
        link.up_deliver().unwrap();
    }
    assert_eq!((link.vs(), link.nn(), waits(&link)), (2, 0, (0, 0, 0, 10, 1)));
    assert_eq!((link.mode(), link.ready(), link.bypass_ready()), (FarmMode::Wait, 1, 1));
    assert_eq!((link.control_word(), link.control_word().value), (link.report().unwrap(), 1));
    link.take().unwrap();
    link.take_bypass().unwrap();
    assert_eq!((link.mode(), link.ready(), link.bypass_ready()), (FarmMode::Open, 0, 0));
    link.report().unwrap();
    link.down_lose().unwrap();
    link.down_deliver().unwrap();
    assert_eq!((link.state(), link.nn(), waits(&link)), (FopState::S2, 1, (0, 1, 0, 10, 2)));
}

/// What comes past the sequence control, and telemetry.
#[test]
fn bypass_and_telemetry() {
    let mut link = a_link(&Config::default());
    assert_eq!(link.submit(4, &octets_of(P0)), Err(LinkFault::NotOpen));
    assert_eq!(link.bypass(64, &octets_of(P0)), Err(LinkFault::ClosedMap));
    link.bypass(6, &octets_of(P0)).unwrap();
    link.send().unwrap();
    assert_eq!(link.up_deliver(), Ok(Received::Bypass { kept: true }));
    assert_eq!((link.take(), link.take_bypass()), (Ok(None), Ok(Some((6, octets_of(P0))))));
    assert_eq!(link.take_bypass(), Ok(None));
    assert_eq!(link.telemetry(&octets_of(P0)[..6]), Err(TmFault::NotAPacket));
    link.telemetry(&octets_of("0005C0000000AA")).unwrap();
    link.report().unwrap();
    let heard = Heard::Frame { gap: None, packets: 1, report: HeardReport::Used, alert: None };
    assert_eq!(link.down_deliver(), Ok(heard));
}

/// A report reaches the ground without its telemetry frame, whose packet is lost; and the ground goes on after an alert.
#[test]
fn reports_and_resumptions() {
    let mut link = a_link(&Config::default());
    assert_eq!(
        (link.down_clcw(), link.resume(0)),
        (Err(SimFault::NothingInTransit), Err(LinkFault::NotKnown))
    );
    link.init_without_check().unwrap();
    link.submit(4, &octets_of(P0)).unwrap();
    link.submit(4, &octets_of(P1)).unwrap();
    assert!(link.send().unwrap().is_some() && link.send().unwrap().is_some());
    link.up_deliver().unwrap();
    link.up_lose().unwrap();
    link.telemetry(&octets_of("0005C0000000AA")).unwrap();
    link.report().unwrap();
    let word = HeardClcw { report: HeardReport::Used, alert: None };
    assert_eq!((link.down_clcw(), link.nn(), link.acknowledged()), (Ok(word), 1, 1));
    link.report().unwrap();
    let heard = Heard::Frame { gap: None, packets: 0, report: HeardReport::Used, alert: None };
    assert_eq!(link.down_deliver(), Ok(heard));
    link.terminate().unwrap();
    assert_eq!((link.resume(3), link.resume(1)), (Err(LinkFault::NotKnown), Ok(1)));
    assert_eq!((link.begun(), link.state(), link.vs()), (Some(Begun::Unlock), FopState::S5, 1));
    assert_eq!((link.is_clean(), link.outstanding(), link.acknowledged()), (true, 0, 0));
}

/// What does not happen, and octets that arrive in place of a frame.
#[test]
fn events_that_do_not_happen() {
    let mut link = a_link(&Config::default());
    let nothing = Some(SimFault::NothingInTransit);
    assert_eq!([link.up_deliver().err(), link.up_damage(&[]).err(), link.up_lose().err()], [nothing; 3]);
    assert_eq!(
        [link.down_deliver().err(), link.down_damage(&[]).err(), link.down_lose().err()],
        [nothing; 3]
    );
    link.bypass(4, &octets_of(P0)).unwrap();
    let frame = link.send().unwrap().unwrap();
    assert_eq!(link.up_damage(&frame), Err(SimFault::NotDetectable));
    assert_eq!(link.up_damage(&frame[..4]), Ok(Received::Invalid(TcFault::Short)));
    link.report().unwrap();
    let mut spacecraft = Spacecraft::new(&Config::default()).unwrap();
    let mut room = [0; TmFrame::LONGEST];
    let frame = spacecraft.telemetry_frame(&mut room);
    assert_eq!(link.down_damage(frame), Err(SimFault::NotDetectable));
    frame[63] ^= 1;
    assert_eq!(link.down_damage(frame), Ok(Heard::Invalid(TmFault::Check)));
    assert_eq!([link.up_lose().err(), link.down_lose().err()], [nothing; 2]);
}

/// With the window 1 one frame is sent, and with the limit 1 and a timer of 2 ticks the second tick is an alert.
#[test]
fn what_a_sender_is_set_to() {
    let mut link = a_link(&Config::default());
    assert_eq!((link.set_window(128), link.set_window(1)), (Err(CopFault::Window), Ok(())));
    assert_eq!((link.set_limit(0), link.set_limit(1)), (Err(CopFault::Limit), Ok(())));
    assert_eq!((link.set_timer(0), link.set_timer(2)), (Err(CopFault::Timer), Ok(())));
    link.init_without_check().unwrap();
    link.submit(4, &octets_of(P0)).unwrap();
    link.submit(4, &octets_of(P1)).unwrap();
    assert!(link.send().unwrap().is_some() && link.send().unwrap().is_none());
    assert_eq!((link.tick(), link.tick(), link.state()), (None, Some(Alert::Timer), FopState::S6));
}
