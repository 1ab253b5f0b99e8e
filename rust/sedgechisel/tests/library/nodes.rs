//! Both nodes: rows worked by hand, refusals, and telemetry over a link that loses frames.

use crate::common::{octets_of, Chance};
use sedgechisel::*;

const P0: &str = "1005C0000000AA";
const P1: &str = "1005C0010000AB";
const P2: &str = "1005C0020000AC";

fn pair(config: &Config) -> (Ground, Spacecraft) {
    (Ground::new(config).unwrap(), Spacecraft::new(config).unwrap())
}

fn sent(ground: &mut Ground) -> Option<Vec<u8>> {
    let mut room = [0; TcFrame::LONGEST];
    ground.pull(&mut room).map(|it| it.to_vec())
}

fn reported(spacecraft: &mut Spacecraft) -> Vec<u8> {
    let mut room = [0; TmFrame::LONGEST];
    spacecraft.telemetry_frame(&mut room).to_vec()
}

fn word_of(spacecraft: &Spacecraft) -> [u8; 4] {
    spacecraft.control_word().encode().unwrap()
}

fn sequence(n: u8, verdict: Verdict, ready: usize) -> Received {
    Received::Sequence { n, verdict, ready, dropped: None }
}

fn used(gap: Option<u8>, packets: usize) -> Heard {
    Heard::Frame { gap, packets, report: HeardReport::Used, alert: None }
}

/// What `{:?}` shows of the nodes and of the link.
#[test]
fn nodes_are_shown() {
    let (mut ground, spacecraft) = pair(&Config::default());
    ground.init_set_vr(7).unwrap();
    assert_eq!(format!("{ground:?}"), "Ground { state: S5, vs: 7, nn: 7, .. }");
    assert_eq!(format!("{spacecraft:?}"), "Spacecraft { mode: Open, vr: 0, .. }");
    let mut link = Link::new(&Config::default()).unwrap();
    link.init_without_check().unwrap();
    link.submit(4, &octets_of(P0)).unwrap();
    assert_eq!(format!("{link:?}"), "Link { state: S1, outstanding: 1, acknowledged: 0, .. }");
}

/// What waits, the ticks that are left, and the transmission count.
fn waits(ground: &Ground) -> (usize, usize, usize, u16, u8) {
    (ground.unsent(), ground.due(), ground.bypassed(), ground.ticks(), ground.count())
}

/// A frame is lost on its way up, and sent again (examples/lost_frame.script).
#[test]
fn a_frame_is_lost() {
    let (mut ground, mut spacecraft) = pair(&Config::default());
    ground.init_with_check().unwrap();
    assert_eq!(word_of(&spacecraft), [0x01, 0x08, 0x00, 0x00]);
    assert_eq!(ground.telemetry(&reported(&mut spacecraft)), Ok(used(None, 0)));
    for packet in [P0, P1, P2] {
        ground.submit(4, &octets_of(packet)).unwrap();
    }
    assert_eq!(waits(&ground), (3, 0, 0, 0, 1));
    let frames: Vec<_> = (0..3).map(|_| sent(&mut ground).unwrap()).collect();
    assert_eq!(waits(&ground), (0, 0, 0, 10, 1));
    assert_eq!(frames[0], octets_of("0001080E00C41005C0000000AAE75D"));
    assert_eq!(frames[2], octets_of("0001080E02C41005C0020000ACAC94"));
    assert_eq!(spacecraft.receive(&frames[0]), Ok(sequence(0, Verdict::Accepted, 1)));
    assert_eq!(spacecraft.receive(&frames[2]), Ok(sequence(2, Verdict::Ahead, 0)));
    assert_eq!(word_of(&spacecraft), [0x01, 0x08, 0x08, 0x01]);
    assert_eq!(ground.telemetry(&reported(&mut spacecraft)), Ok(used(Some(0), 0)));
    assert_eq!((ground.state(), ground.nn(), ground.vs(), ground.outstanding()), (FopState::S2, 1, 3, 2));
    assert_eq!(waits(&ground), (0, 2, 0, 10, 2));
    for number in [1, 2] {
        assert_eq!(sent(&mut ground), Some(frames[number].clone()));
        assert_eq!(spacecraft.receive(&frames[number]), Ok(sequence(number as u8, Verdict::Accepted, 1)));
    }
    assert_eq!(ground.telemetry(&reported(&mut spacecraft)), Ok(used(Some(0), 0)));
    assert_eq!((ground.state(), ground.outstanding(), sent(&mut ground)), (FopState::S1, 0, None));
    assert_eq!((waits(&ground), spacecraft.ready()), ((0, 0, 0, 0, 1), 3));
    for packet in [P0, P1, P2] {
        assert_eq!(spacecraft.take(), Ok(Some((4, octets_of(packet)))));
    }
    assert_eq!(spacecraft.take(), Ok(None));
}

/// The buffer on board is full, and the ground waits until a packet is taken (examples/full_buffer.script).
#[test]
fn the_buffer_is_full() {
    let (mut ground, mut spacecraft) = pair(&Config { ready_slots: 1, ..Config::default() });
    ground.init_without_check().unwrap();
    ground.submit(4, &octets_of(P0)).unwrap();
    ground.submit(4, &octets_of(P1)).unwrap();
    let (first, second) = (sent(&mut ground).unwrap(), sent(&mut ground).unwrap());
    assert_eq!(spacecraft.receive(&first), Ok(sequence(0, Verdict::Accepted, 1)));
    assert_eq!(spacecraft.receive(&second), Ok(sequence(1, Verdict::NoBuffer, 0)));
    assert_eq!((word_of(&spacecraft), spacecraft.mode()), ([0x01, 0x08, 0x18, 0x01], FarmMode::Wait));
    assert_eq!(ground.telemetry(&reported(&mut spacecraft)), Ok(used(None, 0)));
    assert_eq!((ground.state(), sent(&mut ground)), (FopState::S3, None));
    assert_eq!(spacecraft.take(), Ok(Some((4, octets_of(P0)))));
    assert_eq!((word_of(&spacecraft), spacecraft.mode()), ([0x01, 0x08, 0x08, 0x01], FarmMode::Open));
    assert_eq!(ground.telemetry(&reported(&mut spacecraft)), Ok(used(Some(0), 0)));
    assert_eq!(sent(&mut ground), Some(second.clone()));
    assert_eq!(spacecraft.receive(&second), Ok(sequence(1, Verdict::Accepted, 1)));
    assert_eq!(ground.telemetry(&reported(&mut spacecraft)), Ok(used(Some(0), 0)));
    assert_eq!((ground.state(), ground.outstanding()), (FopState::S1, 0));
}

/// What is refused changes nothing.
#[test]
fn refusals() {
    let (mut ground, mut spacecraft) =
        pair(&Config { maps: 0b10000, part: 7, queue_slots: 2, ..Config::default() });
    let packet = octets_of(P0);
    assert_eq!(ground.submit(4, &packet), Err(LinkFault::NotOpen));
    assert_eq!(ground.set_window(128), Err(CopFault::Window));
    assert_eq!(ground.terminate(), Err(CopFault::WrongState));
    ground.init_unlock().unwrap();
    assert_eq!(sent(&mut ground), Some(octets_of("3001080700008B9E")));
    assert_eq!(spacecraft.receive(&octets_of("3001080700008B9F")), Ok(Received::Invalid(TcFault::Check)));
    assert_eq!(spacecraft.receive(&octets_of("3001080700008B9E")), Ok(Received::Control(Command::Unlock)));
    assert_eq!(ground.submit(5, &packet), Err(LinkFault::ClosedMap));
    assert_eq!(ground.submit(64, &packet), Err(LinkFault::ClosedMap));
    assert_eq!(ground.submit(4, &packet[..6]), Err(LinkFault::NotCommand));
    assert_eq!(ground.bypass(4, &octets_of("1005C0000001AABB")), Err(LinkFault::TooLong));
    for _ in 0..2 {
        ground.submit(4, &packet).unwrap();
    }
    assert_eq!(ground.submit(4, &packet), Err(LinkFault::QueueFull));
    assert_eq!(ground.outstanding(), 2);
    assert_eq!(spacecraft.telemetry(&packet[..6]), Err(TmFault::NotAPacket));
    assert_eq!(spacecraft.telemetry(&octets_of("07FFC000000055")), Err(TmFault::NotAPacket));
    let fault = LinkFault::QueueFull;
    assert_eq!((fault.number(), fault.name(), fault.to_string().len() > 11), (5, "QueueFull", true));
}

/// A segment of a MAP that is closed on board is dropped. Its frame is accepted all the same.
#[test]
fn a_map_that_is_closed_on_board() {
    let mut ground = Ground::new(&Config::default()).unwrap();
    let mut spacecraft = Spacecraft::new(&Config { maps: 1 << 4, ..Config::default() }).unwrap();
    ground.init_without_check().unwrap();
    ground.submit(5, &octets_of(P0)).unwrap();
    let (verdict, dropped) = (Verdict::Accepted, Some(Dropped::ClosedMap));
    let received = Received::Sequence { n: 0, verdict, ready: 0, dropped };
    assert_eq!(spacecraft.receive(&sent(&mut ground).unwrap()), Ok(received));
    assert_eq!((word_of(&spacecraft), spacecraft.take()), ([0x01, 0x08, 0x00, 0x01], Ok(None)));
}

/// What a spacecraft makes of each kind of octets.
#[test]
fn what_a_spacecraft_receives() {
    let config = Config { maps: 0b110000, max_packet: 8, ..Config::default() };
    let mut spacecraft = Spacecraft::new(&config).unwrap();
    let mut given = |scid, vcid, body| {
        let mut room = [0; 64];
        let frame = TcFrame { scid, vcid, body };
        spacecraft.receive(frame.encode(Fecf::Present, &mut room).unwrap()).unwrap()
    };
    for (scid, vcid) in [(2, 2), (1, 3)] {
        assert_eq!(given(scid, vcid, Body::Bc(Command::Unlock)), Received::Foreign);
    }
    let (one, nine) = (octets_of(P0), octets_of("1005C0000002AABBCC"));
    let segment = |flags, map, data| Segment { flags, map, data };
    for (flags, map, data, kept) in [
        (SegmentFlags::Alone, 4, &one[..], true),
        (SegmentFlags::First, 4, &one[..], false),
        (SegmentFlags::Alone, 6, &one[..], false),
    ] {
        let body = Body::Bd { segment: segment(flags, map, data) };
        assert_eq!(given(1, 2, body), Received::Bypass { kept });
    }
    assert_eq!(given(1, 2, Body::Bc(Command::SetVr(7))), Received::Control(Command::SetVr(7)));
    for (n, (flags, map, data, ready, dropped)) in (7..).zip([
        (SegmentFlags::Alone, 4, &one[..], 1, None),
        (SegmentFlags::Alone, 6, &one[..], 0, Some(Dropped::ClosedMap)),
        (SegmentFlags::First, 5, &one[..4], 0, None),
        (SegmentFlags::Alone, 5, &one[..], 1, Some(Dropped::Interrupted)),
        (SegmentFlags::Continuing, 5, &one[..4], 0, Some(Dropped::NoBeginning)),
        (SegmentFlags::Alone, 5, &one[..6], 0, Some(Dropped::NotAPacket)),
        (SegmentFlags::Alone, 5, &nine[..], 0, Some(Dropped::TooLong)),
    ]) {
        let body = Body::Ad { n, segment: segment(flags, map, data) };
        assert_eq!(given(1, 2, body), Received::Sequence { n, verdict: Verdict::Accepted, ready, dropped });
    }
    assert_eq!([spacecraft.take(), spacecraft.take()], [4, 5].map(|map| Ok(Some((map, octets_of(P0))))));
    assert_eq!(spacecraft.take_bypass(), Ok(Some((4, octets_of(P0)))));
    assert_eq!((spacecraft.take(), spacecraft.take_bypass()), (Ok(None), Ok(None)));
}

/// A spacecraft says why octets are no frame.
#[test]
fn octets_that_are_no_frame() {
    let mut spacecraft = Spacecraft::new(&Config::default()).unwrap();
    for (digits, fault) in [
        ("400108070000", TcFault::Version),
        ("100108070000", TcFault::ReservedType),
        ("040108070000", TcFault::Spare),
        ("300108080000", TcFault::Length),
        ("300108070100", TcFault::BypassNumber),
        ("0001080703c4", TcFault::EmptyData),
        ("300108070001", TcFault::Command),
    ] {
        // The last two octets are the FECF.
        let mut octets = octets_of(&format!("{digits}0000"));
        check_append(&mut octets).unwrap();
        assert_eq!(spacecraft.receive(&octets), Ok(Received::Invalid(fault)));
    }
}

/// What a ground makes of each kind of report, and of octets that are not its own.
#[test]
fn what_a_ground_hears() {
    let mut ground = Ground::new(&Config::default()).unwrap();
    let given = |scid, vcid, vc_count, ocf| {
        let pointer = Pointer::OnlyIdle;
        let frame = TmFrame { scid, vcid, mc_count: 0, vc_count, pointer, ocf, data: &[0x55; 52] };
        frame.encode(&mut [0; 64]).unwrap().to_vec()
    };
    let good = [0x01, 0x08, 0x00, 0x00];
    assert_eq!(ground.telemetry(&given(2, 0, 0, good)), Ok(Heard::Foreign));
    assert_eq!(ground.telemetry(&given(1, 1, 0, good)), Ok(Heard::Foreign));
    assert_eq!(ground.telemetry(&given(1, 0, 0, good)[1..]), Ok(Heard::Invalid(TmFault::Length)));
    ground.init_without_check().unwrap();
    let rows = [
        (5, good, None, HeardReport::Used, None),
        (6, [0x81, 0x08, 0x00, 0x00], Some(0), HeardReport::Refused(ClcwFault::Kind), None),
        (8, [0x21, 0x08, 0x00, 0x00], Some(1), HeardReport::Refused(ClcwFault::Version), None),
        (9, [0x02, 0x08, 0x00, 0x00], Some(0), HeardReport::Refused(ClcwFault::Cop), None),
        (8, [0x01, 0x09, 0x00, 0x00], Some(254), HeardReport::Refused(ClcwFault::Spare), None),
        (9, [0x01, 0x0c, 0x20, 0x00], Some(0), HeardReport::OtherChannel, None),
        (10, [0x01, 0x08, 0x20, 0x00], Some(0), HeardReport::Used, Some(Alert::Lockout)),
    ];
    for (vc_count, ocf, gap, report, alert) in rows {
        let heard = Heard::Frame { gap, packets: 0, report, alert };
        assert_eq!(ground.telemetry(&given(1, 0, vc_count, ocf)), Ok(heard));
    }
    assert_eq!(ground.state(), FopState::S6);
}

/// Each directive to the ground does what its name says.
#[test]
fn the_directives_to_a_ground() {
    let mut ground = Ground::new(&Config { frame_length: 128, ..Config::default() }).unwrap();
    assert_eq!((ground.frame_length(), ground.state(), ground.vs()), (128, FopState::S6, 0));
    assert_eq!((ground.init_with_check(), ground.state()), (Ok(()), FopState::S4));
    assert_eq!((ground.terminate(), ground.state()), (Ok(()), FopState::S6));
    assert_eq!((ground.init_unlock(), ground.state()), (Ok(()), FopState::S5));
    let control = |ground: &mut Ground| {
        TcFrame::decode(&sent(ground).unwrap(), Fecf::Present)
            .map(|it| it.body == Body::Bc(Command::SetVr(9)))
    };
    assert_eq!((control(&mut ground), ground.terminate()), (Ok(false), Ok(())));
    assert_eq!(
        (ground.init_set_vr(9), ground.state(), ground.vs(), ground.nn()),
        (Ok(()), FopState::S5, 9, 9)
    );
    assert_eq!((control(&mut ground), ground.set_vs(5)), (Ok(true), Err(CopFault::WrongState)));
    assert_eq!((ground.terminate(), ground.set_vs(5), ground.vs(), ground.nn()), (Ok(()), Ok(()), 5, 5));
    assert_eq!((ground.set_window(0), ground.set_window(1)), (Err(CopFault::Window), Ok(())));
    assert_eq!((ground.set_limit(0), ground.set_limit(1)), (Err(CopFault::Limit), Ok(())));
    assert_eq!((ground.set_timer(0), ground.set_timer(2)), (Err(CopFault::Timer), Ok(())));
    assert_eq!((ground.init_without_check(), ground.state()), (Ok(()), FopState::S1));
    ground.submit(4, &octets_of(P0)).unwrap();
    ground.submit(4, &octets_of(P1)).unwrap();
    assert!(sent(&mut ground).is_some() && sent(&mut ground).is_none());
    assert_eq!((ground.vs(), ground.nn(), ground.outstanding()), (6, 5, 2));
    assert_eq!((ground.tick(), ground.tick(), ground.state()), (None, Some(Alert::Timer), FopState::S6));
}

/// Bypass packets go before others, in any state; the oldest one that is not taken is overwritten.
#[test]
fn past_the_sequence_control() {
    let (mut ground, mut spacecraft) =
        pair(&Config { bypass_slots: 1, frame_length: 20, ..Config::default() });
    for packet in [P0, P1] {
        ground.bypass(4, &octets_of(packet)).unwrap();
        assert_eq!(spacecraft.receive(&sent(&mut ground).unwrap()), Ok(Received::Bypass { kept: true }));
    }
    assert_eq!((spacecraft.frame_length(), reported(&mut spacecraft).len()), (20, 20));
    assert_eq!((spacecraft.take(), spacecraft.take_bypass()), (Ok(None), Ok(Some((4, octets_of(P1))))));
    assert_eq!(spacecraft.take_bypass(), Ok(None));
}

/// A spacecraft that received a frame and sent telemetry goes on with its numbers: the ground sees no gap.
#[test]
fn a_restart_on_purpose() {
    let config = Config::default();
    let (mut ground, mut before) = pair(&config);
    ground.init_without_check().unwrap();
    ground.submit(4, &octets_of(P0)).unwrap();
    assert_eq!(before.receive(&sent(&mut ground).unwrap()), Ok(sequence(0, Verdict::Accepted, 1)));
    assert_eq!(ground.telemetry(&reported(&mut before)), Ok(used(None, 0)));
    let kept = before.kept_numbers();
    assert_eq!(kept, KeptNumbers { vr: 1, farm_b: 0, mc_count: 1, vc_count: 1 });
    drop(before);
    let mut after = Spacecraft::restarted(&config, kept).unwrap();
    assert_eq!((after.kept_numbers(), after.mode(), after.ready()), (kept, FarmMode::Open, 0));
    assert_eq!(ground.telemetry(&reported(&mut after)), Ok(used(Some(0), 0)));
    assert_eq!(after.kept_numbers(), KeptNumbers { mc_count: 2, vc_count: 2, ..kept });
    let refused =
        |config: &Config, farm_b| Spacecraft::restarted(config, KeptNumbers { farm_b, ..kept }).unwrap_err();
    assert_eq!(refused(&config, 4), OpenFault::FarmB);
    assert_eq!(refused(&config, 4).to_string(), "FARM-B is not 0 to 3");
    assert_eq!(refused(&Config { limit: 0, ..config }, 4), OpenFault::OutOfRange(Parameter::Limit));
}

/// Another ground goes on at what was kept of one that is lost: two packets were sent, and one was accepted.
#[test]
fn a_ground_that_fails_over() {
    let config = Config::default();
    let (mut ground, mut spacecraft) = pair(&config);
    ground.init_without_check().unwrap();
    for packet in [P0, P1] {
        ground.submit(4, &octets_of(packet)).unwrap();
    }
    assert_eq!(spacecraft.receive(&sent(&mut ground).unwrap()), Ok(sequence(0, Verdict::Accepted, 1)));
    sent(&mut ground).unwrap(); // this frame is lost
    let kept = ground.kept();
    let mut segments = [0; 127];
    segments[..2].fill(1);
    assert_eq!(kept, KeptGround { acknowledged: 0, vs: 2, nn: 0, known: true, whole: 2, segments });
    drop(ground);
    let mut ground = Ground::open_at(&config, &kept).unwrap();
    assert_eq!((ground.kept(), ground.state(), ground.submitted()), (kept, FopState::S6, 2));
    assert_eq!(ground.resume(3), Err(LinkFault::NotKnown));
    assert_eq!(ground.resume(spacecraft.control_word().value), Ok(1));
    let refused =
        |config: &Config, whole| Ground::open_at(config, &KeptGround { whole, ..kept }).unwrap_err();
    assert_eq!(refused(&config, 3), OpenFault::Kept);
    assert_eq!(refused(&config, 3).to_string(), "no ground of this configuration gives this record");
    assert_eq!(refused(&Config { limit: 0, ..config }, 3), OpenFault::OutOfRange(Parameter::Limit));
}

/// The first parameter that is out of its range is named.
#[test]
fn parameters_out_of_their_ranges() {
    let config = Config { limit: 0, blocking: true, ..Config::default() };
    assert_eq!(config.fault(), Some(Parameter::Limit));
    assert_eq!(Ground::new(&config).err(), Some(OpenFault::OutOfRange(Parameter::Limit)));
    assert_eq!(Spacecraft::new(&config).unwrap_err().to_string(), "6 limit: its range is 1 to 255");
    let wrong = [
        (Config { scid: 1024, ..config }, Parameter::Scid, "scid"),
        (Config { vcid: 64, ..config }, Parameter::Vcid, "vcid"),
        (Config { tm_vcid: 8, ..config }, Parameter::TmVcid, "tm_vcid"),
        (Config { width: 3, ..config }, Parameter::Width, "width"),
        (Config { width: 252, ..config }, Parameter::Window, "window"),
        (Config { limit: 1, timer: 0, ..config }, Parameter::Timer, "timer"),
        (Config { limit: 1, part: 1017, ..config }, Parameter::Part, "part"),
        (Config { limit: 1, max_packet: 6, ..config }, Parameter::MaxPacket, "max_packet"),
        (Config { limit: 1, ready_slots: 65, ..config }, Parameter::ReadySlots, "ready_slots"),
        (Config { limit: 1, bypass_slots: 0, ..config }, Parameter::BypassSlots, "bypass_slots"),
        (Config { limit: 1, queue_slots: 0, ..config }, Parameter::QueueSlots, "queue_slots"),
        (Config { limit: 1, frame_length: 15, ..config }, Parameter::FrameLength, "frame_length"),
    ];
    for (config, parameter, name) in wrong {
        assert_eq!((config.fault(), parameter.name()), (Some(parameter), name));
    }
    assert_eq!((Parameter::Maps.name(), Parameter::Blocking.name()), ("maps", "blocking"));
    assert_eq!(Config { limit: 1, ..config }.fault(), None);
}

/// A configuration of which none of these parameters has its default.
#[allow(clippy::needless_update)]
fn other() -> Config {
    Config {
        scid: 1023,
        vcid: 61,
        tm_vcid: 6,
        width: 20,
        window: 2,
        limit: 2,
        timer: 300,
        part: 15,
        max_packet: 8,
        maps: 1 << 63,
        ready_slots: 2,
        bypass_slots: 3,
        queue_slots: 5,
        frame_length: 30,
        blocking: true,
        ..Config::default()
    }
}

const P3: &str = "1005C0030001AAAA";

/// Each parameter of the ground does what it says: 7 and 8 octets go into one segment, and 8 and 8 into two.
#[test]
fn parameters_of_the_ground() {
    let (mut ground, mut spacecraft) = pair(&other());
    ground.init_without_check().unwrap();
    let [seven, eight] = [P0, P3].map(octets_of);
    let (fifteen, sixteen) = ([&seven[..], &eight].concat(), eight.repeat(2));
    assert_eq!(ground.submit(62, &seven), Err(LinkFault::ClosedMap));
    assert_eq!(ground.submit(63, &octets_of("1005C0000002AABBCC")), Err(LinkFault::TooLong));
    assert_eq!((ground.submit(63, &fifteen), ground.outstanding()), (Ok(0), 1));
    assert_eq!((ground.submit(63, &sixteen), ground.outstanding()), (Ok(1), 3));
    assert_eq!((ground.submit(63, &sixteen), ground.outstanding()), (Ok(2), 5));
    assert_eq!(ground.submit(63, &seven), Err(LinkFault::QueueFull));
    let frames = [sent(&mut ground).unwrap(), sent(&mut ground).unwrap()];
    assert_eq!(sent(&mut ground), None);
    for ((n, octets), data) in (0..).zip(&frames).zip([&fifteen, &eight]) {
        let segment = Segment { flags: SegmentFlags::Alone, map: 63, data };
        assert_eq!(
            TcFrame::decode(octets, Fecf::Present),
            Ok(TcFrame { scid: 1023, vcid: 61, body: Body::Ad { n, segment } })
        );
    }
    assert_eq!(ground.telemetry(&reported(&mut spacecraft)), Ok(used(None, 0)));
    assert_eq!((1..).find_map(|tick| ground.tick().map(|alert| (tick, alert))), Some((600, Alert::Timer)));
}

/// Each parameter of the spacecraft does what it says: three packets wait where one frame brought two to one.
#[test]
fn parameters_of_the_spacecraft() {
    let mut spacecraft = Spacecraft::new(&other()).unwrap();
    let [seven, eight] = [P0, P3].map(octets_of);
    let mut given = |map, data: &[u8], n: Option<u8>| {
        let (segment, mut room) = (Segment { flags: SegmentFlags::Alone, map, data }, [0; 64]);
        let body = n.map_or(Body::Bd { segment }, |n| Body::Ad { n, segment });
        let frame = TcFrame { scid: 1023, vcid: 61, body };
        spacecraft.receive(frame.encode(Fecf::Present, &mut room).unwrap()).unwrap()
    };
    for (map, data, kept) in
        [(63, &seven, true), (62, &seven, false), (63, &octets_of("1005C0000002AABBCC"), false)]
    {
        assert_eq!(given(map, data, None), Received::Bypass { kept });
    }
    for _ in 0..3 {
        assert_eq!(given(63, &eight, None), Received::Bypass { kept: true });
    }
    assert_eq!(given(63, &seven, Some(0)), sequence(0, Verdict::Accepted, 1));
    assert_eq!(given(63, &[&seven[..], &eight].concat(), Some(1)), sequence(1, Verdict::Accepted, 2));
    assert_eq!(given(63, &seven, Some(2)), sequence(2, Verdict::NoBuffer, 0));
    assert_eq!(given(63, &seven, Some(248)), sequence(248, Verdict::Discarded, 0));
    assert_eq!(spacecraft.take(), Ok(Some((63, seven.clone()))));
    assert_eq!(spacecraft.mode(), FarmMode::Wait);
    assert_eq!((spacecraft.take(), spacecraft.mode()), (Ok(Some((63, seven.clone()))), FarmMode::Open));
    for _ in 0..3 {
        assert_eq!(spacecraft.take_bypass(), Ok(Some((63, eight.clone()))));
    }
    assert_eq!(spacecraft.take_bypass(), Ok(None));
    let frame = reported(&mut spacecraft);
    let found = TmFrame::decode(&frame, 30).unwrap();
    assert_eq!((found.scid, found.vcid, found.data.len()), (1023, 6, 18));
}

/// The windows of a receiver have half the width each.
#[test]
fn the_width_of_a_board() {
    for (n, verdict) in
        [(9, Verdict::Ahead), (10, Verdict::Outside), (246, Verdict::Behind), (245, Verdict::Outside)]
    {
        let mut spacecraft = Spacecraft::new(&other()).unwrap();
        let segment = Segment { flags: SegmentFlags::Alone, map: 63, data: &octets_of(P0) };
        let frame = TcFrame { scid: 1023, vcid: 61, body: Body::Ad { n, segment } };
        let mut room = [0; 64];
        assert_eq!(
            spacecraft.receive(frame.encode(Fecf::Present, &mut room).unwrap()),
            Ok(sequence(n, verdict, 0))
        );
    }
}

/// After an alert a report that was not heard still says what was accepted.
#[test]
fn accepted_after_an_alert() {
    let (mut ground, mut spacecraft) = pair(&Config { timer: 1, limit: 1, ..Config::default() });
    ground.init_without_check().unwrap();
    for packet in [P0, P1, P2] {
        ground.submit(4, &octets_of(packet)).unwrap();
        let frame = sent(&mut ground).unwrap();
        if packet != P2 {
            spacecraft.receive(&frame).unwrap();
        }
    }
    assert_eq!(ground.tick(), Some(Alert::Timer));
    assert_eq!((ground.state(), ground.outstanding(), ground.nn(), ground.vs()), (FopState::S6, 0, 0, 3));
    let accepted: Vec<_> = (0..5).map(|value| ground.accepted_beyond(value)).collect();
    assert_eq!(accepted, [Some(0), Some(1), Some(2), Some(3), None]);
    assert_eq!(ground.accepted_beyond(spacecraft.control_word().value), Some(2));
    ground.set_vs(2).unwrap();
    assert_eq!([0, 2, 3, 200].map(|value| ground.accepted_beyond(value)), [Some(0); 4]);
}

/// Packet k, which is two segments of 4 and 3 octets.
fn packet(k: u8) -> [u8; 7] {
    [0x10, 5, 0xc0, k, 0, 0, k]
}

/// So many frames are sent, of which the first come on board.
fn go_up(ground: &mut Ground, spacecraft: &mut Spacecraft, frames: usize, arrive: usize) {
    for k in 0..frames {
        let frame = sent(ground).unwrap();
        if k < arrive {
            spacecraft.receive(&frame).unwrap();
        }
    }
}

/// How many submissions there are, how many were sent whole, and how many are acknowledged whole.
fn has_come(ground: &Ground) -> [u64; 3] {
    [ground.submitted(), ground.sent_whole(), ground.acknowledged_whole()]
}

/// It does not go on at this value, and is as it was.
fn does_not_resume(ground: &mut Ground, value: u8) {
    let shown = |it: &Ground| {
        (it.state(), it.vs(), it.nn(), it.outstanding(), has_come(it), it.known_on_board(value))
    };
    let before = shown(ground);
    assert_eq!((ground.resume(value), shown(ground)), (Err(LinkFault::NotKnown), before));
}

/// Nodes after an alert. Of three submissions five segments were sent, three accepted on board, which are a submission
/// and a half, and one acknowledged.
fn stopped_within_a_submission() -> (Ground, Spacecraft) {
    let (mut ground, mut spacecraft) = pair(&Config { part: 4, timer: 1, limit: 1, ..Config::default() });
    assert_eq!((ground.known_on_board(0), has_come(&ground)), (None, [0, 0, 0]));
    does_not_resume(&mut ground, 0); // no session has begun
    ground.init_without_check().unwrap();
    assert_eq!(ground.known_on_board(0), Some(0));
    does_not_resume(&mut ground, 0); // S1
    (0..3).for_each(|k| assert_eq!(ground.submit(4, &packet(k)), Ok(u64::from(k))));
    go_up(&mut ground, &mut spacecraft, 1, 1);
    ground.telemetry(&reported(&mut spacecraft)).unwrap();
    assert_eq!((ground.nn(), has_come(&ground)), (1, [3, 0, 0]));
    go_up(&mut ground, &mut spacecraft, 1, 1);
    assert_eq!(has_come(&ground), [3, 1, 0]);
    go_up(&mut ground, &mut spacecraft, 3, 1);
    assert_eq!(ground.tick(), Some(Alert::Timer));
    assert_eq!((ground.state(), ground.vs(), has_come(&ground)), (FopState::S6, 5, [3, 2, 0]));
    (ground, spacecraft)
}

/// After an alert a session goes on where the last one has got to: each packet is delivered once.
#[test]
fn a_session_that_goes_on() {
    let (mut ground, mut spacecraft) = stopped_within_a_submission();
    let known: Vec<_> = (0..7).map(|value| ground.known_on_board(value)).collect();
    assert_eq!(known, [None, Some(0), Some(1), Some(1), Some(2), Some(2), None]);
    does_not_resume(&mut ground, 0); // not from NN(R) = 1
    does_not_resume(&mut ground, 6); // to V(S) = 5
    let value = ground.clcw_in(&reported(&mut spacecraft)).unwrap().value;
    assert_eq!((value, ground.resume(value)), (3, Ok(1)));
    assert_eq!(
        (ground.state(), ground.vs(), ground.nn(), has_come(&ground)),
        (FopState::S5, 3, 3, [0, 0, 0])
    );
    assert_eq!(spacecraft.receive(&sent(&mut ground).unwrap()), Ok(Received::Control(Command::Unlock)));
    ground.telemetry(&reported(&mut spacecraft)).unwrap();
    (1..3).for_each(|k| assert_eq!(ground.submit(4, &packet(k)), Ok(u64::from(k) - 1)));
    go_up(&mut ground, &mut spacecraft, 4, 4);
    ground.telemetry(&reported(&mut spacecraft)).unwrap();
    assert_eq!((ground.state(), ground.nn(), has_come(&ground)), (FopState::S1, 7, [2, 2, 2]));
    (0..3).for_each(|k| assert_eq!(spacecraft.take(), Ok(Some((4, packet(k).to_vec())))));
    assert_eq!(spacecraft.take(), Ok(None));
}

/// After one of four alerts nothing is known of what is on board, and no session goes on, until one begins.
#[test]
fn a_session_that_ends_by_a_broken_condition() {
    let word = Clcw { vcid: 2, ..Clcw::default() };
    for (word, alert) in [
        (Clcw { lockout: true, ..word }, Alert::Lockout),
        (Clcw { value: 2, ..word }, Alert::NnR),
        (Clcw { wait: true, ..word }, Alert::Clcw),
        (Clcw { retransmit: true, value: 1, ..word }, Alert::Synch),
    ] {
        let mut ground = Ground::new(&Config::default()).unwrap();
        ground.init_without_check().unwrap();
        assert_eq!((ground.submit(4, &packet(0)), ground.frames().count()), (Ok(0), 1));
        assert_eq!(ground.known_on_board(1), Some(1));
        assert_eq!(ground.clcw(&word.encode().unwrap()).alert, Some(alert));
        assert!((0..=255).all(|value| ground.known_on_board(value).is_none()));
        does_not_resume(&mut ground, 0);
        does_not_resume(&mut ground, 1);
        assert_eq!((ground.set_vs(word.value), ground.init_unlock()), (Ok(()), Ok(())));
        assert_eq!((ground.known_on_board(word.value), ground.terminate()), (Some(0), Ok(())));
        assert_eq!((ground.resume(word.value), ground.state()), (Ok(0), FopState::S5));
    }
}

/// Where V(S) = NN(R) a session goes on at any number, and where V(S) was set at none.
#[test]
fn a_session_of_which_nothing_is_known() {
    let mut ground = Ground::new(&Config::default()).unwrap();
    ground.init_set_vr(7).unwrap();
    ground.terminate().unwrap();
    assert_eq!([7, 8, 99].map(|value| ground.known_on_board(value)), [Some(0); 3]);
    assert_eq!((ground.resume(8), ground.vs(), ground.terminate()), (Ok(0), 8, Ok(())));
    ground.set_vs(7).unwrap();
    assert_eq!(ground.known_on_board(7), None);
    does_not_resume(&mut ground, 7);
    let fault = LinkFault::NotKnown;
    assert_eq!((fault.number(), fault.name()), (10, "NotKnown"));
}

/// A node may go to another thread, and is let go of there.
#[test]
fn another_thread() {
    let (mut ground, spacecraft) = pair(&Config::default());
    let there = std::thread::spawn(move || {
        ground.init_without_check().unwrap();
        drop(spacecraft);
        ground
    });
    assert_eq!(there.join().unwrap().state(), FopState::S1);
}

/// What was submitted on a link, in order; and the report that a telemetry frame carries.
#[test]
fn submissions_and_reports() {
    let mut link = Link::new(&Config::default()).unwrap();
    assert_eq!(link.submissions().len(), 0);
    link.init_without_check().unwrap();
    link.submit(4, &octets_of(P0)).unwrap();
    link.submit(63, &octets_of(P1)).unwrap();
    assert!(link.submissions().eq([Ok((4, octets_of(P0))), Ok((63, octets_of(P1)))]));
    let (ground, mut spacecraft) = pair(&Config::default());
    let frame = reported(&mut spacecraft);
    assert_eq!(ground.clcw_in(&frame), Some(spacecraft.control_word()));
    assert_eq!(ground.clcw_in(&frame[1..]), None);
}

/// A frame that is peeked at counts as sent where the ground is told so, and then the next one goes.
#[test]
fn a_frame_that_a_radio_refuses() {
    let (mut ground, _) = pair(&Config::default());
    let mut room = [0; TcFrame::LONGEST];
    assert_eq!(ground.peek(&mut room), None);
    ground.init_without_check().unwrap();
    ground.submit(4, &octets_of(P0)).unwrap();
    let first = ground.peek(&mut room).map(|it| it.to_vec());
    assert_eq!((first.is_some(), ground.vs()), (true, 0));
    assert_eq!(ground.peek(&mut room).map(|it| it.to_vec()), first);
    ground.advance();
    assert_eq!((ground.peek(&mut room), ground.vs()), (None, 1));
}

/// Frames and packets by iterators, which take one when it is asked for: what is not asked for stays.
#[test]
fn one_by_one() {
    let (mut ground, mut spacecraft) = pair(&Config { window: 3, frame_length: 32, ..Config::default() });
    assert!(ground.frames().next().is_none() && ground.packets().next().is_none());
    ground.init_without_check().unwrap();
    for packet in [P0, P1, P2, P0] {
        ground.submit(4, &octets_of(packet)).unwrap();
    }
    let first = ground.frames().next().unwrap().unwrap();
    assert_eq!((&first, ground.vs()), (&octets_of("0001080E00C41005C0000000AAE75D"), 1));
    let rest = ground.frames().collect::<Result<Vec<_>, _>>().unwrap();
    assert_eq!((rest.len(), &rest[1], ground.vs()), (2, &octets_of("0001080E02C41005C0020000ACAC94"), 3));
    for frame in [&[first], &rest[..]].concat() {
        spacecraft.receive(&frame).unwrap();
    }
    assert_eq!(spacecraft.packets().next(), Some(Ok((4, octets_of(P0)))));
    assert!(spacecraft.packets().eq([P1, P2].map(|it| Ok((4, octets_of(it))))));
    assert!(spacecraft.packets().next().is_none() && spacecraft.bypass_packets().next().is_none());
    let packets = ["0005C0000000AA", "0005C0010000AB"].map(octets_of);
    packets.iter().for_each(|it| spacecraft.telemetry(it).unwrap());
    assert_eq!(ground.telemetry(&reported(&mut spacecraft)), Ok(used(None, 2)));
    assert_eq!(ground.packets().next(), Some(Ok(packets[0].clone())));
    let mut left = ground.packets();
    assert_eq!([left.next(), left.next(), left.next()], [Some(Ok(packets[1].clone())), None, None]);
    drop(left);
    assert!(ground.frames().eq([Ok(octets_of("0001080E03C41005C0000000AACA19"))]));
    for packet in [P1, P2] {
        ground.bypass(5, &octets_of(packet)).unwrap();
    }
    for frame in ground.frames() {
        spacecraft.receive(&frame.unwrap()).unwrap();
    }
    assert_eq!(spacecraft.bypass_packets().next(), Some(Ok((5, octets_of(P1)))));
    assert_eq!(spacecraft.take_bypass(), Ok(Some((5, octets_of(P2)))));
}

/// The names of calls and of what becomes of a report, before 0.3.
#[test]
#[allow(deprecated)]
fn nodes_by_older_names() {
    let (ground, mut spacecraft) = pair(&Config::default());
    let word = spacecraft.control_word();
    let mut room = [0; TmFrame::LONGEST];
    assert_eq!(ground.report_in(spacecraft.report(&mut room)), Some(word));
    assert_eq!(HeardReport::None(ClcwFault::Cop), HeardReport::Refused(ClcwFault::Cop));
    assert!(matches!(HeardReport::OtherChannel, HeardReport::Other));
}

/// A report by itself goes to the sender as that of a telemetry frame, and telemetry begins anew where it is asked to.
#[test]
fn a_report_by_itself() {
    let (mut ground, mut spacecraft) = pair(&Config::default());
    ground.init_with_check().unwrap();
    let word = spacecraft.control_word().encode().unwrap();
    let is = |report| HeardClcw { report, alert: None };
    assert_eq!(ground.clcw(&[0x81, word[1], 0, 0]), is(HeardReport::Refused(ClcwFault::Kind)));
    assert_eq!(ground.clcw(&[word[0], word[1] ^ 4, 0, 0]), is(HeardReport::OtherChannel));
    assert_eq!(ground.state(), FopState::S4);
    assert_eq!(ground.clcw(&word), is(HeardReport::Used));
    assert_eq!(ground.state(), FopState::S1);
    assert_eq!(ground.clcw(&[word[0], word[1], 0x20, 0]).alert, Some(Alert::Lockout));
    let frame = reported(&mut spacecraft);
    let gap = |heard| match heard {
        Ok(Heard::Frame { gap, .. }) => gap,
        _ => panic!("no frame of this channel"),
    };
    assert_eq!(gap(ground.telemetry(&frame)), None);
    assert_eq!(gap(ground.telemetry(&frame)), Some(255));
    ground.forget_telemetry();
    assert_eq!(gap(ground.telemetry(&frame)), None);
}

/// Packets of telemetry come down over a link that loses frames, in order, and none is damaged.
#[test]
fn telemetry_that_is_lost() {
    let (mut chance, mut lost, mut taken) = (Chance(11), 0, Vec::new());
    let (mut ground, mut spacecraft) = pair(&Config { frame_length: 128, ..Config::default() });
    for number in 0..1000u16 {
        let count = 1 + chance.below(300);
        let data = chance.octets(count);
        let packet = Packet {
            apid: 7,
            count: number,
            kind: PacketKind::Telemetry,
            secondary: false,
            flags: SequenceFlags::Unsegmented,
            data: &data,
        };
        let mut room = vec![0; 400];
        spacecraft.telemetry(packet.encode(&mut room).unwrap()).unwrap();
        while chance.once_in(2) {
            let frame = reported(&mut spacecraft);
            if chance.once_in(10) {
                lost += 1;
            } else {
                ground.telemetry(&frame).unwrap();
            }
        }
        while let Some(packet) = ground.take_telemetry().unwrap() {
            taken.push(Packet::decode(&packet).unwrap().count);
        }
    }
    assert!(lost > 50 && taken.len() > 200 && taken.windows(2).all(|it| it[0] < it[1]));
}
