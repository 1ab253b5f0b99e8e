//! The check, control words, frames and packets: rows worked by hand, vectors from outside, and each refusal.

use crate::common::octets_of;
use sedgechisel::*;
use std::error::Error;

/// The vectors of CCSDS and of ECSS-E-ST-70-41C, annex B.
#[test]
fn known_checks() {
    assert_eq!(check(b"123456789"), 0x29b1);
    assert_eq!(check(&[]), 0xffff);
    assert_eq!(check(&[0, 0]), 0x1d0f);
    assert_eq!(check(&[0, 0, 0]), 0xcc9c);
    assert_eq!(check(&octets_of("abcdef01")), 0x04a2);
    assert_eq!(check(&octets_of("1456f89a0001")), 0x7fd5);
}

#[test]
fn a_check_is_set_and_holds() {
    let mut octets = *b"123456789..";
    assert!(!check_holds(&octets));
    assert_eq!(check_append(&mut octets), Ok(()));
    assert_eq!(&octets, b"123456789\x29\xb1");
    assert!(check_holds(&octets) && !check_holds(&octets[..10]) && !check_holds(b"1") && !check_holds(b""));
    assert_eq!(check_append(&mut []), Err(CheckFault::WrongCount));
    let mut one = *b"1";
    assert_eq!((check_append(&mut one), one), (Err(CheckFault::WrongCount), *b"1"));
}

#[test]
fn faults_are_errors() {
    fn refused() -> Result<(), Box<dyn Error>> {
        Clcw::decode(&[0x01, 0x09, 0x0a, 0x07])?;
        Ok(())
    }
    assert_eq!(refused().unwrap_err().to_string(), "4 Spare: a spare bit is not 0");
    assert_eq!((TcFault::BypassNumber.number(), TcFault::BypassNumber.name()), (7, "BypassNumber"));
    assert_eq!(TcFault::from_number(7), Some(TcFault::BypassNumber));
    assert_eq!(TcFault::from_number(0), None);
    assert_eq!(TcFault::from_number(12), None);
    assert_eq!(TmFault::Version.to_string(), "2 Version: the version number is not 00 (4.1.2.2)");
    assert_eq!((Verdict::NoBuffer.to_string(), Alert::NnR.name()), ("nobuffer".into(), "NnR"));
    assert_eq!(Alert::Terminated.to_string(), "7 Terminated: the directive Terminate");
}

#[test]
fn the_version() {
    let numbers: Vec<u8> = version().as_str().split('.').map(|it| it.parse().unwrap()).collect();
    assert_eq!(numbers.len(), 3);
    assert_eq!(version().to_string(), version().as_str());
}

#[test]
fn control_words() {
    let octets = [0x01, 0x08, 0x0a, 0x07];
    let word = Clcw { vcid: 2, retransmit: true, farm_b: 1, value: 7, ..Clcw::default() };
    assert_eq!(Clcw::decode(&octets), Ok(word));
    assert_eq!(word.encode(), Ok(octets));
    let largest = Clcw {
        status: 7,
        vcid: 63,
        no_rf: true,
        no_bit_lock: true,
        lockout: true,
        wait: true,
        retransmit: true,
        farm_b: 3,
        value: 255,
    };
    assert_eq!(largest.encode().and_then(|it| Clcw::decode(&it)), Ok(largest));
    for wrong in [Clcw { status: 8, ..word }, Clcw { vcid: 64, ..word }, Clcw { farm_b: 4, ..word }] {
        assert_eq!(wrong.encode(), Err(ClcwFault::Range));
    }
}

/// Each bit of a control word, turned.
#[test]
fn bits_of_a_control_word() {
    for bit in 0..32 {
        let mut octets = [0x01, 0x08, 0x0a, 0x07];
        octets[bit / 8] ^= 0x80 >> (bit % 8);
        let refused = match bit {
            0 => Some(ClcwFault::Kind),
            1 | 2 => Some(ClcwFault::Version),
            6 | 7 => Some(ClcwFault::Cop),
            14 | 15 | 23 => Some(ClcwFault::Spare),
            _ => None,
        };
        match Clcw::decode(&octets) {
            Ok(word) => assert_eq!((None, Ok(octets)), (refused, word.encode())),
            Err(fault) => assert_eq!(Some(fault), refused),
        }
    }
}

/// The frame has these octets, and is read again of them; octets after it stay.
fn is_spelled(frame: TcFrame, digits: &str, fecf: Fecf) {
    let octets = octets_of(digits);
    let mut out = [0x55; 16];
    assert_eq!(frame.encode(fecf, &mut out).map(|it| &*it), Ok(&octets[..]));
    assert!(out[octets.len()..].iter().all(|it| *it == 0x55));
    assert_eq!(TcFrame::decode(&octets, fecf), Ok(frame));
    assert_eq!(TcFrame::declared(&octets[..5], fecf), Ok(octets.len()));
}

#[test]
fn telecommand_frames() {
    let packet = octets_of("1005c0000000aa");
    let segment = Segment { flags: SegmentFlags::Alone, map: 4, data: &packet };
    let frame = |body| TcFrame { scid: 1, vcid: 2, body };
    is_spelled(frame(Body::Ad { n: 3, segment }), "0001080c03c41005c0000000aa", Fecf::Absent);
    is_spelled(frame(Body::Ad { n: 0, segment }), "0001080e00c41005c0000000aae75d", Fecf::Present);
    is_spelled(frame(Body::Bd { segment }), "2001080c00c41005c0000000aa", Fecf::Absent);
    is_spelled(frame(Body::Bc(Command::SetVr(7))), "3001080700820007", Fecf::Absent);
    is_spelled(frame(Body::Bc(Command::Unlock)), "300108050000", Fecf::Absent);
    is_spelled(frame(Body::Bc(Command::Unlock)), "3001080700008b9e", Fecf::Present);
}

#[test]
fn refused_telecommand_frames() {
    let refused = |digits: &str, fecf: Fecf| TcFrame::decode(&octets_of(digits), fecf).unwrap_err();
    // As before there was a Fecf.
    assert_eq!((Fecf::from(true), Fecf::from(false)), (Fecf::Present, Fecf::Absent));
    assert_eq!(TcFrame::declared(&octets_of("3001080700"), true), Ok(8));
    assert_eq!(refused("30010805", Fecf::Absent), TcFault::Short);
    assert_eq!(refused("", Fecf::Absent), TcFault::Short);
    assert_eq!(refused("4001080c03c41005c0000000aa", Fecf::Absent), TcFault::Version);
    assert_eq!(refused("1001080c03c41005c0000000aa", Fecf::Absent), TcFault::ReservedType);
    assert_eq!(refused("0401080c03c41005c0000000aa", Fecf::Absent), TcFault::Spare);
    assert_eq!(refused("30010805000000", Fecf::Absent), TcFault::Length);
    assert_eq!(refused("300108050000", Fecf::Present), TcFault::Length);
    assert_eq!(refused("3001080700008b9f", Fecf::Present), TcFault::Check);
    assert_eq!(refused("300108050100", Fecf::Absent), TcFault::BypassNumber);
    assert_eq!(refused("0001080503c4", Fecf::Absent), TcFault::EmptyData);
    assert_eq!(refused("0001080403", Fecf::Absent), TcFault::EmptyData);
    assert_eq!(refused("300108050001", Fecf::Absent), TcFault::Command);
    assert_eq!(TcFrame::declared(&octets_of("00010803"), Fecf::Absent), Err(TcFault::Short));
    assert_eq!(TcFrame::declared(&octets_of("0001080303"), Fecf::Absent), Err(TcFault::Length));
    assert_eq!(TcFrame::declared(&octets_of("300108050000"), Fecf::Present), Err(TcFault::Length));
}

/// Each frame that differs from one in one octet is refused.
#[test]
fn a_wrong_octet() {
    let whole = octets_of("0001080e00c41005c0000000aae75d");
    for place in 0..whole.len() {
        for value in 0..=255 {
            let mut octets = whole.clone();
            octets[place] = value;
            assert_eq!(TcFrame::decode(&octets, Fecf::Present).is_ok(), octets == whole);
        }
    }
}

#[test]
fn unwritten_telecommand_frames() {
    fn encoded(scid: u16, vcid: u8, map: u8, count: usize, room: usize) -> Result<usize, TcFault> {
        let (data, mut out) = ([0; 1017], [0x55; 1100]);
        let segment = Segment { flags: SegmentFlags::Last, map, data: &data[..count] };
        let frame = TcFrame { scid, vcid, body: Body::Ad { n: 255, segment } };
        let total = frame.encode(Fecf::Present, &mut out[..room]).map(|it| it.len());
        assert!(total.is_ok() || out.iter().all(|it| *it == 0x55));
        total
    }
    assert_eq!(encoded(1023, 63, 63, 1, 9), Ok(9));
    assert_eq!(encoded(1023, 63, 63, 1016, 1024), Ok(TcFrame::LONGEST));
    assert_eq!(encoded(1023, 63, 63, 1, 8), Err(TcFault::Room));
    assert_eq!(encoded(1023, 63, 63, 1016, 1023), Err(TcFault::Room));
    assert_eq!(encoded(1023, 63, 63, 0, 1100), Err(TcFault::FieldRange));
    assert_eq!(encoded(1023, 63, 63, 1017, 1100), Err(TcFault::FieldRange));
    assert_eq!(encoded(1024, 63, 63, 1, 0), Err(TcFault::FieldRange));
    assert_eq!(encoded(1023, 64, 63, 1, 1100), Err(TcFault::FieldRange));
    assert_eq!(encoded(1023, 63, 64, 1, 1100), Err(TcFault::FieldRange));
}

#[test]
fn space_packets() {
    let octets = octets_of("1005c0000000aa");
    let packet = Packet {
        kind: PacketKind::Telecommand,
        secondary: false,
        apid: 5,
        flags: SequenceFlags::Unsegmented,
        count: 0,
        data: &[0xaa],
    };
    assert_eq!(Packet::decode(&octets), Ok(packet));
    assert_eq!(Packet::decode(&octets_of("1005c0000000aa77")), Ok(packet));
    let mut out = [0x55; 9];
    assert_eq!(packet.encode(&mut out).map(|it| &*it), Ok(&octets[..]));
    assert_eq!(out[7..], [0x55; 2]);
    assert_eq!(Packet::declared(&octets[..6]), Ok(7));
    let mut octets = vec![0x5a; 65543];
    octets[..6].copy_from_slice(&octets_of("08057fffffff"));
    let longest = Packet::decode(&octets).unwrap();
    assert_eq!((longest.kind, longest.secondary), (PacketKind::Telemetry, true));
    assert_eq!((longest.flags, longest.count), (SequenceFlags::First, 16383));
    let mut out = vec![0; Packet::LONGEST];
    assert_eq!(longest.encode(&mut out).map(|it| &*it), Ok(&octets[..65542]));
    assert_eq!(Packet::decode(&octets[..65541]), Err(PacketFault::Truncated));
}

/// (count - last - 1) modulo 16,384, for each APID by itself.
#[test]
fn packets_that_are_missing() {
    let mut gaps = GapCheck::new();
    let seen = [0, 1, 3, 3].map(|count| gaps.see(5, count).unwrap());
    assert_eq!(seen, [None, Some(0), Some(1), Some(16383)]);
    assert_eq!(gaps.see(2047, 16383), Ok(None));
    assert_eq!(format!("{gaps:?}"), "GapCheck { seen: 2, .. }");
    for (apid, count) in [(2048, 0), (2047, 16384), (u16::MAX, u16::MAX)] {
        assert_eq!(gaps.see(apid, count), Err(PacketFault::FieldRange));
    }
    assert_eq!((gaps.clone().see(2047, 1), gaps.see(2047, 0)), (Ok(Some(1)), Ok(Some(0))));
    assert_eq!(GapCheck::default().see(5, 7), Ok(None));
}

/// The sequence flags are the first two bits of the third octet.
#[test]
fn flags_of_packets() {
    for (flags, octet) in [
        (SequenceFlags::Continuation, 0x00),
        (SequenceFlags::First, 0x40),
        (SequenceFlags::Last, 0x80),
        (SequenceFlags::Unsegmented, 0xc0),
    ] {
        let octets = [0x10, 0x05, octet, 0x00, 0x00, 0x00, 0xaa];
        let packet = Packet::decode(&octets).unwrap();
        assert_eq!((packet.flags, packet.kind), (flags, PacketKind::Telecommand));
        assert_eq!(packet.encode(&mut [0; 7]).map(|it| &*it), Ok(&octets[..]));
    }
}

/// The segment flags are the first two bits of the sixth octet.
#[test]
fn flags_of_segments() {
    for (flags, octet) in [
        (SegmentFlags::Continuing, 0x04),
        (SegmentFlags::First, 0x44),
        (SegmentFlags::Last, 0x84),
        (SegmentFlags::Alone, 0xc4),
    ] {
        let segment = Segment { flags, map: 4, data: &[0xaa] };
        let frame = TcFrame { scid: 1, vcid: 2, body: Body::Ad { n: 3, segment } };
        is_spelled(frame, &format!("0001080603{octet:02x}aa"), Fecf::Absent);
    }
}

#[test]
fn refused_packets() {
    let refused = |digits: &str| Packet::decode(&octets_of(digits)).unwrap_err();
    assert_eq!(refused("1005c00000"), PacketFault::Truncated);
    assert_eq!(refused("1005c0000000"), PacketFault::Truncated);
    assert_eq!(refused("2005c0000000aa"), PacketFault::Version);
    assert_eq!(refused("0fffc000000055"), PacketFault::IdleWithSecondary);
    assert_eq!(Packet::declared(&octets_of("1005c00000")), Err(PacketFault::Truncated));
    assert_eq!(Packet::declared(&octets_of("2005c0000000")), Err(PacketFault::Version));
    assert_eq!(Packet::declared(&octets_of("0fffc0000000")), Err(PacketFault::IdleWithSecondary));
}

#[test]
fn unwritten_packets() {
    let data = vec![0; 65537];
    let good = Packet {
        kind: PacketKind::Telecommand,
        secondary: false,
        apid: 2047,
        flags: SequenceFlags::Unsegmented,
        count: 16383,
        data: &data[..1],
    };
    let encoded = |packet: Packet, room: usize| packet.encode(&mut vec![0; room]).map(|it| it.len());
    assert_eq!(encoded(good, 7), Ok(7));
    assert_eq!(encoded(good, 6), Err(PacketFault::Room));
    for wrong in [
        Packet { data: &[], ..good },
        Packet { data: &data, ..good },
        Packet { secondary: true, ..good },
        Packet { apid: 2048, ..good },
        Packet { count: 16384, ..good },
    ] {
        assert_eq!(encoded(wrong, 65543), Err(PacketFault::FieldRange));
    }
}

const IDLE: TmFrame = TmFrame {
    scid: 1,
    vcid: 0,
    mc_count: 0,
    vc_count: 0,
    pointer: Pointer::OnlyIdle,
    ocf: [0x01, 0x08, 0x00, 0x00],
    data: b"UUUU",
};

#[test]
fn telemetry_frames() {
    for (pointer, spelled) in [
        (Pointer::At(0), "1800"),
        (Pointer::At(3), "1803"),
        (Pointer::OnlyIdle, "1ffe"),
        (Pointer::NoStart, "1fff"),
    ] {
        let mut out = [0xee; 20];
        let frame = TmFrame { pointer, ..IDLE };
        let octets = frame.encode(&mut out).unwrap();
        assert_eq!(octets[..14], octets_of(&format!("00110000{spelled}5555555501080000")));
        assert_eq!((octets.len(), check_holds(octets)), (16, true));
        assert_eq!(TmFrame::decode(octets, 16), Ok(frame));
        assert_eq!(Clcw::decode(&frame.ocf), Ok(Clcw { vcid: 2, ..Clcw::default() }));
        assert_eq!(out[16..], [0xee; 4]);
    }
    let (data, mut out) = ([0x5a; 2036], [0; TmFrame::LONGEST]);
    let largest = TmFrame { scid: 1023, vcid: 7, mc_count: 254, vc_count: 253, data: &data, ..IDLE };
    let octets = largest.encode(&mut out).unwrap();
    assert_eq!((octets.len(), TmFrame::decode(octets, 2048)), (2048, Ok(largest)));
}

#[test]
fn refused_telemetry_frames() {
    let mut octets = [0; 16];
    TmFrame { pointer: Pointer::At(0), ..IDLE }.encode(&mut octets).unwrap();
    assert_eq!(TmFrame::decode(&octets, 17), Err(TmFault::Length));
    assert_eq!(TmFrame::decode(&octets[..15], 15), Err(TmFault::Length));
    assert_eq!(TmFrame::decode(&[], 16), Err(TmFault::Length));
    assert_eq!(TmFrame::decode(&[0; 2049], 2049), Err(TmFault::Length));
    for (place, octet, fault) in [
        (0, 0x40, TmFault::Version),
        (4, 0x98, TmFault::Status),
        (4, 0x10, TmFault::Status),
        (5, 0x04, TmFault::Pointer),
        (1, 0x10, TmFault::NoOcf),
    ] {
        let mut damaged = octets;
        damaged[place] = octet;
        let first = if place == 0 { TmFault::Version } else { TmFault::Check };
        assert_eq!(TmFrame::decode(&damaged, 16), Err(first));
        check_append(&mut damaged).unwrap();
        assert_eq!(TmFrame::decode(&damaged, 16), Err(fault));
    }
}

#[test]
fn unwritten_telemetry_frames() {
    let data = [0; 2037];
    let good = TmFrame { scid: 1023, vcid: 7, pointer: Pointer::At(3), data: &data[..4], ..IDLE };
    let encoded = |frame: TmFrame, room: usize| frame.encode(&mut vec![0; room]).map(|it| it.len());
    assert_eq!(encoded(good, 16), Ok(16));
    assert_eq!(encoded(good, 15), Err(TmFault::Room));
    assert_eq!(encoded(TmFrame { pointer: Pointer::At(4), data: &data[..5], ..good }, 100), Ok(17));
    for wrong in [
        TmFrame { data: &data[..3], ..good },
        TmFrame { data: &data, ..good },
        TmFrame { scid: 1024, ..good },
        TmFrame { vcid: 8, ..good },
        TmFrame { pointer: Pointer::At(4), ..good },
    ] {
        assert_eq!(encoded(wrong, 3000), Err(TmFault::FieldRange));
    }
    for place in 2036..=65535 {
        let frame = TmFrame { pointer: Pointer::At(place), data: &data[..2036], ..good };
        assert_eq!(encoded(frame, 2048), Err(TmFault::FieldRange));
    }
}

/// An unlocking frame, the same with a wrong check, one that sets V(R), and one with data; each as it is read alone.
#[test]
fn frames_one_after_another() {
    let spelled =
        ["3001080700008b9e", "3001080700008b9f", "30010809008200074f60", "0001080e00c41005c0000000aae75d"];
    let frames: Vec<Vec<u8>> = spelled.iter().map(|it| octets_of(it)).collect();
    let octets = frames.concat();
    let found: Vec<_> = TcFrame::decode_all(&octets, Fecf::Present).collect();
    let alone = frames.iter().map(|it| TcFrame::decode(it, true).map_err(|fault| (fault, &it[..])));
    assert!(found.iter().copied().eq(alone));
    assert_eq!(found.iter().filter(|it| it.is_ok()).count(), 3);
    assert_eq!(TcFrame::decode_all(&[], Fecf::Present).next(), None);
    for (count, last) in
        [(3, TcFault::Short), (7, TcFault::Length), (12, TcFault::Short), (40, TcFault::Length)]
    {
        assert_eq!(TcFrame::decode_all(&octets[..count], Fecf::Present).last().unwrap().unwrap_err().0, last);
    }
    let short = octets_of("3001080000008b9e");
    let mut refused = TcFrame::decode_all(&short, Fecf::Present);
    assert_eq!((refused.next(), refused.next()), (Some(Err((TcFault::Length, &short[..]))), None));
}

/// Frames of three channels, of which one is damaged: those of a channel are those whose header names it.
#[test]
fn frames_of_one_channel() {
    let spelled = ["3002080700000000", "3001080700008b9e", "3001080700008b9f", "30010c0700000000"];
    let octets: Vec<u8> = spelled.iter().flat_map(|it| octets_of(it)).chain([0x30]).collect();
    let found: Vec<_> = TcFrame::decode_all(&octets, Fecf::Present).collect();
    let of = |scid, vcid| -> Vec<_> {
        TcFrame::decode_all(&octets, Fecf::Present).of_channel(scid, vcid).collect()
    };
    assert_eq!(found[1].map(|it| (it.scid, it.vcid)), Ok((1, 2)));
    assert_eq!(found[4], Err((TcFault::Short, &octets[32..])));
    assert_eq!(of(1, 2), [found[1], found[2], found[4]]);
    assert_eq!((of(2, 2), of(1, 3)), (vec![found[0], found[4]], vec![found[3], found[4]]));
    assert_eq!((of(1, 4), of(1025, 2)), (vec![found[4]], vec![found[4]]));
}

#[test]
fn telemetry_frames_of_one_channel() {
    let channels = [(1, 0), (1, 5), (1008, 0), (1, 0), (17, 5)];
    let mut octets = [0; 83];
    for (room, (scid, vcid)) in octets.chunks_mut(16).zip(channels) {
        TmFrame { scid, vcid, ..IDLE }.encode(room).unwrap();
    }
    octets[50] ^= 1;
    let found: Vec<_> = TmFrame::decode_all(&octets, 16).collect();
    for (scid, vcid) in channels.into_iter().chain([(0, 0), (1025, 0), (1, 8)]) {
        let wanted: Vec<_> =
            found.iter().zip(channels).filter(|(_, it)| *it == (scid, vcid)).map(|it| *it.0).collect();
        let of: Vec<_> = TmFrame::decode_all(&octets, 16).of_channel(scid, vcid).collect();
        assert_eq!(of, [&wanted[..], &[Err((TmFault::Length, &octets[80..]))]].concat());
    }
    assert_eq!(found[3], Err((TmFault::Check, &octets[48..64])));
    assert_eq!(TmFrame::decode_all(&octets[..3], 0).of_channel(1, 0).count(), 3);
    assert_eq!(TmFrame::decode_all(&octets[..3], 1).of_channel(1, 0).count(), 3);
}

#[test]
fn telemetry_frames_one_after_another() {
    let mut octets = [0; 54];
    for place in [0, 16, 32] {
        TmFrame { vc_count: place as u8, ..IDLE }.encode(&mut octets[place..]).unwrap();
    }
    octets[20] ^= 1;
    let found: Vec<_> = TmFrame::decode_all(&octets, 16).collect();
    assert_eq!(found.len(), 4);
    assert_eq!(found[0], TmFrame::decode(&octets[..16], 16).map_err(|it| (it, &octets[..16])));
    assert_eq!(found[1], Err((TmFault::Check, &octets[16..32])));
    assert_eq!(found[2].as_ref().unwrap().vc_count, 32);
    assert_eq!(found[3], Err((TmFault::Length, &octets[48..])));
    assert_eq!(TmFrame::decode_all(&[], 16).next(), None);
    assert!(TmFrame::decode_all(&octets[..3], 0).all(|it| it.unwrap_err().0 == TmFault::Length));
}
