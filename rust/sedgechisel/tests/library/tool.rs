//! Random records beside the lines that `tctool` writes of them. The program is named by TCTOOL, or stands where
//! `./tctool` builds it; without it these tests are left out.

use crate::common::Chance;
use sedgechisel::*;
use std::collections::HashMap;
use std::path::PathBuf;
use std::process::Command as Program;
use std::{env, fs};

const RECORDS: usize = 10_000;

/// What `tctool` writes of the octets, given these words, or nothing where there is no such program.
fn lines_of_tool(words: &[&str], octets: &[u8]) -> Option<String> {
    let built = PathBuf::from(concat!(env!("CARGO_MANIFEST_DIR"), "/../../crates/tctool/out/tctool"));
    let named = env::var_os("TCTOOL").map(PathBuf::from);
    let Some(program) = named.or(built.is_file().then_some(built)) else {
        println!("left out: there is no tctool; ./tctool builds it");
        return None;
    };
    let file = PathBuf::from(env!("CARGO_TARGET_TMPDIR")).join(words.concat());
    fs::write(&file, octets).unwrap();
    let output = Program::new(program).args(words).arg(&file).output().expect("tctool runs");
    fs::remove_file(file).unwrap();
    Some(String::from_utf8(output.stdout).unwrap())
}

/// The lines of records are those of `tctool`, given these words.
fn are_lines_of_tool(words: &[&str], records: &[Vec<u8>], lines: &str) {
    if let Some(written) = lines_of_tool(words, &records.concat()) {
        let differing = lines.lines().zip(written.lines()).find(|(ours, theirs)| ours != theirs);
        assert_eq!(differing, None);
        assert_eq!(lines.lines().count(), written.lines().count());
    }
}

fn hex(octets: &[u8]) -> String {
    octets.iter().map(|it| format!("{it:02X}")).collect()
}

fn refused(number: u8, name: &str) -> String {
    format!("invalid {number} {name}")
}

fn any_of<T: Copy>(chance: &mut Chance, all: &[T]) -> T {
    all[chance.below(all.len() as u32) as usize]
}

const ANY_FLAGS: [SegmentFlags; 4] =
    [SegmentFlags::Continuing, SegmentFlags::First, SegmentFlags::Last, SegmentFlags::Alone];

/// Damages one record in eight by a bit, mostly in its header, but not where it says its length.
fn damaged(chance: &mut Chance, mut octets: Vec<u8>, length_at: std::ops::Range<usize>) -> Vec<u8> {
    let span = if chance.once_in(4) { octets.len() } else { 6 };
    let place = chance.below(span as u32) as usize;
    let bit = 1 << chance.below(8);
    if chance.once_in(8) && !length_at.contains(&place) {
        octets[place] ^= bit;
    }
    octets
}

/// Telecommand frames: Type-AD frames mostly in sequence, and others among them. Their data are what is given.
fn frames(chance: &mut Chance, checked: bool, data: impl Fn(&mut Chance) -> Vec<u8>) -> Vec<Vec<u8>> {
    frames_of(chance, checked, |chance| (chance.below(1024) as u16, chance.below(64) as u8), data)
}

/// The same of a spacecraft and a virtual channel.
fn frames_of(
    chance: &mut Chance, checked: bool, channel: impl Fn(&mut Chance) -> (u16, u8),
    data: impl Fn(&mut Chance) -> Vec<u8>,
) -> Vec<Vec<u8>> {
    let mut next = 0u8;
    let mut out = [0; TcFrame::LONGEST];
    let mut frame = || {
        let near = any_of(chance, &[0, 0, 0, 0, 0, 0, 0, 0, 252, 4]);
        let n = next.wrapping_add(near);
        let data = data(chance);
        let segment = Segment { flags: any_of(chance, &ANY_FLAGS), map: chance.below(64) as u8, data: &data };
        let body = match chance.below(8) {
            0 => Body::Bd { segment },
            1 if chance.once_in(2) => Body::Bc(Command::Unlock),
            1 => Body::Bc(Command::SetVr(n)),
            _ => Body::Ad { n, segment },
        };
        next = n.wrapping_add(u8::from(matches!(body, Body::Ad { .. })));
        let (scid, vcid) = channel(chance);
        let frame = TcFrame { scid, vcid, body };
        let octets = frame.encode(checked, &mut out).unwrap().to_vec();
        damaged(chance, octets, 2..4)
    };
    (0..RECORDS).map(|_| frame()).collect()
}

fn any_frames(chance: &mut Chance, checked: bool) -> Vec<Vec<u8>> {
    frames(chance, checked, |chance| {
        let count = 1 + chance.below(24);
        chance.octets(count)
    })
}

/// What `tctool tc` writes of a frame.
fn tc_line(octets: &[u8], checked: bool) -> String {
    match TcFrame::decode(octets, checked) {
        Err(fault) => refused(fault.number(), fault.name()),
        Ok(TcFrame { scid, vcid, body }) => match body {
            Body::Ad { n, segment } => format!("AD scid={scid} vcid={vcid} n={n} {}", segment_line(segment)),
            Body::Bd { segment } => format!("BD scid={scid} vcid={vcid} {}", segment_line(segment)),
            Body::Bc(command) => format!("BC scid={scid} vcid={vcid} {}", command_line(command)),
        },
    }
}

fn segment_line(segment: Segment) -> String {
    format!("seg={} map={} data={}", segment.flags.number(), segment.map, hex(segment.data))
}

fn command_line(command: Command) -> String {
    match command {
        Command::Unlock => "unlock".into(),
        Command::SetVr(vr) => format!("set {vr}"),
    }
}

/// What `tctool farm` writes of a frame.
fn farm_line(farm: &mut Farm, octets: &[u8], checked: bool) -> String {
    let did = match TcFrame::decode(octets, checked) {
        Err(fault) => return refused(fault.number(), fault.name()),
        Ok(frame) => given(farm, frame.body).1,
    };
    let FarmFields { vr, lockout, wait, retransmit, farm_b, .. } = farm.fields();
    let [l, w, t] = [lockout, wait, retransmit].map(u8::from);
    format!("{did} {:?} vr={vr} l={l} w={w} t={t} b={farm_b}", farm.mode())
}

/// Gives a receiver a frame: whether it is accepted, and the words for that.
fn given(farm: &mut Farm, body: Body) -> (bool, String) {
    match body {
        Body::Ad { n, .. } => {
            let verdict = farm.ad(n, true);
            return (verdict == Verdict::Accepted, format!("AD {n} {verdict}"));
        }
        Body::Bd { .. } => farm.bd(),
        Body::Bc(Command::Unlock) => farm.unlock(),
        Body::Bc(Command::SetVr(vr)) => farm.set_vr(vr),
    }
    match body {
        Body::Bc(command) => (false, format!("BC {}", command_line(command))),
        _ => (true, "BD".into()),
    }
}

/// The lines of records, each after its index, where they have one.
fn listed(records: &[Vec<u8>], mut line: impl FnMut(&[u8]) -> String) -> String {
    let numbered = (1..).zip(records);
    numbered.map(|(index, octets)| format!("{index} {}\n", line(octets))).collect()
}

fn lines_of_frames(checked: bool) {
    let records = any_frames(&mut Chance(2), checked);
    let flag: &[&str] = if checked { &["--check"] } else { &[] };
    let lines = listed(&records, |it| tc_line(it, checked));
    let bad: String = lines.split_inclusive('\n').filter(|it| it.contains(" invalid ")).collect();
    assert!(bad.lines().count() > RECORDS / 100);
    are_lines_of_tool(&[&["tc"], flag].concat(), &records, &lines);
    if checked {
        are_lines_of_tool(&["check"], &records, &bad);
    }
    let mut farm = Farm::new(10, 0).unwrap();
    let lines = listed(&records, |it| farm_line(&mut farm, it, checked));
    are_lines_of_tool(&[&["farm", "--width", "10"], flag].concat(), &records, &lines);
}

#[test]
fn lines_of_telecommand_frames() {
    lines_of_frames(false);
}

#[test]
fn lines_of_telecommand_frames_with_checks() {
    lines_of_frames(true);
}

/// A packet, most often, of two MAPs, cut so that some of its segments go up.
fn piece_of_packet(chance: &mut Chance) -> Vec<u8> {
    let count = 1 + chance.below(6);
    let data = chance.octets(count);
    let mut out = [0; 16];
    let mut octets = any_packet(chance, &data).encode(&mut out).unwrap().to_vec();
    match chance.below(4) {
        0 => drop(octets.split_off(6)),
        1 => drop(octets.drain(..6)),
        2 => octets.extend_from_within(..),
        _ => {}
    }
    octets
}

fn lines_of_map(blocking: bool) {
    let records = frames(&mut Chance(3), false, piece_of_packet);
    let mut farm = Farm::new(254, 0).unwrap();
    let mut memories = vec![vec![0; Packet::LONGEST]; 64];
    let mut maps: Vec<Map> = memories.iter_mut().map(|it| Map::new(it, blocking)).collect();
    let mut lines = String::new();
    for (index, octets) in (1..).zip(&records) {
        match TcFrame::decode(octets, Fecf::Absent) {
            Err(fault) => lines += &format!("{index} {}\n", refused(fault.number(), fault.name())),
            Ok(frame) => lines += &map_lines(index, given(&mut farm, frame.body).0, frame.body, &mut maps),
        }
    }
    for cause in ["Interrupted", "NoBeginning", "NotAPacket", "Bypass"] {
        assert!(lines.contains(&format!(" dropped {cause}\n")));
    }
    let flag: &[&str] = if blocking { &["--blocking"] } else { &[] };
    are_lines_of_tool(&[&["map"], flag].concat(), &records, &lines);
}

/// What `tctool map` writes of a frame.
fn map_lines(index: usize, is_accepted: bool, body: Body, maps: &mut [Map]) -> String {
    match body {
        Body::Ad { segment, .. } if is_accepted => {
            let taken = maps[usize::from(segment.map)].take(segment.flags, segment.data);
            let dropped = taken.dropped.map(|it| format!("{index} dropped {}\n", it.name()));
            let packets = taken.packets.map(|it| format!("packet {} {}\n", segment.map, hex(it)));
            dropped.into_iter().chain(packets).collect()
        }
        Body::Bd { segment } => {
            let is_packet = packets(segment.data).next().is_some_and(|it| it == segment.data);
            if segment.flags == SegmentFlags::Alone && is_packet {
                format!("bypass {} {}\n", segment.map, hex(segment.data))
            } else {
                format!("{index} dropped Bypass\n")
            }
        }
        _ => String::new(),
    }
}

#[test]
fn lines_of_segments() {
    lines_of_map(false);
}

#[test]
fn lines_of_segments_with_blocking() {
    lines_of_map(true);
}

/// What `tctool map` writes of a frame that a spacecraft receives, whose packets are taken then.
#[cfg(feature = "nodes")]
fn board_lines(index: usize, spacecraft: &mut Spacecraft, octets: &[u8]) -> String {
    match spacecraft.receive(octets).unwrap() {
        Received::Invalid(fault) => format!("{index} {}\n", refused(fault.number(), fault.name())),
        Received::Foreign => panic!("a frame of another channel"),
        Received::Sequence { ready, dropped, .. } => {
            let dropped = dropped.map(|it| format!("{index} dropped {}\n", it.name()));
            let mut packets = Vec::new();
            while let Some((map, packet)) = spacecraft.take().unwrap() {
                packets.push(format!("packet {map} {}\n", hex(&packet)));
            }
            assert_eq!(packets.len(), ready);
            dropped.into_iter().chain(packets).collect()
        }
        Received::Bypass { kept: false } => format!("{index} dropped Bypass\n"),
        Received::Bypass { kept: true } => {
            let (map, packet) = spacecraft.take_bypass().unwrap().unwrap();
            format!("bypass {map} {}\n", hex(&packet))
        }
        Received::Control(_) => String::new(),
        other => panic!("{other:?} has no line"),
    }
}

#[cfg(feature = "nodes")]
fn lines_of_a_spacecraft(blocking: bool) {
    let config = Config { blocking, ..Config::default() };
    let records = frames_of(&mut Chance(8), true, |_| (config.scid, config.vcid), piece_of_packet);
    let mut spacecraft = Spacecraft::new(&config).unwrap();
    let numbered = (1..).zip(&records);
    let lines: String = numbered.map(|(index, octets)| board_lines(index, &mut spacecraft, octets)).collect();
    let flags: &[&str] = if blocking { &["map", "--check", "--blocking"] } else { &["map", "--check"] };
    are_lines_of_tool(flags, &records, &lines);
}

#[cfg(feature = "nodes")]
#[test]
fn lines_of_frames_that_a_spacecraft_receives() {
    lines_of_a_spacecraft(false);
}

#[cfg(feature = "nodes")]
#[test]
fn lines_of_frames_that_a_spacecraft_receives_with_blocking() {
    lines_of_a_spacecraft(true);
}

fn any_packet<'a>(chance: &mut Chance, data: &'a [u8]) -> Packet<'a> {
    let apid = any_of(chance, &[5, 6, 2047]);
    Packet {
        kind: any_of(chance, &[PacketKind::Telemetry, PacketKind::Telecommand]),
        secondary: apid != 2047 && chance.once_in(2),
        apid,
        flags: any_of(
            chance,
            &[
                SequenceFlags::Continuation,
                SequenceFlags::First,
                SequenceFlags::Last,
                SequenceFlags::Unsegmented,
            ],
        ),
        count: any_of(chance, &[0, 1, 2, 16382, 16383]),
        data,
    }
}

/// What `tctool packets` writes of a packet, given the last counts.
fn packet_line(last: &mut HashMap<u16, u16>, octets: &[u8]) -> String {
    let Packet { kind, secondary, apid, flags, count, data } = Packet::decode(octets).unwrap();
    let kind = if kind == PacketKind::Telemetry { "TM" } else { "TC" };
    let gap = last.insert(apid, count).map(|it| (count.wrapping_sub(it).wrapping_sub(1) % 16384).to_string());
    format!(
        "{kind} secondary={} apid={apid} flags={} count={count} gap={} data={}",
        u8::from(secondary),
        flags.number(),
        gap.as_deref().unwrap_or("-"),
        hex(data)
    )
}

#[test]
fn lines_of_packets() {
    let mut chance = Chance(4);
    let mut out = [0; 100];
    let mut record = || {
        let count = 1 + chance.below(24);
        let data = chance.octets(count);
        any_packet(&mut chance, &data).encode(&mut out).unwrap().to_vec()
    };
    let records: Vec<Vec<u8>> = (0..RECORDS).map(|_| record()).collect();
    let whole = records.concat();
    assert!(packets(&whole).eq(records.iter().map(|it| &it[..])));
    let mut last = HashMap::new();
    let lines = listed(&records, |it| packet_line(&mut last, it));
    are_lines_of_tool(&["packets"], &records, &lines);
}

/// What `tctool tm` writes of a frame in which no packet starts, given the last count.
fn tm_line(last: &mut Option<u8>, octets: &[u8]) -> String {
    match TmFrame::decode(octets, 40) {
        Err(fault) => refused(fault.number(), fault.name()),
        Ok(TmFrame { scid, vcid, mc_count, vc_count, pointer, ocf, .. }) => {
            let gap = last.replace(vc_count).map(|it| vc_count.wrapping_sub(it).wrapping_sub(1).to_string());
            let pointer = match pointer {
                Pointer::At(place) => place.to_string(),
                Pointer::OnlyIdle => "idle".into(),
                Pointer::NoStart => "none".into(),
            };
            format!(
                "scid={scid} vcid={vcid} mc={mc_count} vc={vc_count} pointer={pointer} ocf={} gap={}",
                hex(&ocf),
                gap.as_deref().unwrap_or("-")
            )
        }
    }
}

/// Their data are ones, with which no packet starts.
#[test]
fn lines_of_telemetry_frames() {
    let mut chance = Chance(5);
    let mut record = || {
        let ocf = chance.octets(4).try_into().unwrap();
        let pointer = any_of(&mut chance, &[Pointer::At(27), Pointer::OnlyIdle, Pointer::NoStart]);
        let mut out = [0; 40];
        TmFrame {
            scid: chance.below(1024) as u16,
            vcid: chance.below(8) as u8,
            mc_count: chance.octet(),
            vc_count: chance.octet(),
            pointer,
            ocf,
            data: &[0xff; 28],
        }
        .encode(&mut out)
        .unwrap();
        damaged(&mut chance, out.to_vec(), 0..0)
    };
    let records: Vec<Vec<u8>> = (0..RECORDS).map(|_| record()).collect();
    let mut last = None;
    let lines = listed(&records, |it| tm_line(&mut last, it));
    assert!(lines.contains(" invalid 3 Check\n") && lines.contains(" pointer=27 "));
    are_lines_of_tool(&["tm", "--length", "40"], &records, &lines);
}
