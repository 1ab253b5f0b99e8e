// The yardstick: the commands of tctool that read files, written by hand in plain Rust. It writes the same
// lines, proves nothing, and has one status for all endings. Built by `rustc -O`; run as
// `plain COMMAND [--check] [--blocking] [--length F] [--report] FILE`.

use std::env;
use std::fs::File;
use std::io::{self, BufWriter, Read, StdoutLock, Write};

type Out = BufWriter<StdoutLock<'static>>;

// ---- the check: CCSDS 232.0-B-4, 4.1.4.2, by a table of 256 entries

const fn entry(place: u16) -> u16 {
    let mut value = place << 8;
    let mut bit = 0;
    while bit < 8 {
        value = if value & 0x8000 != 0 { value << 1 ^ 0x1021 } else { value << 1 };
        bit += 1;
    }
    value
}

const fn entries() -> [u16; 256] {
    let mut table = [0; 256];
    let mut place = 0;
    while place < 256 {
        table[place] = entry(place as u16);
        place += 1;
    }
    table
}

static TABLE: [u16; 256] = entries();

fn check(octets: &[u8]) -> u16 {
    octets.iter().fold(0xffff, |register, octet| register << 8 ^ TABLE[usize::from((register >> 8) as u8 ^ octet)])
}

fn check_holds(octets: &[u8]) -> bool {
    let (content, parity) = octets.split_at(octets.len() - 2);
    check(content) == word(parity, 0)
}

fn word(octets: &[u8], at: usize) -> u16 {
    u16::from_be_bytes([octets[at], octets[at + 1]])
}

fn push_hex(line: &mut Vec<u8>, octets: &[u8]) {
    const DIGITS: &[u8; 16] = b"0123456789ABCDEF";
    line.reserve(2 * octets.len());
    for octet in octets {
        line.push(DIGITS[usize::from(octet >> 4)]);
        line.push(DIGITS[usize::from(octet & 15)]);
    }
}

// ---- telecommand frames: CCSDS 232.0-B-4, 4.1

#[derive(Clone, Copy)]
enum Body<'a> {
    Ad { n: u8, flags: u8, map: u8, data: &'a [u8] },
    Bd { flags: u8, map: u8, data: &'a [u8] },
    Unlock,
    SetVr(u8),
}

struct Frame<'a> {
    scid: u16,
    vcid: u8,
    body: Body<'a>,
}

type Refused = (u8, &'static str);

fn decode(octets: &[u8], has_check: bool) -> Result<Frame<'_>, Refused> {
    if octets.len() < 5 {
        return Err((1, "Short"));
    }
    let (first, second) = (word(octets, 0), word(octets, 2));
    let (bypass, control) = (first >> 13 & 1 == 1, first >> 12 & 1 == 1);
    let length = usize::from(second & 0x3ff) + 1;
    if first >> 14 != 0 {
        return Err((2, "Version"));
    }
    if control && !bypass {
        return Err((3, "ReservedType"));
    }
    if first >> 10 & 3 != 0 {
        return Err((4, "Spare"));
    }
    if length != octets.len() || has_check && length < 7 {
        return Err((5, "Length"));
    }
    if has_check && !check_holds(octets) {
        return Err((6, "Check"));
    }
    let n = octets[4];
    if bypass && n != 0 {
        return Err((7, "BypassNumber"));
    }
    let field = &octets[5..length - if has_check { 2 } else { 0 }];
    if field.len() < if control { 1 } else { 2 } {
        return Err((8, "EmptyData"));
    }
    let body = if control { command(field)? } else { segment(field, n, bypass) };
    Ok(Frame { scid: first & 0x3ff, vcid: (second >> 10) as u8, body })
}

fn command(field: &[u8]) -> Result<Body<'_>, Refused> {
    match field {
        [0] => Ok(Body::Unlock),
        [0x82, 0, vr] => Ok(Body::SetVr(*vr)),
        _ => Err((9, "Command")),
    }
}

fn segment(field: &[u8], n: u8, bypass: bool) -> Body<'_> {
    let (flags, map, data) = (field[0] >> 6, field[0] & 63, &field[1..]);
    if bypass { Body::Bd { flags, map, data } } else { Body::Ad { n, flags, map, data } }
}

// ---- what each command writes of a record

trait Listing {
    fn list(&mut self, line: &mut Vec<u8>, index: u64, record: &[u8]) -> io::Result<()>;
}

fn push_refused(line: &mut Vec<u8>, index: u64, (number, name): Refused) -> io::Result<()> {
    writeln!(line, "{index} invalid {number} {name}")
}

struct Tc {
    has_check: bool,
    is_check: bool,
}

impl Listing for Tc {
    fn list(&mut self, line: &mut Vec<u8>, index: u64, record: &[u8]) -> io::Result<()> {
        let frame = match decode(record, self.has_check) {
            Err(why) => return push_refused(line, index, why),
            Ok(_) if self.is_check => return Ok(()),
            Ok(frame) => frame,
        };
        let (scid, vcid) = (frame.scid, frame.vcid);
        match frame.body {
            Body::Ad { n, flags, map, data } => {
                write!(line, "{index} AD scid={scid} vcid={vcid} n={n} seg={flags} map={map} data=")?;
                push_hex(line, data);
            }
            Body::Bd { flags, map, data } => {
                write!(line, "{index} BD scid={scid} vcid={vcid} seg={flags} map={map} data=")?;
                push_hex(line, data);
            }
            Body::Unlock => write!(line, "{index} BC scid={scid} vcid={vcid} unlock")?,
            Body::SetVr(vr) => write!(line, "{index} BC scid={scid} vcid={vcid} set {vr}")?,
        }
        line.push(b'\n');
        Ok(())
    }
}

// FARM-1 with a window of 254 and a buffer that is always free: CCSDS 232.1-B-2, 6.
#[derive(Default)]
struct Farm {
    vr: u8,
    lockout: bool,
    retransmit: bool,
    farm_b: u8,
}

impl Farm {
    fn ad(&mut self, n: u8) -> &'static str {
        if self.lockout {
            return "discarded";
        }
        match n.wrapping_sub(self.vr) {
            0 => {
                self.vr = self.vr.wrapping_add(1);
                self.retransmit = false;
                "accepted"
            }
            1..=126 => {
                self.retransmit = true;
                "ahead"
            }
            129..=255 => "behind",
            _ => {
                self.lockout = true;
                "outside"
            }
        }
    }

    fn pass(&mut self) {
        self.farm_b = (self.farm_b + 1) & 3;
    }

    fn unlock(&mut self) {
        self.pass();
        self.lockout = false;
        self.retransmit = false;
    }

    fn set_vr(&mut self, vr: u8) {
        self.pass();
        if !self.lockout {
            self.vr = vr;
            self.retransmit = false;
        }
    }
}

struct FarmListing {
    has_check: bool,
    farm: Farm,
}

impl Listing for FarmListing {
    fn list(&mut self, line: &mut Vec<u8>, index: u64, record: &[u8]) -> io::Result<()> {
        let frame = match decode(record, self.has_check) {
            Err(why) => return push_refused(line, index, why),
            Ok(frame) => frame,
        };
        let farm = &mut self.farm;
        match frame.body {
            Body::Ad { n, .. } => write!(line, "{index} AD {n} {}", farm.ad(n))?,
            Body::Bd { .. } => {
                farm.pass();
                write!(line, "{index} BD")?;
            }
            Body::Unlock => {
                farm.unlock();
                write!(line, "{index} BC unlock")?;
            }
            Body::SetVr(vr) => {
                farm.set_vr(vr);
                write!(line, "{index} BC set {vr}")?;
            }
        }
        let state = if farm.lockout { "Lockout" } else { "Open" };
        let (l, t) = (u8::from(farm.lockout), u8::from(farm.retransmit));
        writeln!(line, " {state} vr={} l={l} w=0 t={t} b={}", farm.vr, farm.farm_b)
    }
}

// ---- space packets: CCSDS 133.0-B-2, 4.1

fn packet_length(octets: &[u8]) -> usize {
    usize::from(word(octets, 4)) + 7
}

// Whether octets begin with version 0.
fn begins_packet(octets: &[u8]) -> bool {
    octets[0] >> 5 == 0
}

struct Packets {
    last: Vec<Option<u16>>,
}

impl Listing for Packets {
    fn list(&mut self, line: &mut Vec<u8>, index: u64, record: &[u8]) -> io::Result<()> {
        let (first, second) = (word(record, 0), word(record, 2));
        let (apid, count) = (first & 0x7ff, second & 0x3fff);
        let kind = if first >> 12 & 1 == 1 { "TC" } else { "TM" };
        let (secondary, flags) = (first >> 11 & 1, second >> 14);
        write!(line, "{index} {kind} secondary={secondary} apid={apid} flags={flags} count={count} gap=")?;
        match self.last[usize::from(apid)].replace(count) {
            None => line.push(b'-'),
            Some(last) => write!(line, "{}", count.wrapping_sub(last).wrapping_sub(1) & 0x3fff)?,
        }
        line.extend_from_slice(b" data=");
        push_hex(line, &record[6..]);
        line.push(b'\n');
        Ok(())
    }
}

// ---- the packets of each MAP: CCSDS 232.0-B-4, 4.1.3.2

const MAX_PACKET: usize = 65_542;

// The lengths of the packets that octets are, one after another, where they are nothing else.
fn cut_packets(octets: &[u8], lengths: &mut Vec<usize>) -> bool {
    lengths.clear();
    let mut rest = octets;
    while !rest.is_empty() {
        if rest.len() < 7 || !begins_stream(rest) || rest.len() < packet_length(rest) {
            return false;
        }
        let length = packet_length(rest);
        lengths.push(length);
        rest = &rest[length..];
    }
    !octets.is_empty()
}

fn push_dropped(line: &mut Vec<u8>, index: u64, cause: &str) -> io::Result<()> {
    writeln!(line, "{index} dropped {cause}")
}

struct Map {
    has_check: bool,
    blocking: bool,
    farm: Farm,
    parts: Vec<Option<Vec<u8>>>,
    lengths: Vec<usize>,
}

impl Map {
    // Writes the packets that octets are, and why something was dropped, where it was. Only a segment that stands alone may be
    // several packets.
    fn judge(&mut self, line: &mut Vec<u8>, index: u64, map: u8, octets: &[u8], alone: Option<bool>) -> io::Result<()> {
        let is_several = self.blocking && alone.is_some();
        let is_interrupted = alone == Some(true);
        if !cut_packets(octets, &mut self.lengths) || !is_several && self.lengths.len() != 1 {
            return push_dropped(line, index, "NotAPacket");
        }
        if is_interrupted {
            push_dropped(line, index, "Interrupted")?;
        }
        let mut rest = octets;
        for length in &self.lengths {
            write!(line, "packet {map} ")?;
            push_hex(line, &rest[..*length]);
            line.push(b'\n');
            rest = &rest[*length..];
        }
        Ok(())
    }

    fn take(&mut self, line: &mut Vec<u8>, index: u64, flags: u8, map: u8, data: &[u8]) -> io::Result<()> {
        let place = usize::from(map);
        match (flags, self.parts[place].take()) {
            (3, open) => self.judge(line, index, map, data, Some(open.is_some())),
            (1, open) => {
                self.parts[place] = Some(data.to_vec());
                if open.is_some() { push_dropped(line, index, "Interrupted") } else { Ok(()) }
            }
            (_, None) => push_dropped(line, index, "NoBeginning"),
            (_, Some(part)) if part.len() + data.len() > MAX_PACKET => push_dropped(line, index, "TooLong"),
            (_, Some(mut part)) => {
                part.extend_from_slice(data);
                if flags == 2 {
                    return self.judge(line, index, map, &part, None);
                }
                self.parts[place] = Some(part);
                Ok(())
            }
        }
    }

    fn bypass(line: &mut Vec<u8>, index: u64, flags: u8, map: u8, data: &[u8]) -> io::Result<()> {
        if flags == 3 && data.len() >= 7 && begins_stream(data) && data.len() == packet_length(data) {
            write!(line, "bypass {map} ")?;
            push_hex(line, data);
            line.push(b'\n');
            Ok(())
        } else {
            push_dropped(line, index, "Bypass")
        }
    }
}

impl Listing for Map {
    fn list(&mut self, line: &mut Vec<u8>, index: u64, record: &[u8]) -> io::Result<()> {
        let frame = match decode(record, self.has_check) {
            Err(why) => return push_refused(line, index, why),
            Ok(frame) => frame,
        };
        match frame.body {
            Body::Ad { n, flags, map, data } => {
                if self.farm.ad(n) == "accepted" {
                    self.take(line, index, flags, map, data)?;
                }
            }
            Body::Bd { flags, map, data } => {
                self.farm.pass();
                Map::bypass(line, index, flags, map, data)?;
            }
            Body::Unlock => self.farm.unlock(),
            Body::SetVr(vr) => self.farm.set_vr(vr),
        }
        Ok(())
    }
}

// ---- telemetry frames and the packets in them: CCSDS 132.0-B-3, 4.1

#[derive(Default)]
struct Extractor {
    part: Vec<u8>,
    is_in_step: bool,
    last: Option<u8>,
}

impl Extractor {
    fn lose(&mut self) {
        self.part.clear();
        self.is_in_step = false;
    }

    fn hand_out(&mut self, line: &mut Vec<u8>) {
        push_finished(line, &self.part);
        self.part.clear();
    }

    // How long the packet is that the part begins, where its header is there and is one.
    fn end(&self) -> Option<usize> {
        (self.part.len() >= 6 && begins_stream(&self.part)).then(|| packet_length(&self.part))
    }

    fn is_damaged(&self) -> bool {
        self.part.len() >= 6 && !begins_stream(&self.part)
    }

    fn split(&mut self, mut data: &[u8], line: &mut Vec<u8>) {
        while data.len() >= 6 {
            if !begins_stream(data) {
                self.lose();
                return;
            }
            let length = packet_length(data);
            if data.len() < length {
                break;
            }
            push_finished(line, &data[..length]);
            data = &data[length..];
        }
        self.part.clear();
        self.part.extend_from_slice(data);
        self.is_in_step = true;
    }

    fn go_on(&mut self, data: &[u8], line: &mut Vec<u8>) {
        if self.part.is_empty() {
            self.is_in_step = false;
            return;
        }
        self.part.extend_from_slice(data);
        match self.end() {
            _ if self.is_damaged() => self.lose(),
            Some(end) if end == self.part.len() => self.hand_out(line),
            Some(end) if end < self.part.len() => self.lose(),
            _ => {}
        }
    }

    fn frame(&mut self, count: u8, pointer: u16, data: &[u8], line: &mut Vec<u8>) {
        if self.last.is_some_and(|last| last.wrapping_add(1) != count) {
            self.lose();
        }
        self.last = Some(count);
        match pointer {
            2047 if self.is_in_step => self.go_on(data, line),
            2046 if self.is_in_step && !self.part.is_empty() => self.lose(),
            2046 | 2047 => {}
            _ => {
                let (before, from) = data.split_at(usize::from(pointer));
                if self.is_in_step && !self.part.is_empty() {
                    self.part.extend_from_slice(before);
                    if self.end() == Some(self.part.len()) {
                        self.hand_out(line);
                    }
                }
                self.split(from, line);
            }
        }
    }
}

// Whether a packet of the stream begins with these octets: version 0, and no secondary header in idle packets.
fn begins_stream(octets: &[u8]) -> bool {
    begins_packet(octets) && word(octets, 0) & 0xfff != 0xfff
}

// The line of a packet that is finished; idle ones have none.
fn push_finished(line: &mut Vec<u8>, packet: &[u8]) {
    if word(packet, 0) & 0x7ff != 0x7ff {
        line.extend_from_slice(b"packet ");
        push_hex(line, packet);
        line.push(b'\n');
    }
}

fn telemetry(frame: &[u8], length: usize) -> Result<(), Refused> {
    if frame.len() < length {
        return Err((1, "Length"));
    }
    let (first, status) = (word(frame, 0), word(frame, 4));
    let pointer = status & 0x7ff;
    if first >> 14 != 0 {
        Err((2, "Version"))
    } else if !check_holds(frame) {
        Err((3, "Check"))
    } else if status >> 11 != 3 {
        Err((4, "Status"))
    } else if usize::from(pointer) >= length - 12 && pointer < 2046 {
        Err((5, "Pointer"))
    } else if first & 1 == 0 {
        Err((6, "NoOcf"))
    } else {
        Ok(())
    }
}

// ---- control words: CCSDS 232.0-B-4, 4.2

fn push_report(line: &mut Vec<u8>, word: &[u8]) -> io::Result<Result<(), Refused>> {
    let (first, second, third) = (word[0], word[1], word[2]);
    if first >> 7 != 0 {
        return Ok(Err((1, "Kind")));
    }
    if first >> 5 != 0 {
        return Ok(Err((2, "Version")));
    }
    if first & 3 != 1 {
        return Ok(Err((3, "Cop")));
    }
    if second & 3 != 0 || third & 1 != 0 {
        return Ok(Err((4, "Spare")));
    }
    let bit = |place: u8| third >> place & 1;
    write!(line, "report vcid={} vr={} l={} w={} t={}", second >> 2, word[3], bit(5), bit(4), bit(3))?;
    writeln!(line, " b={} status={} rf={} lock={}", third >> 1 & 3, first >> 2 & 7, bit(7), bit(6))?;
    Ok(Ok(()))
}

struct Words;

impl Listing for Words {
    fn list(&mut self, line: &mut Vec<u8>, index: u64, record: &[u8]) -> io::Result<()> {
        write!(line, "{index} ")?;
        if let Err(why) = push_report(line, record)? {
            line.clear();
            push_refused(line, index, why)?;
        }
        Ok(())
    }
}

struct Tm {
    length: usize,
    has_reports: bool,
    extractor: Extractor,
    packets: Vec<u8>,
}

impl Listing for Tm {
    fn list(&mut self, line: &mut Vec<u8>, index: u64, record: &[u8]) -> io::Result<()> {
        if let Err(why) = telemetry(record, self.length) {
            return push_refused(line, index, why);
        }
        let (first, pointer) = (word(record, 0), word(record, 4) & 0x7ff);
        let (master, count) = (record[2], record[3]);
        let last = self.extractor.last;
        let end = self.length - 6;
        self.packets.clear();
        self.extractor.frame(count, pointer, &record[6..end], &mut self.packets);
        write!(line, "{index} scid={} vcid={} mc={master} vc={count} pointer=", first >> 4 & 0x3ff, first >> 1 & 7)?;
        match pointer {
            2047 => line.extend_from_slice(b"none"),
            2046 => line.extend_from_slice(b"idle"),
            place => write!(line, "{place}")?,
        }
        line.extend_from_slice(b" ocf=");
        push_hex(line, &record[end..end + 4]);
        match last {
            None => line.extend_from_slice(b" gap=-\n"),
            Some(last) => writeln!(line, " gap={}", count.wrapping_sub(last).wrapping_sub(1))?,
        }
        if self.has_reports {
            if let Err((number, name)) = push_report(line, &record[end..end + 4])? {
                writeln!(line, "report invalid {number} {name}")?;
            }
        }
        line.extend_from_slice(&self.packets);
        Ok(())
    }
}

// ---- files

// How the records of a command are cut: the octets of a head, the length that it gives or why it is refused, and
// what octets are that are left at the end.
struct Cut {
    head: usize,
    length: fn(&[u8]) -> Result<usize, Refused>,
    rest: Refused,
}

fn declared(octets: &[u8], least: usize) -> Result<usize, Refused> {
    let length = usize::from(word(octets, 2) & 0x3ff) + 1;
    if length < least { Err((5, "Length")) } else { Ok(length) }
}

fn packet_extent(octets: &[u8]) -> Result<usize, Refused> {
    if !begins_packet(octets) {
        Err((2, "Version"))
    } else if !begins_stream(octets) {
        Err((3, "IdleWithSecondary"))
    } else {
        Ok(packet_length(octets))
    }
}

const PACKETS: Cut = Cut { head: 6, length: packet_extent, rest: (1, "Truncated") };
const FRAMES: Cut = Cut { head: 5, length: |octets| declared(octets, 5), rest: (1, "Short") };
const CHECKED: Cut = Cut { head: 5, length: |octets| declared(octets, 7), rest: (1, "Short") };
const WORDS: Cut = Cut { head: 4, length: |_| Ok(4), rest: (6, "Short") };

fn list_records(file: &mut File, out: &mut Out, cut: &Cut, listing: &mut impl Listing) -> io::Result<()> {
    let mut piece = vec![0; 1 << 16];
    let (mut held, mut line) = (Vec::new(), Vec::new());
    let mut index = 0;
    let why = 'reading: loop {
        let count = file.read(&mut piece)?;
        if count == 0 {
            break if held.is_empty() { None } else { Some(cut.rest) };
        }
        held.extend_from_slice(&piece[..count]);
        let mut at = 0;
        while held.len() - at >= cut.head {
            let length = match (cut.length)(&held[at..]) {
                Ok(length) => length,
                Err(why) => break 'reading Some(why),
            };
            if held.len() - at < length {
                break;
            }
            index += 1;
            line.clear();
            listing.list(&mut line, index, &held[at..at + length])?;
            out.write_all(&line)?;
            at += length;
        }
        held.drain(..at);
    };
    if let Some(why) = why {
        line.clear();
        push_refused(&mut line, index + 1, why)?;
        out.write_all(&line)?;
    }
    Ok(())
}

fn list_frames(file: &mut File, out: &mut Out, length: usize, listing: &mut impl Listing) -> io::Result<()> {
    let (mut frame, mut line) = (vec![0; length], Vec::new());
    for index in 1.. {
        let mut count = 0;
        while count < length {
            match file.read(&mut frame[count..])? {
                0 => break,
                more => count += more,
            }
        }
        if count == 0 {
            break;
        }
        line.clear();
        listing.list(&mut line, index, &frame[..count])?;
        out.write_all(&line)?;
    }
    Ok(())
}

fn main() -> io::Result<()> {
    let words: Vec<String> = env::args().skip(1).collect();
    let has = |word: &str| words.iter().any(|it| it == word);
    let command = words.first().map_or("", String::as_str);
    let mut file = File::open(words.last().map_or("", String::as_str))?;
    let mut out = BufWriter::with_capacity(1 << 16, io::stdout().lock());
    let has_check = has("--check") || command == "check";
    let frames = if has_check { &CHECKED } else { &FRAMES };
    let farm = Farm::default();
    match command {
        "tc" | "check" => list_records(&mut file, &mut out, frames, &mut Tc { has_check, is_check: command == "check" })?,
        "farm" => list_records(&mut file, &mut out, frames, &mut FarmListing { has_check, farm })?,
        "map" => {
            let (parts, lengths) = (vec![None; 64], Vec::new());
            let mut map = Map { has_check, blocking: has("--blocking"), farm, parts, lengths };
            list_records(&mut file, &mut out, frames, &mut map)?;
        }
        "packets" => list_records(&mut file, &mut out, &PACKETS, &mut Packets { last: vec![None; 2048] })?,
        "tm" => {
            let place = words.iter().position(|it| it == "--length").map_or(0, |place| place + 1);
            let length = words[place].parse().map_err(|_| io::ErrorKind::InvalidInput)?;
            let mut tm = Tm { length, has_reports: has("--report"), extractor: Extractor::default(), packets: Vec::new() };
            list_frames(&mut file, &mut out, length, &mut tm)?;
        }
        "clcw" => list_records(&mut file, &mut out, &WORDS, &mut Words)?,
        _ => return Err(io::ErrorKind::InvalidInput.into()),
    }
    out.flush()
}
