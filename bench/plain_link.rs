// The yardstick of bench/link: both nodes written by hand in plain Rust, and the same 10^6 packets over them.
// It refuses the packets and frames that the crate refuses. It leaves out what the run does not use: several
// packets in a segment; Type-B frames, which are decoded and counted but not obeyed; the sender's directives,
// its states S4 and S5 and its clock; packets in telemetry frames, and the count of missing frames. Built by
// `rustc -O`.

#![allow(dead_code)]

use std::collections::VecDeque;

// ---- the check: CCSDS 232.0-B-4, 4.1.4.2, eight octets a turn by eight tables ("slicing by eight")

// In table k what an octet adds that k others follow.
const fn tables() -> [[u16; 256]; 8] {
    let mut tables = [[0; 256]; 8];
    let mut place = 0;
    while place < 256 {
        let mut value = (place as u16) << 8;
        let mut bit = 0;
        while bit < 64 {
            value = if value & 0x8000 != 0 { value << 1 ^ 0x1021 } else { value << 1 };
            bit += 1;
            if bit % 8 == 0 {
                tables[bit / 8 - 1][place] = value;
            }
        }
        place += 1;
    }
    tables
}

static TABLES: [[u16; 256]; 8] = tables();

// Not inlined, as in the crate: the whole is about 6 % faster so.
#[inline(never)]
fn check(octets: &[u8]) -> u16 {
    let entry = |later: usize, octet: u8| TABLES[later][usize::from(octet)];
    let mut register: u16 = 0xffff;
    let mut eights = octets.chunks_exact(8);
    for it in &mut eights {
        let [high, low] = register.to_be_bytes();
        let four = entry(3, it[4]) ^ entry(2, it[5]) ^ entry(1, it[6]) ^ entry(0, it[7]);
        register = entry(7, it[0] ^ high) ^ entry(6, it[1] ^ low) ^ entry(5, it[2]) ^ entry(4, it[3]) ^ four;
    }
    for octet in eights.remainder() {
        register = register << 8 ^ entry(0, (register >> 8) as u8 ^ octet);
    }
    register
}

fn check_holds(octets: &[u8]) -> bool {
    let (front, tail) = octets.split_at(octets.len() - 2);
    check(front) == word(tail, 0)
}

fn append_check(octets: &mut [u8]) {
    let (front, tail) = octets.split_at_mut(octets.len() - 2);
    tail.copy_from_slice(&check(front).to_be_bytes());
}

fn word(octets: &[u8], at: usize) -> u16 {
    u16::from_be_bytes([octets[at], octets[at + 1]])
}

fn refuse_if<Fault>(is_wrong: bool, fault: Fault) -> Result<(), Fault> {
    if is_wrong { Err(fault) } else { Ok(()) }
}

// ---- the managed parameters

struct Config {
    scid: u16, vcid: u8, tm_vcid: u8,
    width: u8, window: usize, limit: u8, timer: u16,
    part: usize, max_packet: usize, maps: u64,
    ready_slots: usize, queue_slots: usize, frame_length: usize,
}

const CONFIG: Config = Config {
    scid: 1, vcid: 2, tm_vcid: 0,
    width: 254, window: 127, limit: 3, timer: 10,
    part: 1016, max_packet: 65542, maps: u64::MAX,
    ready_slots: 64, queue_slots: 1000, frame_length: 64,
};

impl Config {
    fn is_open(&self, map: u8) -> bool {
        map < 64 && self.maps >> map & 1 == 1
    }
}

// ---- space packets: CCSDS 133.0-B-2, 4.1

fn is_packet(octets: &[u8]) -> bool {
    octets.len() >= 7
        && octets[0] >> 5 == 0
        && word(octets, 0) & 0xfff != 0xfff
        && usize::from(word(octets, 4)) + 7 == octets.len()
}

fn is_command_packet(octets: &[u8]) -> bool {
    is_packet(octets) && octets[0] & 0x10 != 0 && word(octets, 0) & 0x7ff != 0x7ff
}

// ---- telecommand frames: CCSDS 232.0-B-4, 4.1

// The flags of a segment: one that stands alone has both.
const FIRST: u8 = 1;
const LAST: u8 = 2;

struct Segment<Data> { flags: u8, map: u8, data: Data }

fn encode(config: &Config, n: u8, segment: &Segment<Vec<u8>>, out: &mut [u8; 1024]) -> usize {
    let total = segment.data.len() + 8;
    let out = &mut out[..total];
    out[..2].copy_from_slice(&config.scid.to_be_bytes());
    out[2..4].copy_from_slice(&(u16::from(config.vcid) << 10 | (total - 1) as u16).to_be_bytes());
    out[4] = n;
    out[5] = segment.flags << 6 | segment.map;
    out[6..total - 2].copy_from_slice(&segment.data);
    append_check(out);
    total
}

enum Body<'a> { Ad(u8, Segment<&'a [u8]>), TypeB }

enum TcFault { Short, Version, ReservedType, Spare, Length, Check, BypassNumber, EmptyData, Command, Foreign }

fn decode<'a>(config: &Config, octets: &'a [u8]) -> Result<Body<'a>, TcFault> {
    refuse_if(octets.len() < 5, TcFault::Short)?;
    let (first, second) = (word(octets, 0), word(octets, 2));
    let (bypass, control) = (first & 0x2000 != 0, first & 0x1000 != 0);
    refuse_if(first >> 14 != 0, TcFault::Version)?;
    refuse_if(control && !bypass, TcFault::ReservedType)?;
    refuse_if(first >> 10 & 3 != 0, TcFault::Spare)?;
    let total = usize::from(second & 0x3ff) + 1;
    refuse_if(total != octets.len() || total < 7, TcFault::Length)?;
    refuse_if(!check_holds(octets), TcFault::Check)?;
    refuse_if(bypass && octets[4] != 0, TcFault::BypassNumber)?;
    let body = match &octets[5..total - 2] {
        [] => return Err(TcFault::EmptyData),
        [0] | [0x82, 0, _] if control => Body::TypeB,
        _ if control => return Err(TcFault::Command),
        [_] => return Err(TcFault::EmptyData),
        _ if bypass => Body::TypeB,
        [header, data @ ..] => Body::Ad(octets[4], Segment { flags: header >> 6, map: header & 63, data }),
    };
    refuse_if(first & 0x3ff != config.scid || (second >> 10) as u8 != config.vcid, TcFault::Foreign)?;
    Ok(body)
}

// ---- the ground, with FOP-1: CCSDS 232.1-B-2, 5

#[derive(Clone, Copy, PartialEq)]
enum Mode { S1, S2, S3, S6 }

enum Alert { Lockout, NnR, Clcw, Synch, Limit }

#[derive(Debug)]
enum LinkFault { NotOpen, ClosedMap, NotCommand, TooLong, QueueFull }

enum TmFault { Length, Version, Check, Status, Pointer, NoOcf, Foreign, NoReport, OtherChannel }

struct Ground {
    config: Config,
    mode: Mode,
    vs: u8,
    nn: u8,
    count: u8,
    ticks: Option<u16>,
    unsent: VecDeque<Segment<Vec<u8>>>,
    sent: VecDeque<Segment<Vec<u8>>>,
    due: usize, // so many of the last of those sent are to be sent again
}

impl Ground {
    fn new(config: Config) -> Ground {
        let (unsent, sent) = (VecDeque::with_capacity(config.queue_slots), VecDeque::with_capacity(config.window));
        Ground { config, mode: Mode::S6, vs: 0, nn: 0, count: 1, ticks: None, unsent, sent, due: 0 }
    }

    fn submit(&mut self, map: u8, octets: &[u8]) -> Result<(), LinkFault> {
        refuse_if(self.mode == Mode::S6, LinkFault::NotOpen)?;
        refuse_if(!self.config.is_open(map), LinkFault::ClosedMap)?;
        refuse_if(!is_command_packet(octets), LinkFault::NotCommand)?;
        refuse_if(octets.len() > self.config.max_packet, LinkFault::TooLong)?;
        let count = octets.len().div_ceil(self.config.part);
        refuse_if(self.unsent.len() + count > self.config.queue_slots, LinkFault::QueueFull)?;
        for (k, data) in octets.chunks(self.config.part).enumerate() {
            let flags = u8::from(k == 0) * FIRST + u8::from(k + 1 == count) * LAST;
            self.unsent.push_back(Segment { flags, map, data: data.to_vec() });
        }
        Ok(())
    }

    fn pull(&mut self, out: &mut [u8; 1024]) -> Option<usize> {
        if !matches!(self.mode, Mode::S1 | Mode::S2) {
            return None;
        }
        let place = self.sent.len() - self.due;
        if self.due > 0 {
            self.due -= 1;
        } else if place < self.config.window {
            self.sent.push_back(self.unsent.pop_front()?);
            self.vs = self.vs.wrapping_add(1);
            self.count = if place == 0 { 1 } else { self.count };
        } else {
            return None;
        }
        self.ticks = Some(self.config.timer);
        Some(encode(&self.config, self.nn.wrapping_add(place as u8), &self.sent[place], out))
    }

    // Takes a telemetry frame, with no packet in it; the alert of the report that it carries.
    fn telemetry(&mut self, octets: &[u8]) -> Result<Option<Alert>, TmFault> {
        let total = self.config.frame_length;
        refuse_if(octets.len() != total, TmFault::Length)?;
        let (first, status) = (word(octets, 0), word(octets, 4));
        let pointer = usize::from(status & 0x7ff);
        refuse_if(first >> 14 != 0, TmFault::Version)?;
        refuse_if(!check_holds(octets), TmFault::Check)?;
        refuse_if(status >> 11 != 3, TmFault::Status)?;
        refuse_if(pointer < 2046 && pointer >= total - 12, TmFault::Pointer)?;
        refuse_if(first & 1 == 0, TmFault::NoOcf)?;
        refuse_if(first >> 4 != self.config.scid || (first >> 1 & 7) as u8 != self.config.tm_vcid, TmFault::Foreign)?;
        let [a, b, c, value] = octets[total - 6..total - 2] else { return Err(TmFault::NoReport) };
        refuse_if(a >> 5 != 0 || a & 3 != 1 || b & 3 != 0 || c & 1 != 0, TmFault::NoReport)?;
        refuse_if(b >> 2 != self.config.vcid, TmFault::OtherChannel)?;
        Ok(self.report(c & 0x20 != 0, c & 0x10 != 0, c & 8 != 0, value))
    }

    fn report(&mut self, lockout: bool, waits: bool, asks: bool, value: u8) -> Option<Alert> {
        let released = value.wrapping_sub(self.nn);
        let alert = match self.mode {
            Mode::S6 => return None,
            _ if lockout => Some(Alert::Lockout),
            _ if released > self.vs.wrapping_sub(self.nn) => Some(Alert::NnR),
            _ if !asks && waits => Some(Alert::Clcw),
            _ if asks && value == self.vs => Some(Alert::Synch),
            mode if !asks && released == 0 && mode != Mode::S1 => Some(Alert::Synch),
            _ if asks && self.config.limit == 1 => Some(Alert::Limit),
            _ => None,
        };
        if alert.is_some() {
            (self.mode, self.due, self.ticks) = (Mode::S6, 0, None);
            self.sent.clear();
            self.unsent.clear();
            return alert;
        }
        let repeats = released != 0 || self.mode != Mode::S2 && self.count < self.config.limit;
        if released != 0 {
            self.sent.drain(..usize::from(released));
            self.due = self.due.min(self.sent.len());
            (self.nn, self.count) = (value, 1);
        }
        if asks {
            self.mode = if waits { Mode::S3 } else { Mode::S2 };
            if repeats && !waits {
                (self.due, self.count, self.ticks) = (self.sent.len(), self.count + 1, Some(self.config.timer));
            }
        } else if released != 0 {
            self.mode = Mode::S1;
            self.ticks = if self.sent.is_empty() { None } else { Some(self.config.timer) };
        }
        None
    }
}

// ---- the spacecraft, with FARM-1: CCSDS 232.1-B-2, 6

enum Verdict { Accepted, Ahead, NoBuffer, Behind, Outside, Discarded }

enum Dropped { ClosedMap, Interrupted, NoBeginning, NotAPacket, TooLong }

enum Received { Invalid(TcFault), Sequence { n: u8, verdict: Verdict, ready: usize, dropped: Option<Dropped> }, TypeB }

struct Farm { half: u8, vr: u8, lockout: bool, wait: bool, retransmit: bool, farm_b: u8 }

impl Farm {
    fn ad(&mut self, n: u8, is_free: bool) -> Verdict {
        let ahead = n.wrapping_sub(self.vr);
        let is_outside = ahead >= self.half && ahead <= 255 - self.half;
        if self.lockout || self.wait && !is_outside {
            return Verdict::Discarded;
        }
        if is_outside {
            self.lockout = true;
            return Verdict::Outside;
        }
        if ahead == 0 && is_free {
            self.vr = self.vr.wrapping_add(1);
            self.retransmit = false;
            return Verdict::Accepted;
        }
        if ahead >= self.half {
            return Verdict::Behind;
        }
        (self.retransmit, self.wait) = (true, ahead == 0);
        if self.wait { Verdict::NoBuffer } else { Verdict::Ahead }
    }
}

struct Spacecraft {
    config: Config,
    farm: Farm,
    parts: Vec<Option<Vec<u8>>>,
    ready: VecDeque<(u8, Vec<u8>)>,
    frames: u8,
}

impl Spacecraft {
    fn new(config: Config) -> Spacecraft {
        let farm = Farm { half: config.width / 2, vr: 0, lockout: false, wait: false, retransmit: false, farm_b: 0 };
        let ready = VecDeque::with_capacity(config.ready_slots);
        Spacecraft { config, farm, parts: vec![None; 64], ready, frames: 0 }
    }

    fn receive(&mut self, octets: &[u8]) -> Received {
        match decode(&self.config, octets) {
            Err(fault) => Received::Invalid(fault),
            Ok(Body::TypeB) => {
                self.farm.farm_b = (self.farm.farm_b + 1) & 3;
                Received::TypeB
            }
            Ok(Body::Ad(n, segment)) => {
                let before = self.ready.len();
                let verdict = self.farm.ad(n, before < self.config.ready_slots);
                let dropped = if let Verdict::Accepted = verdict { self.assemble(&segment).err() } else { None };
                Received::Sequence { n, verdict, ready: self.ready.len() - before, dropped }
            }
        }
    }

    // Joins the segments of a MAP to a packet, which is ready then (CCSDS 232.0-B-4, 4.1.3.2.2).
    fn assemble(&mut self, segment: &Segment<&[u8]>) -> Result<(), Dropped> {
        let Segment { flags, map, data } = *segment;
        refuse_if(!self.config.is_open(map), Dropped::ClosedMap)?;
        let (open, is_first) = (self.parts[usize::from(map)].take(), flags & FIRST != 0);
        let is_interrupted = is_first && open.is_some();
        let mut part = if is_first { Vec::with_capacity(data.len()) } else { open.ok_or(Dropped::NoBeginning)? };
        refuse_if(part.len() + data.len() > self.config.max_packet, Dropped::TooLong)?;
        part.extend_from_slice(data);
        if flags & LAST == 0 {
            self.parts[usize::from(map)] = Some(part);
        } else {
            refuse_if(!is_packet(&part), Dropped::NotAPacket)?;
            self.ready.push_back((map, part));
        }
        refuse_if(is_interrupted, Dropped::Interrupted)
    }

    fn take(&mut self) -> Option<(u8, Vec<u8>)> {
        let packet = self.ready.pop_front()?;
        if self.ready.len() < self.config.ready_slots {
            self.farm.wait = false;
        }
        Some(packet)
    }

    // A telemetry frame with only idle data, which reports on the receiver (CCSDS 132.0-B-3, 4.1).
    fn report(&mut self, out: &mut [u8; 2048]) -> usize {
        let total = self.config.frame_length;
        let out = &mut out[..total];
        let Farm { vr, lockout, wait, retransmit, farm_b, .. } = self.farm;
        let flags = u8::from(lockout) << 5 | u8::from(wait) << 4 | u8::from(retransmit) << 3 | farm_b << 1;
        out[..2].copy_from_slice(&(self.config.scid << 4 | u16::from(self.config.tm_vcid) << 1 | 1).to_be_bytes());
        out[2..4].fill(self.frames);
        out[4..6].copy_from_slice(&[0x1f, 0xfe]);
        out[6..total - 6].fill(0x55);
        out[total - 6..total - 2].copy_from_slice(&[1, self.config.vcid << 2, flags, vr]);
        append_check(out);
        self.frames = self.frames.wrapping_add(1);
        total
    }
}

// ---- the run

const PACKETS: u32 = 1_000_000;
const BATCH: u32 = 127;

fn main() -> Result<(), LinkFault> {
    let (mut ground, mut spacecraft) = (Ground::new(CONFIG), Spacecraft::new(CONFIG));
    let (mut frames, mut packets, mut octets, mut sum, mut reports) = (0u64, 0u64, 0u64, 0u64, 0u64);
    let (mut up, mut down) = ([0; 1024], [0; 2048]);
    let mut packet = [0x5a; 100];
    packet[..6].copy_from_slice(&[0x10, 0x05, 0xc0, 0, 0, 93]);
    ground.mode = Mode::S1;
    for first in (0..PACKETS).step_by(BATCH as usize) {
        for number in first..PACKETS.min(first + BATCH) {
            packet[96..].copy_from_slice(&number.to_be_bytes());
            ground.submit(4, &packet)?;
        }
        while let Some(size) = ground.pull(&mut up) {
            if let Received::Sequence { ready: 1, .. } = spacecraft.receive(&up[..size]) {
                frames += 1;
            }
            if let Some((_, packet)) = spacecraft.take() {
                packets += 1;
                octets += packet.len() as u64;
                sum += u64::from(*packet.last().unwrap_or(&0));
            }
        }
        let size = spacecraft.report(&mut down);
        if let Ok(None) = ground.telemetry(&down[..size]) {
            reports += 1;
        }
    }
    let outstanding = ground.sent.len() + ground.unsent.len();
    println!("frames={frames} packets={packets} octets={octets} sum={sum} reports={reports} outstanding={outstanding}");
    Ok(())
}
