//! A receiver on board spacecraft 1, virtual channel 2: it cuts the octets of standard input into telecommand frames,
//! passes those of its channel to FARM-1, and joins the packets of its two MAPs. It writes the packets, and after each
//! frame the CLCW for the ground. With the option `--check` each frame ends with its FECF, as on a link. The receiver
//! uses no memory except what is set aside at the start.

use sedgechisel::{
    packets, Body, Command, Farm, Fecf, Map, Segment, SegmentFlags, TcFault, TcFrame, Verdict,
};
use std::error::Error;
use std::io::{stdin, Read};

const SPACECRAFT: u16 = 1;
const CHANNEL: u8 = 2;
const MAPS: [u8; 2] = [4, 5];
const WIDTH: u8 = 10;
const LONGEST_PACKET: usize = 4096;

struct Board<'m> {
    fecf: Fecf,
    farm: Farm,
    maps: [Map<'m>; 2],
}

impl Board<'_> {
    /// Takes a frame from the link, and writes what becomes of it.
    fn take(&mut self, octets: &[u8]) -> Result<(), Box<dyn Error>> {
        match TcFrame::decode(octets, self.fecf) {
            Err(fault) => println!("no frame: {fault}"),
            Ok(TcFrame { scid: SPACECRAFT, vcid: CHANNEL, body }) => self.receive(body),
            Ok(_) => {}
        }
        println!("report{}", spelled(&self.farm.control_word(CHANNEL)?.encode()?));
        Ok(())
    }

    /// Passes the receiver a frame of its own channel. Packets are passed on at once, so there is always room.
    fn receive(&mut self, body: Body) {
        match body {
            Body::Ad { n, segment } => match self.farm.ad(n, true) {
                Verdict::Accepted => self.assemble(segment),
                verdict => println!("no acceptance: {verdict}"),
            },
            Body::Bd { segment } => {
                self.farm.bd();
                pass_by(segment);
            }
            Body::Bc(Command::Unlock) => self.farm.unlock(),
            Body::Bc(Command::SetVr(vr)) => self.farm.set_vr(vr),
        }
    }

    fn assemble(&mut self, segment: Segment) {
        let Some(place) = MAPS.iter().position(|it| *it == segment.map) else {
            return println!("dropped: MAP {} is closed", segment.map);
        };
        let taken = self.maps[place].take(segment.flags, segment.data);
        if let Some(cause) = taken.dropped {
            println!("dropped: {cause}");
        }
        taken.packets.for_each(|it| println!("packet{}", spelled(it)));
    }
}

/// Takes a segment sent by bypass, which must be exactly one packet.
fn pass_by(segment: Segment) {
    match packets(segment.data).next() {
        Some(packet) if packet == segment.data && segment.flags == SegmentFlags::Alone => {
            println!("bypass{}", spelled(packet));
        }
        _ => println!("dropped: it bypasses, and is not one packet"),
    }
}

fn spelled(octets: &[u8]) -> String {
    octets.iter().map(|it| format!(" {it:02X}")).collect()
}

/// Returns the length of the frame that the octets begin with, if they contain all of it.
fn next_frame(octets: &[u8], fecf: Fecf) -> Result<Option<usize>, TcFault> {
    match TcFrame::declared(octets, fecf) {
        Err(TcFault::Short) => Ok(None),
        total => total.map(|it| (it <= octets.len()).then_some(it)),
    }
}

fn main() -> Result<(), Box<dyn Error>> {
    let fecf = if std::env::args().any(|it| it == "--check") { Fecf::Present } else { Fecf::Absent };
    let (mut first, mut second) = ([0; LONGEST_PACKET], [0; LONGEST_PACKET]);
    let maps = [Map::new(&mut first, false), Map::new(&mut second, true)];
    let mut board = Board { fecf, farm: Farm::new(WIDTH, 0)?, maps };
    let (mut room, mut held) = ([0; TcFrame::LONGEST], 0);
    loop {
        match stdin().read(&mut room[held..])? {
            0 if held == 0 => return Ok(()),
            0 => return Err("octets of a frame are left".into()),
            more => held += more,
        }
        let mut from = 0;
        while let Some(total) = next_frame(&room[from..held], fecf)? {
            board.take(&room[from..][..total])?;
            from += total;
        }
        room.copy_within(from..held, 0);
        held -= from;
    }
}
