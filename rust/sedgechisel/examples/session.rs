//! A sender and a receiver, and between them a link that loses a third of all frames and CLCWs. A hundred units of one
//! octet are sent, and the program ends when all are acknowledged. It writes how much this took, as
//! c/examples/session.c does.

use sedgechisel::{Body, Clcw, Farm, Fecf, Fop, Next, Segment, SegmentFlags, TcFrame, Verdict};
use std::error::Error;

const UNITS: u8 = 100;
const CHANNEL: u8 = 2;
const WIDTH: u8 = 20;
const WINDOW: u8 = 10;
const LIMIT: u8 = 255;
const TIMER: u16 = 8;

/// The link, whose losses a Lehmer generator of numbers of 31 bits decides.
struct Link {
    state: u64,
    frames: u32,
    lost: u32,
}

impl Link {
    fn is_lost(&mut self) -> bool {
        self.state = self.state * 48271 % 2147483647;
        let is_lost = self.state % 3 == 0;
        self.lost += u32::from(is_lost);
        is_lost
    }

    /// Carries a unit up in a frame. Returns the unit if the receiver accepts it.
    fn carry_up(&mut self, farm: &mut Farm, n: u8, unit: u8) -> Result<Option<u8>, Box<dyn Error>> {
        let segment = Segment { flags: SegmentFlags::Alone, map: 4, data: &[unit] };
        let frame = TcFrame { scid: 1, vcid: CHANNEL, body: Body::Ad { n, segment } };
        let mut room = [0; 16];
        let octets = frame.encode(Fecf::Present, &mut room)?;
        self.frames += 1;
        if self.is_lost() {
            return Ok(None);
        }
        match TcFrame::decode(octets, Fecf::Present)?.body {
            Body::Ad { n, segment } if farm.ad(n, true) == Verdict::Accepted => Ok(Some(segment.data[0])),
            _ => Ok(None),
        }
    }

    /// Carries a CLCW down. Returns the CLCW if it arrives.
    fn carry_down(&mut self, farm: &Farm) -> Result<Option<Clcw>, Box<dyn Error>> {
        let octets = farm.control_word(CHANNEL)?.encode()?;
        if self.is_lost() {
            return Ok(None);
        }
        Ok(Some(Clcw::decode(&octets)?))
    }
}

fn main() -> Result<(), Box<dyn Error>> {
    let mut link = Link { state: 1, frames: 0, lost: 0 };
    let mut farm = Farm::new(WIDTH, 0)?;
    let mut fop = Fop::new(WIDTH, WINDOW, LIMIT, TIMER)?;
    let (mut waiting, mut sent) = (0, [0; 256]);
    let (mut submitted, mut handed_on, mut acknowledged) = (0, 0, 0);
    fop.init_without_check()?;
    while acknowledged < UNITS {
        if submitted < UNITS && fop.submit().is_ok() {
            waiting = submitted;
            submitted += 1;
        }
        let next = fop.next();
        if let Some(Next::First(n)) = next {
            sent[usize::from(n)] = waiting;
        }
        if let Some(Next::First(n) | Next::Again(n)) = next {
            if let Some(unit) = link.carry_up(&mut farm, n, sent[usize::from(n)])? {
                assert_eq!(unit, handed_on);
                handed_on += 1;
            }
        }
        if let Some(reported) = link.carry_down(&farm)?.and_then(|it| fop.clcw(CHANNEL, &it)) {
            reported.alert.map_or(Ok(()), Err)?;
            acknowledged += reported.released;
        }
        fop.tick().map_or(Ok(()), Err)?;
    }
    let Link { frames, lost, .. } = link;
    println!(
        "{submitted} units, {frames} frames, {lost} lost on both ways, {handed_on} handed on in sequence"
    );
    Ok(())
}
