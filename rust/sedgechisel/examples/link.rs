//! A session over both nodes and a link that loses frames: packets are submitted as the queue has room, and each round
//! is a tick of the clock. After an alert the ground resumes with the value of a CLCW, which shows how many packets are
//! on board. The new session submits only the others, so each packet is delivered once. No node restarts here. A
//! program for a real link looks at a boot counter before it resumes, as the example `select` does.

use sedgechisel::{Alert, Clcw, Config, FopState, Ground, Heard, HeardReport, Spacecraft, TcFrame, TmFrame};
use std::error::Error;

/// The packets, of 7 octets each, that are sent on MAP 4. Each is one segment.
const PACKETS: u64 = 8;

/// Loses every fifth frame, up or down, and once ten in a row.
struct Link {
    frames: u32,
}

impl Link {
    fn carries(&mut self) -> bool {
        self.frames += 1;
        let is_dark = self.frames > 7 && self.frames <= 17;
        self.frames % 5 != 0 && !is_dark
    }
}

fn main() -> Result<(), Box<dyn Error>> {
    // A CLCW arrives in the round in which the frame was sent, so a timer of 3 ticks is long enough.
    let config = Config { window: 4, limit: 2, timer: 3, queue_slots: 2, ..Config::default() };
    let (mut ground, mut spacecraft) = (Ground::new(&config)?, Spacecraft::new(&config)?);
    let mut link = Link { frames: 0 };
    // How many packets earlier sessions have brought on board.
    let mut done = 0;
    ground.init_unlock()?;
    for round in 1..=100 {
        for number in done + ground.submitted()..PACKETS {
            if ground.submit(4, &packet(number)).is_err() {
                break;
            }
        }
        carry_up(&mut ground, &mut spacecraft, &mut link)?;
        while let Some((map, packet)) = spacecraft.take()? {
            println!("MAP {map} {}", packet.iter().map(|it| format!("{it:02X}")).collect::<String>());
        }
        let (value, heard) = carry_down(&mut ground, &mut spacecraft, &mut link)?;
        let acknowledged = done + ground.acknowledged_whole();
        if let Some(alert) = heard.or(ground.tick()) {
            println!("round {round}: {}; {acknowledged} are acknowledged", alert.name());
        }
        if acknowledged == PACKETS {
            println!("round {round}: all are acknowledged");
            return Ok(());
        }
        // The CLCW of this round was made when all frames had arrived or were lost: nothing was in transit on the
        // uplink. An older one would show too little, and what was accepted since would be resubmitted.
        if let (FopState::S6, Some(vr)) = (ground.state(), value) {
            done += ground.resume(vr)?;
            let more = done - acknowledged;
            println!("round {round}: {more} more were accepted; again from packet {done}");
        }
    }
    Err("not all were acknowledged".into())
}

fn packet(number: u64) -> [u8; 7] {
    [0x10, 0x05, 0xc0, number as u8, 0x00, 0x00, number as u8]
}

/// Carries up what the ground sends, until it has nothing more to send now.
fn carry_up(ground: &mut Ground, spacecraft: &mut Spacecraft, link: &mut Link) -> Result<(), Box<dyn Error>> {
    let mut room = [0; TcFrame::LONGEST];
    while let Some(frame) = ground.pull(&mut room) {
        if link.carries() {
            spacecraft.receive(frame)?;
        }
    }
    Ok(())
}

/// Carries a CLCW down. Returns its value, if it arrives, and why the sender has given up, if it has.
fn carry_down(
    ground: &mut Ground, spacecraft: &mut Spacecraft, link: &mut Link,
) -> Result<(Option<u8>, Option<Alert>), Box<dyn Error>> {
    let mut room = [0; TmFrame::LONGEST];
    let frame = spacecraft.telemetry_frame(&mut room);
    if !link.carries() {
        return Ok((None, None));
    }
    match ground.telemetry(frame)? {
        Heard::Frame { report: HeardReport::Used, alert, .. } => Ok((Some(value_of(frame)?), alert)),
        _ => Ok((None, None)),
    }
}

/// Returns the value of the CLCW in a telemetry frame: V(R), as it was on board.
fn value_of(octets: &[u8]) -> Result<u8, Box<dyn Error>> {
    Ok(Clcw::decode(&TmFrame::decode(octets, octets.len())?.ocf)?.value)
}
