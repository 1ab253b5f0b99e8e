//! Shows what becomes of each command, by the number of its submission, on bare CLCWs. A spacecraft stands in for the
//! front end. In the seconds 3 to 6 no CLCW arrives, so the sender gives up commands that are on board; nothing
//! restarts. (docs/CONTROL.md, "What became of each command", has the same program in Python, and its output.)
use sedgechisel::{Clcw, Config, Ground, HeardReport, Packet, PacketKind, SequenceFlags};
use sedgechisel::{Spacecraft, TcFrame};

const ROUND_TRIP: u32 = 2; // seconds

fn command(count: u64, room: &mut [u8]) -> Result<&mut [u8], Box<dyn std::error::Error>> {
    let (kind, flags) = (PacketKind::Telecommand, SequenceFlags::Unsegmented);
    let packet = Packet { kind, secondary: false, apid: 5, flags, count: count as u16, data: b"command" };
    Ok(packet.encode(room)?)
}

fn main() -> Result<(), Box<dyn std::error::Error>> {
    let config = Config { scid: 42, vcid: 2, window: 2, limit: 1, timer: 3, ..Config::default() };
    let (mut ground, mut board) = (Ground::new(&config)?, Spacecraft::new(&config)?);
    let (mut room, mut frame) = ([0; 64], [0; TcFrame::LONGEST]);
    // The fates of all commands; the first command of this session; when the sender gave up.
    let (mut fates, mut first, mut stopped) = (["waits"; 5], 0, None);
    ground.init_set_vr(0)?;
    for second in 1..20 {
        let (before, mut alert) = (fates, None);
        if stopped.is_none() {
            for count in first + ground.submitted()..5 {
                ground.submit(4, command(count, &mut room)?)?;
            }
            while let Some(octets) = ground.pull(&mut frame) {
                board.receive(octets)?;
            }
        }
        // In the seconds 3 to 6 no CLCW arrives.
        if !(3..=6).contains(&second) {
            let word = board.control_word().encode()?;
            let heard = ground.clcw(&word);
            alert = heard.alert;
            let is_late = stopped.is_some_and(|it| second > it + ROUND_TRIP);
            if heard.report == HeardReport::Used && is_late {
                let whole = ground.resume(Clcw::decode(&word)?.value)?;
                fates[first as usize..].fill("waits");
                fates[first as usize..][..whole as usize].fill("on board");
                (first, stopped) = (first + whole, None);
            }
        }
        let alert = alert.or_else(|| ground.tick());
        for number in 0..ground.submitted() {
            fates[(first + number) as usize] = match number {
                it if it < ground.acknowledged_whole() => "on board",
                it if it < ground.sent_whole() => "sent",
                _ => "waits",
            };
        }
        if alert.is_some() {
            stopped = Some(second);
        }
        if fates != before || alert.is_some() {
            println!("{second}: {}: {}", alert.map_or("-", |it| it.name()), fates.join(", "));
        }
    }
    Ok(())
}
