//! A ground on bare CLCWs, as a select loop: it waits for what arrives, for a command to be sent, or for the next tick,
//! whichever is first, and then sends up what is to be sent. On a loopback socket there is a front end with a
//! spacecraft behind it. Both directions are slow and lose frames; for a while the link is dark, and once the
//! spacecraft restarts. Each command is executed once, in order: each session begins by the steps of docs/CONTROL.md,
//! "The steps". CLCWs and housekeeping arrive in one ordered stream, so housekeeping that arrives after a CLCW was made
//! after it. If they arrive by two paths, a program must learn this in another way. All channels are std's; with an
//! executor, use the same arms in the executor's own select.

use sedgechisel::{
    Alert, Body, Clcw, Config, Fecf, FopState, Ground, HeardReport, LinkFault, Packet, PacketKind,
};
use sedgechisel::{Segment, SegmentFlags, SequenceFlags, Spacecraft, TcFrame};
use std::collections::VecDeque;
use std::error::Error;
use std::io::{Read, Write};
use std::net::{Shutdown, TcpListener, TcpStream};
use std::sync::mpsc::{channel, Receiver, RecvTimeoutError, Sender};
use std::thread;
use std::time::{Duration, Instant};

type Outcome<T> = Result<T, Box<dyn Error + Send + Sync>>;

/// The commands that are sent on MAP 4. Each is one segment.
const COMMANDS: usize = 300;
const MAP: u8 = 4;

/// The ground's clock, and the time between CLCWs.
const TICK: Duration = Duration::from_millis(10);
const REPORT: Duration = Duration::from_millis(5);

/// Longer than the longest round trip, in ticks. After so many without a pull, nothing is in transit on the uplink.
const ROUND_TRIP: u32 = 50;

fn config() -> Config {
    Config { scid: 42, window: 20, limit: 3, timer: 12, queue_slots: 20, ..Config::default() }
}

// ---- The ground. ----

/// What the ground waits for, in addition to its clock.
enum Event {
    /// A CLCW arrived.
    Word([u8; 4]),
    /// Housekeeping arrived: how often the spacecraft has restarted, and how many commands it has executed.
    Housekeeping { boots: u32, executed: usize },
    /// A command is to be sent.
    Submit(Vec<u8>),
}

/// The ground, and what its program keeps.
struct Station {
    ground: Ground,
    up: TcpStream,
    commands: Vec<Vec<u8>>,
    /// The command that is submission 0 of this session.
    first: usize,
    /// The ticks since a frame was sent up.
    silence: u32,
    /// Nothing is sent until a session begins.
    is_stopped: bool,
    /// Whether a CLCW has shown, with the session's command on board, that V(R) is V(S).
    is_set: bool,
    /// Whether no restart was seen since then either: nothing is submitted before.
    is_open: bool,
    /// Whether the session that ended shows what is on board.
    is_known: bool,
    /// A CLCW that was made when nothing was in transit on the uplink.
    word: Option<Clcw>,
    /// Whether telemetry did not agree with what such a CLCW shows to be on board.
    has_disagreed: bool,
    boots: Option<u32>,
    executed: usize,
    alerts: Vec<Alert>,
}

impl Station {
    /// Runs until all commands are executed on board.
    fn run(&mut self, events: &Receiver<Event>) -> Outcome<()> {
        let mut clock = Instant::now() + TICK;
        while self.executed < COMMANDS {
            // What has arrived is taken before the tick that is due.
            match events.recv_timeout(clock.saturating_duration_since(Instant::now())) {
                Ok(Event::Word(octets)) => self.hear_word(&octets)?,
                Ok(Event::Housekeeping { boots, executed }) => self.hear_housekeeping(boots, executed)?,
                Ok(Event::Submit(command)) => self.commands.push(command),
                Err(RecvTimeoutError::Timeout) => {
                    clock = Instant::now() + TICK;
                    self.silence += 1;
                    let alert = self.ground.tick();
                    self.give_up(alert);
                }
                Err(RecvTimeoutError::Disconnected) => return Err("the front end is gone".into()),
            }
            self.send()?;
        }
        Ok(())
    }

    fn stop(&mut self, is_known: bool) {
        (self.is_stopped, self.is_known, self.word) = (true, self.is_known && is_known, None);
        (self.is_set, self.is_open, self.silence) = (false, false, 0);
    }

    fn give_up(&mut self, alert: Option<Alert>) {
        if let Some(alert) = alert {
            self.alerts.push(alert);
            self.stop(!alert.shows_a_broken_condition());
        }
    }

    fn hear_word(&mut self, octets: &[u8; 4]) -> Outcome<()> {
        let heard = self.ground.clcw(octets);
        self.give_up(heard.alert);
        if heard.report != HeardReport::Used || self.silence <= ROUND_TRIP {
            return Ok(());
        }
        let word = Clcw::decode(octets)?;
        if !self.is_stopped {
            let has_flag = word.lockout || word.wait || word.retransmit;
            self.is_set = word.value == self.ground.vs() && !has_flag;
        } else if word.wait {
            self.silence = 0; // CLCWs made before the wait flag is cleared show something else
        } else {
            self.is_known &= !word.lockout;
            self.word = Some(word);
        }
        Ok(())
    }

    fn hear_housekeeping(&mut self, boots: u32, executed: usize) -> Outcome<()> {
        if self.boots != Some(boots) {
            // The spacecraft has restarted, or nothing was heard of it before.
            if self.ground.state() != FopState::S6 {
                self.ground.terminate()?;
            }
            self.stop(false);
        }
        (self.boots, self.executed) = (Some(boots), executed);
        if let Some(word) = self.word.take() {
            // The CLCW arrived before this, with no restart in between.
            return self.begin(word.value);
        }
        // Nor has it restarted since the session's command arrived.
        self.is_open |= self.is_set;
        Ok(())
    }

    /// Begins the next session. If the last one does not show what is on board, the spacecraft's telemetry does. If it
    /// does, both agree, because the spacecraft has executed all that was ready.
    fn begin(&mut self, value: u8) -> Outcome<()> {
        let (vs, nn) = (self.ground.vs(), self.ground.nn());
        // (If V(S) = NN(R), nothing was unacknowledged, and V(R) must be the same number.)
        let is_known = self.is_known && (vs != nn || value == vs);
        match self.ground.known_on_board(value).filter(|_| is_known) {
            None => {
                self.first = self.executed;
                self.ground.set_vs(value)?;
                self.ground.init_unlock()?;
            }
            Some(known) if self.first + known as usize == self.executed => {
                self.first += self.ground.resume(value)? as usize;
            }
            Some(_) if self.has_disagreed => return Err("telemetry does not agree: a person decides".into()),
            Some(_) => {
                self.has_disagreed = true;
                self.stop(true);
                return Ok(());
            }
        }
        (self.is_stopped, self.is_known, self.has_disagreed) = (false, true, false);
        Ok(())
    }

    /// Submits as many commands as the queue takes, and sends the frames that are to be sent now.
    fn send(&mut self) -> Outcome<()> {
        if self.is_stopped {
            return Ok(());
        }
        let next = if self.is_open { self.first + self.ground.submitted() as usize } else { COMMANDS };
        for command in self.commands.iter().skip(next) {
            match self.ground.submit(MAP, command) {
                Ok(_) => {}
                Err(LinkFault::QueueFull) => break,
                Err(fault) => return Err(fault.into()),
            }
        }
        for frame in self.ground.frames() {
            self.up.write_all(&frame?)?;
            self.silence = 0;
        }
        Ok(())
    }
}

/// Forwards what arrives: a letter, then a CLCW, or two numbers of four octets.
fn listen(mut down: TcpStream, events: &Sender<Event>) -> Outcome<()> {
    loop {
        let (mut kind, mut word) = ([0], [0; 4]);
        down.read_exact(&mut kind)?;
        down.read_exact(&mut word)?;
        let mut event = Event::Word(word);
        if kind == *b"H" {
            let boots = u32::from_be_bytes(word);
            down.read_exact(&mut word)?;
            event = Event::Housekeeping { boots, executed: u32::from_be_bytes(word) as usize };
        }
        events.send(event)?;
    }
}

/// Submits a command each millisecond.
fn submit(events: &Sender<Event>) -> Outcome<()> {
    for count in 0..COMMANDS {
        let (kind, flags) = (PacketKind::Telecommand, SequenceFlags::Unsegmented);
        let packet = Packet { kind, secondary: false, apid: 5, flags, count: count as u16, data: b"command" };
        events.send(Event::Submit(packet.encode(&mut [0; 64])?.to_vec()))?;
        thread::sleep(Duration::from_millis(1));
    }
    Ok(())
}

// ---- The front end and the spacecraft. ----

/// A direction of the link: what is sent arrives later, in order, or is lost (three of a hundred, by a Lehmer
/// generator).
struct Way {
    random: u64,
    queue: VecDeque<(Instant, Vec<u8>)>,
    is_dark: bool,
}

impl Way {
    fn new(random: u64) -> Self {
        Self { random, queue: VecDeque::new(), is_dark: false }
    }

    fn send(&mut self, octets: Vec<u8>) {
        self.random = self.random * 48271 % 2147483647;
        if !self.is_dark && self.random % 100 >= 3 {
            let at = Instant::now() + Duration::from_millis(15 + self.random % 16);
            self.queue.push_back((self.queue.back().map_or(at, |last| at.max(last.0)), octets));
        }
    }

    fn arrived(&mut self) -> Option<Vec<u8>> {
        let is_due = self.queue.front().is_some_and(|it| it.0 <= Instant::now());
        if is_due {
            self.queue.pop_front().map(|it| it.1)
        } else {
            None
        }
    }
}

/// What a ground sees of the link: both directions, and the spacecraft with the counts of the commands it executed.
struct FrontEnd {
    spacecraft: Spacecraft,
    boots: u32,
    executed: Vec<u16>,
    /// For how many CLCWs the link will be dark.
    dark: u32,
    up: Way,
    down: Way,
}

impl FrontEnd {
    /// Runs until the ground is gone. Returns the counts of the commands that were executed.
    fn run(mut self, mut stream: TcpStream, frames: &Receiver<Vec<u8>>) -> Outcome<Vec<u16>> {
        let (mut clock, mut turn) = (Instant::now() + REPORT, 0u32);
        loop {
            match frames.recv_timeout(Duration::from_millis(1)) {
                Ok(frame) => self.up.send(frame),
                Err(RecvTimeoutError::Timeout) => {}
                Err(RecvTimeoutError::Disconnected) => return Ok(self.executed),
            }
            while let Some(frame) = self.up.arrived() {
                self.spacecraft.receive(&frame)?;
            }
            if clock <= Instant::now() {
                (clock, turn) = (clock + REPORT, turn + 1);
                self.report(turn)?;
            }
            while let Some(octets) = self.down.arrived() {
                // A ground that has ended takes no more.
                stream.write_all(&octets).ok();
            }
        }
    }

    /// Executes what is ready, and sends a CLCW, and in each tenth turn housekeeping.
    fn report(&mut self, turn: u32) -> Outcome<()> {
        while let Some((_, packet)) = self.spacecraft.take()? {
            self.executed.push(Packet::decode(&packet)?.count);
            if self.boots == 0 && self.executed.len() == 2 * COMMANDS / 3 {
                self.restart()?;
            }
        }
        let is_dark = self.dark > 0 && self.executed.len() >= COMMANDS / 3;
        self.dark -= u32::from(is_dark);
        (self.up.is_dark, self.down.is_dark) = (is_dark, is_dark);
        self.down.send([&b"C"[..], &self.spacecraft.control_word().encode()?].concat());
        if turn % 10 == 0 {
            let executed = (self.executed.len() as u32).to_be_bytes();
            self.down.send([&b"H"[..], &self.boots.to_be_bytes(), &executed].concat());
        }
        Ok(())
    }

    /// Opens a new node, which has nothing of the old one. It begins in Lockout, so that its CLCWs are not believed.
    fn restart(&mut self) -> Outcome<()> {
        (self.spacecraft, self.boots) = (Spacecraft::new(&config())?, self.boots + 1);
        let segment = Segment { flags: SegmentFlags::Alone, map: MAP, data: b"." };
        let outside = TcFrame { scid: 42, vcid: 2, body: Body::Ad { n: 128, segment } };
        self.spacecraft.receive(outside.encode(Fecf::Present, &mut [0; TcFrame::LONGEST])?)?;
        Ok(())
    }
}

/// Forwards the frames that the ground sends, each as long as it declares.
fn receive(mut stream: TcpStream, frames: &Sender<Vec<u8>>) -> Outcome<()> {
    loop {
        let mut frame = vec![0; 5];
        stream.read_exact(&mut frame)?;
        frame.resize(TcFrame::declared(&frame, Fecf::Present)?, 0);
        stream.read_exact(&mut frame[5..])?;
        frames.send(frame)?;
    }
}

fn main() -> Outcome<()> {
    let listener = TcpListener::bind("127.0.0.1:0")?;
    let up = TcpStream::connect(listener.local_addr()?)?;
    let (theirs, _) = listener.accept()?;
    let ((came, frames), (events, waiting)) = (channel(), channel());
    let (up_there, down, submitting) = (theirs.try_clone()?, up.try_clone()?, events.clone());
    let (spacecraft, executed) = (Spacecraft::new(&config())?, Vec::new());
    let front = FrontEnd { spacecraft, boots: 0, executed, dark: 120, up: Way::new(1), down: Way::new(2) };
    thread::spawn(move || receive(up_there, &came));
    let front = thread::spawn(move || front.run(theirs, &frames));
    thread::spawn(move || listen(down, &events));
    thread::spawn(move || submit(&submitting));
    let (commands, first, silence, alerts) = (Vec::new(), 0, 0, Vec::new());
    let (is_stopped, is_set, is_open, is_known, has_disagreed) = (true, false, false, false, false);
    let (word, boots, executed) = (None, None, 0);
    let ground = Ground::new(&config())?;
    let mut station = Station {
        ground,
        up,
        commands,
        first,
        silence,
        is_stopped,
        is_set,
        is_open,
        is_known,
        word,
        has_disagreed,
        boots,
        executed,
        alerts,
    };
    station.run(&waiting)?;
    station.up.shutdown(Shutdown::Both)?;
    let executed = front.join().map_err(|_| "the front end stopped")??;
    station.alerts.sort_by_key(|it| it.number());
    station.alerts.dedup();
    for alert in &station.alerts {
        let way =
            if alert.shows_a_broken_condition() { "begin anew, by telemetry" } else { "go on by resume" };
        println!("alert {}: {way}", alert.name());
    }
    if !executed.iter().map(|it| usize::from(*it)).eq(0..COMMANDS) {
        return Err(format!("not each once, in order: {executed:?}").into());
    }
    println!("{} commands are executed: each once, in order", executed.len());
    Ok(())
}
