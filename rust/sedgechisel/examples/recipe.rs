//! Recovers after alerts and resets (docs/CONTROL.md, "After an alert", "After a reset") over random links, until that
//! many sessions have begun: `recipe SESSIONS`. Frames are delayed and lost; in some runs they overtake each other, and
//! in some the spacecraft restarts. In some the ground is lost at times, and another one continues from its record, or
//! from an older record (docs/CONTROL.md, "The ground fails over"). On board each packet must be the next one that was
//! wanted on its MAP: none is repeated, and none that was counted as on board is left out. recipe.c and recipe.py do
//! the same, and write the same lines. A second argument omits a step, and a check then fails. With `early` it believes
//! the first CLCW after an alert, whenever that was made, and begins a session with it even if the ground refuses. With
//! `numbers` it uses only the numbers of the ground and of the CLCW, whatever the alert shows, and whether or not the
//! spacecraft has restarted.

use sedgechisel::*;
use std::collections::VecDeque;
use std::env;
use std::error::Error;
use std::process::exit;

type Outcome = Result<(), Box<dyn Error>>;

const PACKETS: usize = 12;
const SLOWEST: u32 = 4;
const LONGEST: u8 = 30;
const LONGEST_RUN: i64 = 600;

/// The numbers that all runs share: the state of the random draws, and the totals.
struct Totals {
    state: u32,
    sessions: u64,
    is_early: bool,
    by_numbers: bool,
    begun: u64,
    alerts: u64,
    taken: u64,
    ticks: u64,
}

impl Totals {
    /// A number below this one, which is at most 256.
    fn draw(&mut self, below: u32) -> u8 {
        self.state = self.state.wrapping_mul(1_664_525).wrapping_add(1_013_904_223);
        ((self.state >> 16) % below) as u8
    }

    fn wrong(&self, what: &str) -> ! {
        println!("after {} sessions: {what}", self.begun);
        exit(1)
    }
}

/// One direction: frames arrive within `delay` ticks, in order unless it swaps them, or are lost.
struct Way {
    delay: u8,
    losses: u8,
    swaps: bool,
    last: i64,
    frames: VecDeque<(i64, Vec<u8>)>,
}

impl Way {
    fn new(all: &mut Totals, delay: u8) -> Way {
        let (losses, swaps) = (all.draw(5), all.draw(6) == 0);
        Way { delay, losses, swaps, last: 0, frames: VecDeque::new() }
    }

    fn send(&mut self, all: &mut Totals, now: i64, frame: Vec<u8>) {
        let soonest = now + 1 + i64::from(all.draw(self.delay.into()));
        self.last = if self.swaps { soonest } else { self.last.max(soonest) };
        if all.draw(10) >= self.losses {
            let at = self.frames.partition_point(|it| it.0 <= self.last);
            self.frames.insert(at, (self.last, frame));
        }
    }

    fn arrived(&mut self, now: i64) -> Option<Vec<u8>> {
        self.frames.front().filter(|it| it.0 <= now)?;
        self.frames.pop_front().map(|it| it.1)
    }
}

/// What the spacecraft states in a packet of each telemetry frame: how often it was started, how many packets are on
/// board, and how many of these were taken.
#[derive(Clone, Copy, Default)]
struct Board {
    starts: u8,
    whole: u8,
    taken: u8,
}

/// Two new nodes over a link, and packets that are wanted on board, each with its MAP.
struct Run {
    ground: Ground,
    spacecraft: Spacecraft,
    up: Way,
    down: Way,
    pause: u8,
    packets: Vec<(u8, Vec<u8>)>,
    /// Whether a session has begun; whether a condition was broken since, so that nothing is known of it.
    has_begun: bool,
    is_broken: bool,
    /// The tick since which nothing was sent up.
    quiet: i64,
    submitted: usize,
    /// How many packets earlier sessions have brought on board.
    done: usize,
    /// Whether the spacecraft restarts at times; how often it was started; and what telemetry has shown of that.
    restarts: bool,
    starts: u8,
    heard_of: Board,
    taken: [usize; 2],
    /// Whether the ground is lost at times; whether its record is stored seldom; and whether the ground was opened from
    /// such a record.
    fails: bool,
    is_late: bool,
    is_old: bool,
    stored: KeptGround,
    config: Config,
}

impl Run {
    fn new(all: &mut Totals) -> Result<Run, Box<dyn Error>> {
        let window = 1 + all.draw(8);
        let width = 2 * window + 2 * all.draw(4);
        let limit = 1 + all.draw(4);
        let part = if all.by_numbers { LONGEST } else { 4 + all.draw(24) };
        let ready_slots = 1 + all.draw(4);
        let delay = 1 + all.draw(SLOWEST);
        let timer = 2 * delay + 1 + all.draw(3);
        let (queue_slots, frame_length) = (500, 32);
        let config = Config {
            width,
            window,
            limit,
            timer: u16::from(timer),
            part: u16::from(part),
            ready_slots,
            queue_slots,
            frame_length,
            ..Config::default()
        };
        let (up, down) = (Way::new(all, delay), Way::new(all, delay));
        let pause = 1 + all.draw(3);
        let restarts = all.draw(3) == 0;
        let (fails, is_late) = (all.draw(3) == 0, all.draw(3) == 0);
        let mut packets = Vec::new();
        for k in 0..PACKETS as u8 {
            let (map, length) = (4 + all.draw(2), 1 + all.draw(24));
            let mut octets = vec![0x10, 5, 0xc0, k, 0, length - 1];
            octets.resize(6 + usize::from(length), k);
            packets.push((map, octets));
        }
        let (ground, spacecraft) = (Ground::new(&config)?, Spacecraft::new(&config)?);
        Ok(Run {
            stored: ground.kept(),
            ground,
            spacecraft,
            up,
            down,
            pause,
            packets,
            has_begun: false,
            is_broken: false,
            quiet: -99,
            submitted: 0,
            done: 0,
            restarts,
            starts: 0,
            heard_of: Board::default(),
            taken: [0; 2],
            fails,
            is_late,
            is_old: false,
            config,
        })
    }

    fn taken(&self) -> usize {
        self.taken.iter().sum()
    }

    /// Restarts the spacecraft: what was not taken is lost. It begins in Lockout, by a frame whose number is in neither
    /// window, so that no CLCW of the new receiver is believed.
    fn restart(&mut self) -> Outcome {
        self.spacecraft = Spacecraft::new(&self.config)?;
        let segment = Segment { flags: SegmentFlags::Alone, map: 0, data: &[0] };
        let frame = TcFrame { scid: 1, vcid: 2, body: Body::Ad { n: 128, segment } };
        let mut room = [0; 16];
        let own = frame.encode(Fecf::Present, &mut room)?;
        let Received::Sequence { verdict: Verdict::Outside, .. } = self.spacecraft.receive(own)? else {
            return Err("it begins in Lockout".into());
        };
        self.starts += 1;
        Ok(())
    }

    /// Stores the ground's record; in some runs an older record stays.
    fn store(&mut self, all: &mut Totals) {
        if !self.is_late || all.draw(8) == 0 {
            self.stored = self.ground.kept();
        }
    }

    /// Replaces the lost ground by another one; a round trip must pass from now on.
    fn fail_over(&mut self, now: i64) -> Outcome {
        self.ground = Ground::open_at(&self.config, &self.stored)?;
        (self.is_old, self.quiet) = (self.is_late, now);
        Ok(())
    }

    /// Sends the next telemetry frame: a CLCW, and next to it what the spacecraft states.
    fn report(&mut self, all: &mut Totals, now: i64) -> Outcome {
        let taken = u8::try_from(self.taken())?;
        let whole = taken + u8::try_from(self.spacecraft.ready())?;
        self.spacecraft.telemetry(&[0, 1, 0xc0, 0, 0, 2, self.starts, whole, taken])?;
        let mut room = [0; TmFrame::LONGEST];
        let frame = self.spacecraft.telemetry_frame(&mut room).to_vec();
        self.down.send(all, now, frame);
        Ok(())
    }

    /// Takes a packet on board, which must be the next of its MAP. Returns whether there was one.
    fn take(&mut self, all: &mut Totals) -> Result<bool, Box<dyn Error>> {
        let Some(packet) = self.spacecraft.take()? else {
            return Ok(false);
        };
        let taken = &mut self.taken[usize::from(packet.0 - 4)];
        let mut wanted = self.packets.iter().filter(|it| it.0 == packet.0);
        if wanted.nth(*taken) != Some(&packet) {
            all.wrong("a packet came that is not the next one");
        }
        *taken += 1;
        all.taken += 1;
        Ok(true)
    }

    /// Begins the next session from the point that the last one reached.
    fn resume(&mut self, all: &mut Totals, value: u8, board: Board) -> Outcome {
        let known = self.ground.known_on_board(value);
        let is_as_said = known.is_some_and(|it| self.done as u64 + it == u64::from(board.whole));
        if self.is_old && !is_as_said {
            // start afresh
            self.done = board.whole.into();
            return self.begin_first(all, value);
        }
        let Ok(whole) = self.ground.resume(value) else {
            if !all.is_early {
                all.wrong("nothing is known of how far the session has come");
            }
            return self.begin_first(all, value);
        };
        assert_eq!(known, Some(whole));
        self.done += usize::try_from(whole)?;
        if !all.is_early && self.done != usize::from(board.whole) {
            all.wrong("it is not what the spacecraft says");
        }
        Ok(())
    }

    /// Begins a session by an initiation, if nothing is known of an earlier one. If frames overtake each other, no
    /// number is chosen, because a CLCW of the earlier session might arrive later.
    fn begin_first(&mut self, all: &mut Totals, value: u8) -> Outcome {
        let how = all.draw(4);
        if how == 0 && !self.down.swaps {
            self.ground.init_set_vr(all.draw(256))?;
            return Ok(());
        }
        self.ground.set_vs(value)?;
        if how == 1 {
            self.ground.init_with_check()?;
        } else {
            self.ground.init_unlock()?;
        }
        Ok(())
    }

    /// Begins a session with the value of a CLCW, and with what the spacecraft stated next to it.
    fn begin(&mut self, all: &mut Totals, value: u8, board: Board) -> Outcome {
        if all.by_numbers {
            // each packet is one segment
            self.done += usize::try_from(self.ground.acknowledged_whole())?;
            self.done += usize::from(self.ground.accepted_beyond(value).unwrap_or(0));
            self.begin_first(all, value)?;
        } else if self.is_broken || !self.has_begun {
            self.begin_first(all, value)?;
            self.done = board.whole.into();
        } else {
            self.resume(all, value, board)?;
        }
        (self.has_begun, self.is_broken, self.is_old, self.submitted) = (true, false, false, self.done);
        all.begun += 1;
        if all.begun % 1000 == 0 {
            println!(
                "{} sessions: {} alerts, {} packets, {} ticks",
                all.begun, all.alerts, all.taken, all.ticks
            );
        }
        Ok(())
    }

    /// Takes an alert. If it shows a broken condition, nothing is known of the session from then on.
    fn see(&mut self, all: &mut Totals, alert: Option<Alert>) {
        all.alerts += u64::from(alert.is_some());
        if alert.is_some_and(|it| it.shows_a_broken_condition()) {
            self.is_broken = true;
            if self.ground.resume(self.ground.nn()).is_ok() {
                all.wrong("it resumes after such an alert");
            }
        }
    }

    /// Takes what the spacecraft states. If it has restarted, the session ends, and nothing is known of the session; a
    /// round trip must pass from now on.
    fn take_telemetry(&mut self, all: &Totals, now: i64) -> Result<Board, Box<dyn Error>> {
        let packet = self.ground.take_telemetry()?.ok_or("a frame without its packet")?;
        let board = Board { starts: packet[6], whole: packet[7], taken: packet[8] };
        if board.starts > self.heard_of.starts && !all.by_numbers {
            (self.is_broken, self.quiet) = (true, now);
            if self.ground.state() != FopState::S6 {
                self.ground.terminate()?;
            }
        }
        if (board.starts, board.taken) > (self.heard_of.starts, self.heard_of.taken) {
            self.heard_of = board;
        }
        Ok(board)
    }

    fn hear(&mut self, all: &mut Totals, frame: &[u8], now: i64) -> Outcome {
        let Heard::Frame { report: HeardReport::Used, alert, .. } = self.ground.telemetry(frame)? else {
            all.wrong("a report was not used")
        };
        self.see(all, alert);
        let board = self.take_telemetry(all, now)?;
        if alert.is_some() || self.ground.state() != FopState::S6 {
            return Ok(());
        }
        let report = self.ground.clcw_in(frame).ok_or("a frame without a report")?;
        if all.is_early || now - self.quiet > 2 * i64::from(self.up.delay) {
            self.begin(all, report.value, board)?;
        }
        Ok(())
    }

    fn submit_and_send(&mut self, all: &mut Totals, now: i64) -> Outcome {
        for (map, octets) in &self.packets[self.submitted..] {
            self.ground.submit(*map, octets)?;
        }
        self.submitted = PACKETS;
        let mut room = [0; TcFrame::LONGEST];
        while let Some(frame) = self.ground.pull(&mut room) {
            self.quiet = now;
            let frame = frame.to_vec();
            self.store(all);
            self.up.send(all, now, frame);
        }
        Ok(())
    }

    fn tick(&mut self, all: &mut Totals, now: i64) -> Outcome {
        while let Some(frame) = self.up.arrived(now) {
            self.spacecraft.receive(&frame)?;
        }
        while all.draw(self.pause.into()) == 0 && self.take(all)? {}
        if self.restarts && all.draw(60) == 0 {
            self.restart()?;
        }
        if self.fails && all.draw(60) == 0 {
            self.fail_over(now)?;
        }
        self.report(all, now)?;
        while let Some(frame) = self.down.arrived(now) {
            self.hear(all, &frame, now)?;
            self.store(all);
        }
        all.alerts += u64::from(self.ground.tick().is_some());
        if all.draw(50) == 0 && self.ground.state() != FopState::S6 {
            self.ground.terminate()?;
            all.alerts += 1;
        }
        if self.ground.state() != FopState::S6 {
            self.submit_and_send(all, now)?;
        }
        Ok(())
    }

    /// Continues until telemetry shows that all packets were taken, or to the longest run. What was counted as on
    /// board has then arrived, unless telemetry has not shown a restart yet, or the ground uses an old record.
    fn play(&mut self, all: &mut Totals) -> Outcome {
        for now in 0..LONGEST_RUN {
            if usize::from(self.heard_of.taken) == PACKETS || all.begun >= all.sessions {
                break;
            }
            all.ticks += 1;
            self.tick(all, now)?;
        }
        while self.take(all)? {}
        let is_known = !self.is_broken && !self.is_old && self.starts == self.heard_of.starts;
        let acknowledged = usize::try_from(self.ground.acknowledged_whole())?;
        let done = if is_known { self.done + acknowledged } else { self.heard_of.taken.into() };
        if self.taken() < done {
            all.wrong("a packet that was said to be on board did not come");
        }
        Ok(())
    }
}

fn main() -> Outcome {
    let words: Vec<String> = env::args().collect();
    let sessions = words.get(1).ok_or("recipe SESSIONS [early|numbers]")?.parse()?;
    let is_early = words.get(2).is_some_and(|it| it == "early");
    let by_numbers = words.get(2).is_some_and(|it| it == "numbers");
    let mut all =
        Totals { state: 0, sessions, is_early, by_numbers, begun: 0, alerts: 0, taken: 0, ticks: 0 };
    while all.begun < all.sessions {
        Run::new(&mut all)?.play(&mut all)?;
    }
    Ok(())
}
