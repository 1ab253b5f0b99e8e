//! A ground over UDP whose commands are executed on board once and in order. Its store is a file, and it may be killed
//! at any time: start it again with the same file, and it continues. `commander ground STORE BOARD COUNT` gives COUNT
//! commands to the board at the address BOARD, writes a line for each report, and ends when each command has its fate.
//!
//! Without arguments, the program shows this over a link that loses frames. The ground is a process of its own, which is
//! killed after each twelfth command. A thread stands in for the front end and the board; the board is killed twice,
//! once during an execution. Only std is needed.

use sedgechisel::{Commander, CommanderAction, Config, Executor, LogAction, Mission, Packet, PacketKind};
use sedgechisel::{SequenceFlags, Spacecraft, TcFrame, TmFrame};
use std::collections::BTreeMap;
use std::env;
use std::error::Error;
use std::fs::{self, File, OpenOptions};
use std::io::{self, ErrorKind, Seek, SeekFrom, Write};
use std::net::UdpSocket;
use std::path::{Path, PathBuf};
use std::process::{self, Child, Command, Stdio};
use std::sync::mpsc::{channel, Sender};
use std::thread;
use std::time::{Duration, Instant};

type Outcome<T> = Result<T, Box<dyn Error + Send + Sync>>;

const MISSION: Mission = Mission { round_trip: 5, orders: 1, status: 2, map: 0, holds: false };
const MAP: u8 = 4;
const APID: u16 = 5;

/// The ground's clock, and the time between telemetry frames.
const TICK: Duration = Duration::from_millis(10);
const REPORT: Duration = Duration::from_millis(5);

fn config() -> Config {
    Config { scid: 42, window: 20, limit: 3, timer: 12, ..Config::default() }
}

// ---- The ground. ----

/// The store in a file. Only one program at a time may use it.
struct Store {
    path: PathBuf,
    file: File,
}

impl Store {
    /// Reads the store, and cuts off what a killed program left of an entry.
    fn open(path: &Path) -> Outcome<(Commander, Self)> {
        let octets = match fs::read(path) {
            Err(fault) if fault.kind() == ErrorKind::NotFound => Vec::new(),
            read => read?,
        };
        let (commander, good) = Commander::open(&config(), &MISSION, &octets)?;
        let file = OpenOptions::new().write(true).create(true).truncate(false).open(path)?;
        file.set_len(good as u64)?;
        let mut store = Self { path: path.into(), file };
        store.is_there()?;
        Ok((commander, store))
    }

    /// Makes sure that the file is on the disk under its name, and that octets are written at its end.
    fn is_there(&mut self) -> io::Result<()> {
        self.file.seek(SeekFrom::End(0))?;
        self.file.sync_all()?;
        if cfg!(unix) {
            let folder = self.path.parent().filter(|it| !it.as_os_str().is_empty());
            File::open(folder.unwrap_or(Path::new(".")))?.sync_all()?;
        }
        Ok(())
    }

    fn append(&mut self, octets: &[u8]) -> io::Result<()> {
        self.file.write_all(octets)?;
        self.file.sync_data()
    }

    /// Replaces the store. At each moment the file is the old store or the new one.
    fn replace(&mut self, octets: &[u8]) -> io::Result<()> {
        let path = self.path.with_extension("new");
        self.file = File::create(&path)?;
        self.append(octets)?;
        fs::rename(path, &self.path)?;
        self.is_there()
    }
}

/// Completes what is due: a report is a line.
fn act(commander: &mut Commander, store: &mut Store, board: &UdpSocket) -> Outcome<()> {
    while let Some(due) = commander.next()? {
        match due.action() {
            CommanderAction::Store(octets) => store.append(octets)?,
            // If the frame is not sent, it is lost, and COP-1 sends it again.
            CommanderAction::Send(frame) => drop(board.send(frame)),
            CommanderAction::Telemetry(_) | CommanderAction::Alert(_) => {}
            CommanderAction::Executed(tag) => println!("{tag} executed"),
            CommanderAction::Unknown(tag) => println!("{tag} unknown"),
            CommanderAction::Restarted(boot) => println!("the board has started: {boot}"),
            CommanderAction::RecordLost(mark) => println!("the board has lost its record: {mark}"),
            CommanderAction::Foreign(first, last) => println!("another ground's commands: {first} to {last}"),
        }
        due.done()?;
    }
    if commander.is_worth() {
        let fresh = commander.fresh()?;
        store.replace(&fresh)?;
        commander.renewed(fresh.len());
    }
    Ok(())
}

fn ground(path: &Path, board: &str, count: u32) -> Outcome<()> {
    let socket = UdpSocket::bind("0.0.0.0:0")?;
    socket.connect(board)?;
    let (mut commander, mut store) = Store::open(path)?;
    let (mut clock, mut room) = (Instant::now(), [0; TmFrame::LONGEST]);
    loop {
        // A command whose number is in the store has been given already.
        for number in commander.highest() + 1..=count {
            let sequence = number as u16 % 16384;
            commander.command(number.into(), MAP, APID, sequence, b"command")?;
        }
        act(&mut commander, &mut store, &socket)?;
        if commander.below() >= count {
            return Ok(());
        }
        let wait = clock.saturating_duration_since(Instant::now());
        if wait.is_zero() {
            clock = Instant::now() + TICK;
            commander.tick();
            // An empty datagram shows the front end where the ground is.
            socket.send(&[]).ok();
            continue;
        }
        socket.set_read_timeout(Some(wait))?;
        // If nothing arrives in time, it is time for a tick.
        if let Ok(count) = socket.recv(&mut room) {
            commander.telemetry(&room[..count])?;
        }
    }
}

// ---- The front end and the board. ----

/// A front end that loses frames, and a board behind it. The places survive when the board is killed.
struct Board {
    socket: UdpSocket,
    node: Spacecraft,
    executor: Executor,
    places: [[u8; Executor::RECORD]; 2],
    starts: u32,
    random: u64,
    executes: Sender<u32>,
    executed: u32,
}

impl Board {
    fn new(socket: UdpSocket, executes: Sender<u32>) -> Outcome<Self> {
        let places = [Executor::new_record(); 2];
        let executor = Executor::start(&places[0], &places[1], 1);
        let node = Spacecraft::new(&config())?;
        Ok(Self { socket, node, executor, places, starts: 1, random: 1, executes, executed: 0 })
    }

    fn run(mut self) -> Outcome<()> {
        let (mut clock, mut room, mut ground) = (Instant::now(), [0; TcFrame::LONGEST], None);
        self.socket.set_read_timeout(Some(Duration::from_millis(1)))?;
        loop {
            if let Ok((count, from)) = self.socket.recv_from(&mut room) {
                ground = Some(from);
                if count > 0 && !self.is_lost() {
                    self.node.receive(&room[..count])?;
                }
            }
            while self.act()? {}
            if clock <= Instant::now() {
                clock = Instant::now() + REPORT;
                let mut frame = [0; TmFrame::LONGEST];
                let frame = self.report(&mut frame)?;
                if let Some(ground) = ground.filter(|_| !self.is_lost()) {
                    // A ground that was killed takes no more.
                    self.socket.send_to(frame, ground).ok();
                }
            }
        }
    }

    /// Of a hundred frames five are lost, by a Lehmer generator.
    fn is_lost(&mut self) -> bool {
        self.random = self.random * 48271 % 2147483647;
        self.random % 100 < 5
    }

    fn restart(&mut self) -> Outcome<()> {
        self.starts += 1;
        self.node = Spacecraft::new(&config())?;
        self.executor = Executor::start(&self.places[0], &self.places[1], self.starts);
        Ok(())
    }

    /// Completes what is due, or takes a packet that waits. Returns false if there is neither.
    fn act(&mut self) -> Outcome<bool> {
        let Some(due) = self.executor.next() else { return self.take() };
        match due.action() {
            LogAction::Write(place, octets) => self.places[*place as usize] = *octets,
            LogAction::Execute(40) | LogAction::Restart => {
                self.restart()?; // killed before command 40 is executed
                return Ok(true);
            }
            LogAction::Execute(number) => {
                self.executes.send(*number)?;
                self.executed += 1;
            }
        }
        due.done();
        Ok(true)
    }

    fn take(&mut self) -> Outcome<bool> {
        if self.executed == 25 && self.starts == 1 {
            self.restart()?; // killed between two commands
        } else if let Some((_, order)) = self.node.take_bypass()? {
            self.executor.obey(&order).ok();
        } else if let Some((_, command)) = self.node.take()? {
            self.executor.offer(&command).ok();
        } else {
            return Ok(false);
        }
        Ok(true)
    }

    /// The next telemetry frame, with a status.
    fn report<'o>(&mut self, frame: &'o mut [u8; TmFrame::LONGEST]) -> Outcome<&'o [u8]> {
        let status = self.executor.status(self.node.ready());
        let (kind, flags) = (PacketKind::Telemetry, SequenceFlags::Unsegmented);
        let packet = Packet { kind, secondary: false, apid: MISSION.status, flags, count: 0, data: &status };
        self.node.telemetry(packet.encode(&mut [0; 6 + Executor::STATUS])?)?;
        Ok(self.node.telemetry_frame(frame))
    }
}

// ---- What it shows. ----

const COMMANDS: u32 = 60;

/// What was executed on board, and what the ground has reported.
#[derive(Default)]
struct Seen {
    executed: Vec<u32>,
    fates: BTreeMap<u32, String>,
    killed: u32,
}

impl Seen {
    /// Takes the reports of a ground that has ended. A report that is made again is the same.
    fn reported(&mut self, ground: Child) -> Outcome<()> {
        let written = ground.wait_with_output()?.stdout;
        for line in String::from_utf8(written)?.lines() {
            let Some((number, fate)) = line.split_once(' ') else { continue };
            let Ok(number) = number.parse() else { continue };
            if self.fates.insert(number, fate.into()).is_some_and(|it| it != fate) {
                return Err(format!("the fate of {number} has changed").into());
            }
        }
        Ok(())
    }

    fn all(&self) -> Outcome<()> {
        let is_once = self.executed.windows(2).all(|it| it[0] < it[1]);
        let told =
            |fate: &str| self.fates.iter().filter(|it| it.1 == fate).map(|it| *it.0).collect::<Vec<_>>();
        if !is_once || told("executed") != self.executed || self.fates.len() != COMMANDS as usize {
            return Err(format!("executed: {:?}, reported: {:?}", self.executed, self.fates).into());
        }
        println!("the ground was killed {} times", self.killed);
        println!("{} commands were executed and reported: each once, in order", self.executed.len());
        println!("reported as unknown, since the board was killed meanwhile: {:?}", told("unknown"));
        Ok(())
    }
}

fn show(folder: &Path) -> Outcome<()> {
    let socket = UdpSocket::bind("127.0.0.1:0")?;
    let (address, (executes, executed)) = (socket.local_addr()?.to_string(), channel());
    let board = Board::new(socket, executes)?;
    let board = thread::spawn(move || board.run());
    let start = || {
        let mut ground = Command::new(env::current_exe()?);
        ground.arg("ground").arg(folder.join("store")).args([&address, &COMMANDS.to_string()]);
        ground.stdout(Stdio::piped()).spawn()
    };
    let (mut seen, mut child) = (Seen::default(), start()?);
    loop {
        if let Ok(number) = executed.recv_timeout(TICK) {
            seen.executed.push(number);
            if seen.executed.len() % 12 == 0 {
                child.kill()?;
                seen.reported(child)?;
                (seen.killed, child) = (seen.killed + 1, start()?);
            }
        } else if board.is_finished() {
            child.kill()?;
            return board.join().map_err(|_| "the board stopped")?;
        } else if child.try_wait()?.is_some() {
            seen.reported(child)?;
            return seen.all();
        }
    }
}

fn main() -> Outcome<()> {
    let words: Vec<_> = env::args().skip(1).collect();
    match &*words.iter().map(String::as_str).collect::<Vec<_>>() {
        ["ground", store, board, count] => ground(Path::new(store), board, count.parse()?),
        [] => {
            let folder = env::temp_dir().join(format!("sedgechisel-{}", process::id()));
            fs::create_dir(&folder)?;
            let shown = show(&folder);
            fs::remove_dir_all(&folder)?;
            shown
        }
        _ => Err("usage: commander [ground STORE BOARD COUNT]".into()),
    }
}
