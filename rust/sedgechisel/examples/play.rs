//! Runs a script of the simulated link with the crate sedgechisel, and writes the lines of `tctool sim`: `play link`
//! with its simulated link; `play nodes` with its two nodes and a link of this program, without the lines of `show`.
//! The script is standard input. tests/session/script wrote it, so no line of it is unreadable.

use sedgechisel::*;
use std::collections::VecDeque;
use std::env;
use std::error::Error;
use std::fmt::Display;
use std::io::{self, BufRead, BufWriter, Write};

/// The answer to an event, or why it is refused.
type Answer = Result<String, String>;

/// What runs the events: two nodes, or a simulated link.
trait Ends {
    fn calls(&mut self, words: &[&str]) -> Answer;
    fn send(&mut self) -> Answer;
    fn report(&mut self) -> Answer;
    fn up(&mut self, how: &[&str]) -> Answer;
    fn down(&mut self, how: &[&str]) -> Answer;
    fn show(&self) -> Answer;

    fn answer(&mut self, words: &[&str]) -> Answer {
        match *words {
            ["send"] => self.send(),
            ["report"] => self.report(),
            ["up", ref how @ ..] => self.up(how),
            ["down", ref how @ ..] => self.down(how),
            ["show"] => self.show(),
            _ => self.calls(words),
        }
    }
}

/// The calls that the nodes and the link share: `$ground` has the ground's, and `$spacecraft` the spacecraft's.
macro_rules! calls {
    ($words:expr, $ground:expr, $spacecraft:expr) => {
        match *$words {
            ["submit", map, digits] => done($ground.submit(number(map), &octets_of(digits))),
            ["bypass", map, digits] => done($ground.bypass(number(map), &octets_of(digits))),
            ["telemetry", digits] => done($spacecraft.telemetry(&octets_of(digits))),
            ["terminate"] => match $ground.terminate() {
                Ok(()) => Ok(format!("alert {}", Alert::Terminated.name())),
                refusal => done(refusal),
            },
            ["tick"] => Ok($ground.tick().map_or("ok".into(), |it| format!("alert {}", it.name()))),
            ["take"] => $spacecraft.take().map(packet_text).map_err(refused),
            ["takebypass"] => $spacecraft.take_bypass().map(packet_text).map_err(refused),
            ["init", "none"] => done($ground.init_without_check()),
            ["init", "check"] => done($ground.init_with_check()),
            ["init", "unlock"] => done($ground.init_unlock()),
            ["init", "set", vr] => done($ground.init_set_vr(number(vr))),
            ["vs", vs] => done($ground.set_vs(number(vs))),
            ["window", window] => done($ground.set_window(number(window))),
            ["limit", limit] => done($ground.set_limit(number(limit))),
            ["resume", value] => {
                $ground.resume(number(value)).map(|it| format!("resumed {it}")).map_err(refused)
            }
            ["timer", ticks] => done($ground.set_timer(number(ticks))),
            _ => panic!("{:?} is no event", $words),
        }
    };
}

struct Nodes {
    ground: Ground,
    spacecraft: Spacecraft,
    up: VecDeque<Vec<u8>>,
    down: VecDeque<Vec<u8>>,
}

/// The number and the name of a fault, with which its text begins.
fn refused(fault: impl Display) -> String {
    let text = fault.to_string();
    format!("refused {}", text.split(':').next().unwrap_or(&text))
}

fn done<T>(answer: Result<T, impl Display>) -> Answer {
    answer.map(|_| "ok".into()).map_err(refused)
}

fn digits_of(octets: &[u8]) -> String {
    octets.iter().map(|it| format!("{it:02X}")).collect()
}

fn octets_of(digits: &str) -> Vec<u8> {
    let digit = |it: u8| char::from(it).to_digit(16).expect("a hexadecimal digit") as u8;
    digits.as_bytes().chunks_exact(2).map(|it| digit(it[0]) << 4 | digit(it[1])).collect()
}

fn number<T: std::str::FromStr>(word: &str) -> T {
    word.parse().unwrap_or_else(|_| panic!("{word} is not a number"))
}

fn text(event: impl Display) -> String {
    event.to_string()
}

fn packet_text(taken: Option<(u8, Vec<u8>)>) -> String {
    taken.map_or("nothing".into(), |(map, packet)| format!("packet {map} {}", digits_of(&packet)))
}

/// The octets that arrive for the first frame in transit: its own, or those of a damage; none if it is lost.
fn arriving(
    way: &mut VecDeque<Vec<u8>>, how: &[&str], is_frame: impl Fn(&[u8]) -> bool,
) -> Result<Option<Vec<u8>>, String> {
    if way.is_empty() {
        return Err(refused(SimFault::NothingInTransit));
    }
    let damaged = how.get(1).map(|digits| octets_of(digits));
    if damaged.as_ref().is_some_and(|octets| is_frame(octets)) {
        return Err(refused(SimFault::NotDetectable));
    }
    let frame = way.pop_front();
    Ok(if how[0] == "lose" { None } else { damaged.or(frame) })
}

impl Ends for Nodes {
    fn calls(&mut self, words: &[&str]) -> Answer {
        calls!(words, self.ground, self.spacecraft)
    }

    fn send(&mut self) -> Answer {
        let mut room = [0; TcFrame::LONGEST];
        let Some(frame) = self.ground.pull(&mut room) else {
            return Ok("nothing".into());
        };
        self.up.push_back(frame.to_vec());
        Ok(format!("sent {}", digits_of(frame)))
    }

    fn report(&mut self) -> Answer {
        let word = self.spacecraft.control_word().encode().expect("a control word in its ranges");
        let mut room = [0; TmFrame::LONGEST];
        self.down.push_back(self.spacecraft.telemetry_frame(&mut room).to_vec());
        Ok(format!("report {}", digits_of(&word)))
    }

    fn up(&mut self, how: &[&str]) -> Answer {
        let arrived = arriving(&mut self.up, how, |octets| TcFrame::decode(octets, Fecf::Present).is_ok())?;
        let Some(octets) = arrived else {
            return Ok("lost".into());
        };
        self.spacecraft.receive(&octets).map(text).map_err(refused)
    }

    fn down(&mut self, how: &[&str]) -> Answer {
        let length = self.ground.frame_length();
        let arrived = arriving(&mut self.down, how, |octets| TmFrame::decode(octets, length).is_ok())?;
        let Some(octets) = arrived else {
            return Ok("lost".into());
        };
        if how[0] == "clcw" {
            let at = length - 6;
            let word = [octets[at], octets[at + 1], octets[at + 2], octets[at + 3]];
            return Ok(text(self.ground.clcw(&word)));
        }
        self.ground.telemetry(&octets).map(text).map_err(refused)
    }

    fn show(&self) -> Answer {
        Ok(String::new())
    }
}

impl Ends for Link {
    fn calls(&mut self, words: &[&str]) -> Answer {
        calls!(words, self, self)
    }

    fn send(&mut self) -> Answer {
        let frame = Link::send(self).map_err(refused)?;
        Ok(frame.map_or("nothing".into(), |it| format!("sent {}", digits_of(&it))))
    }

    fn report(&mut self) -> Answer {
        let word = Link::report(self).map_err(refused)?;
        Ok(format!("report {}", digits_of(&word.encode().expect("a control word in its ranges"))))
    }

    fn up(&mut self, how: &[&str]) -> Answer {
        match *how {
            ["deliver"] => self.up_deliver().map(text),
            ["lose"] => self.up_lose().map(|()| "lost".into()),
            _ => self.up_damage(&octets_of(how[1])).map(text),
        }
        .map_err(refused)
    }

    fn down(&mut self, how: &[&str]) -> Answer {
        match *how {
            ["deliver"] => self.down_deliver().map(text),
            ["lose"] => self.down_lose().map(|()| "lost".into()),
            ["clcw"] => self.down_clcw().map(text),
            _ => self.down_damage(&octets_of(how[1])).map(text),
        }
        .map_err(refused)
    }

    fn show(&self) -> Answer {
        let clean = match self.begun() {
            None => "none",
            Some(_) if self.is_clean() => "yes",
            Some(_) => "no",
        };
        let over_maps = |of: fn(u8) -> Record| (0..64).map(|map| self.record(of(map)).len()).sum::<usize>();
        Ok(format!(
            "clean={clean} state={} submitted={} delivered={} sent={} accepted={} acknowledged={} outstanding={}",
            self.state(),
            over_maps(Record::Submitted),
            over_maps(Record::Delivered),
            self.record(Record::Sent).len(),
            self.record(Record::Received).len(),
            self.acknowledged(),
            self.outstanding()
        ))
    }
}

/// The two nodes, or the simulated link.
fn begun(is_link: bool, config: &Config) -> Result<Box<dyn Ends>, OpenFault> {
    if is_link {
        return Ok(Box::new(Link::new(config)?));
    }
    let (ground, spacecraft) = (Ground::new(config)?, Spacecraft::new(config)?);
    Ok(Box::new(Nodes { ground, spacecraft, up: VecDeque::new(), down: VecDeque::new() }))
}

fn configure(config: &mut Config, name: &str, value: &str) {
    match name {
        "scid" => config.scid = number(value),
        "vcid" => config.vcid = number(value),
        "tm_vcid" => config.tm_vcid = number(value),
        "width" => config.width = number(value),
        "window" => config.window = number(value),
        "limit" => config.limit = number(value),
        "timer" => config.timer = number(value),
        "part" => config.part = number(value),
        "max_packet" => config.max_packet = number(value),
        "maps" => config.maps = number(value),
        "ready_slots" => config.ready_slots = number(value),
        "bypass_slots" => config.bypass_slots = number(value),
        "queue_slots" => config.queue_slots = number(value),
        "frame_length" => config.frame_length = number(value),
        "blocking" => config.blocking = value != "0",
        _ => panic!("{name} is no parameter"),
    }
}

fn main() -> Result<(), Box<dyn Error>> {
    let is_link = env::args().nth(1).as_deref() == Some("link");
    let mut out = BufWriter::new(io::stdout().lock());
    let (mut config, mut ends) = (Config::default(), None);
    for line in io::stdin().lock().lines() {
        let line = line?;
        let words: Vec<&str> = line.split(' ').collect();
        match words[..] {
            ["show"] if !is_link => {}
            ["config", name, value] => configure(&mut config, name, value),
            _ => {
                let ends = match &mut ends {
                    Some(ends) => ends,
                    None => ends.insert(begun(is_link, &config)?),
                };
                writeln!(out, "{}", ends.answer(&words).unwrap_or_else(|refusal| refusal))?;
            }
        }
    }
    Ok(out.flush()?)
}
