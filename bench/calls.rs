//! Successive calls of a bus, simulated by `wire.rs` and `machine.rs`. `bench/library` compares the output with that of
//! `library.c`, which reads the same scenarios and plays them with the C library. Only the standard library is used;
//! the code is written from docs/ACCESS.md and docs/BUS.md.
//!
//! A scenario on standard input consists of these lines, in the order of the calls:
//!
//!     port START QUEUE LOG           the next port, `idle` or `joining`, with the capacities of its queue and its log
//!     hold PORT COUNT                the port asks for COUNT overload frames
//!     give PORT FRAME                the port is offered a frame between two calls
//!     offer TIME PLACE FRAME         for the next call: a frame for the port at this place of its bus
//!     at TIME, in ATTEMPT OFFSET, view TIME PLACE    for the next call: a hit (an injected bit error)
//!     play BITS PORT..               a call for BITS bit times, on a bus with these ports
//!
//! The results of `give` and `play` are printed. After a call its levels and all ports follow, as `canbit run` writes
//! them.

#[path = "machine.rs"]
mod machine;
#[path = "wire.rs"]
mod wire;

use machine::{Frame, Level, Phase, Port, Recessive, State};
use std::error::Error;
use std::io::{self, Read};
use std::mem;
use std::str::FromStr;
use wire::{Bus, Hit, Offer};

type Failure = Box<dyn Error>;

/// The text before the first space, and the text after it.
fn split(text: &str) -> Result<(&str, &str), Failure> {
    Ok(text.split_once(' ').ok_or("a line is too short")?)
}

/// Two numbers.
fn pair<One, Other>(text: &str) -> Result<(One, Other), Failure>
where
    One: FromStr<Err: Error + 'static>,
    Other: FromStr<Err: Error + 'static>,
{
    let (one, other) = split(text)?;
    Ok((one.parse()?, other.parse()?))
}

/// A number, and a frame.
fn framed(text: &str) -> Result<(usize, Frame), Failure> {
    let (number, text) = split(text)?;
    Ok((number.parse()?, Frame::parse(text)?))
}

/// The ports, except those that a bus has at the moment, and the offers and hits of the next call.
#[derive(Default)]
struct Scenario {
    ports: Vec<Option<Port>>,
    offers: Vec<Offer>,
    hits: Vec<Hit>,
}

impl Scenario {
    fn read(&mut self, line: &str) -> Result<(), Failure> {
        let (word, rest) = split(line)?;
        match word {
            "port" => {
                let (start, rooms) = split(rest)?;
                let (queue, log) = pair(rooms)?;
                let phase = if start == "joining" { Phase::Joining { row: 0 } } else { Phase::Idle };
                self.ports.push(Some(Port::new(phase, queue, log)));
            }
            "hold" => {
                let (port, count) = pair(rest)?;
                self.port(port)?.controller.overloads_wanted = count;
            }
            "give" => {
                let (port, frame) = framed(rest)?;
                println!("given {}", if self.port(port)?.offer(frame) { "ok" } else { "queue full" });
            }
            "offer" => {
                let (time, rest) = split(rest)?;
                let (port, frame) = framed(rest)?;
                self.offers.push(Offer { time: time.parse()?, port, frame });
            }
            "at" => self.hits.push(Hit::At(rest.parse()?)),
            "in" => {
                let (attempt, offset) = pair(rest)?;
                self.hits.push(Hit::In { attempt, offset });
            }
            "view" => {
                let (time, node) = pair(rest)?;
                self.hits.push(Hit::View { time, node });
            }
            "play" => self.play(rest)?,
            _ => return Err("an unknown word".into()),
        }
        Ok(())
    }

    fn port(&mut self, place: usize) -> Result<&mut Port, Failure> {
        Ok(self.ports.get_mut(place).and_then(Option::as_mut).ok_or("no such port")?)
    }

    /// Makes a call, and prints its result and all ports.
    fn play(&mut self, rest: &str) -> Result<(), Failure> {
        let mut numbers = rest.split(' ').map(str::parse::<usize>);
        let bits = numbers.next().ok_or("no bit times")??;
        let places: Vec<usize> = numbers.collect::<Result<_, _>>()?;
        let (offers, hits) = (mem::take(&mut self.offers), mem::take(&mut self.hits));
        match refusal(&offers, &hits, places.len()) {
            Some(reason) => println!("answer {reason}"),
            None => self.run(bits, &places, &offers, &hits)?,
        }
        for (place, port) in self.ports.iter().flatten().enumerate() {
            print_port(place, port);
        }
        Ok(())
    }

    /// Makes a call of a new bus with the ports at these places, which are put back afterwards.
    fn run(&mut self, bits: usize, places: &[usize], offers: &[Offer], hits: &[Hit]) -> Result<(), Failure> {
        let mut ports = Vec::new();
        for &place in places {
            ports.push(self.ports[place].take().ok_or("a port is on the bus twice")?);
        }
        let mut bus = Bus::new(ports);
        let mut levels = vec![Recessive; bits];
        bus.run(hits, offers, &mut levels);
        println!("answer ok, {} refused", bus.refused);
        println!("bits {bits}\n{}", levels.into_iter().map(digit).collect::<String>());
        for (&place, port) in places.iter().zip(bus.ports) {
            self.ports[place] = Some(port);
        }
        Ok(())
    }
}

/// Why a call on this many ports is refused: the first wrong offer decides, and if there is none, the first wrong hit.
fn refusal(offers: &[Offer], hits: &[Hit], ports: usize) -> Option<&'static str> {
    let fault = |is_early: bool, strays: bool| match (is_early, strays) {
        (true, _) => Some("bad order"),
        (false, true) => Some("no such port"),
        (false, false) => None,
    };
    let of_offer = (0..offers.len()).find_map(|place| {
        let is_early = place > 0 && offers[place].time < offers[place - 1].time;
        fault(is_early, offers[place].port >= ports)
    });
    let of_hit = (0..hits.len()).find_map(|place| {
        let is_early = place > 0 && hits[place] <= hits[place - 1];
        fault(is_early, matches!(hits[place], Hit::View { node, .. } if node >= ports))
    });
    of_offer.or(of_hit)
}

// The report

fn digit(level: Level) -> char {
    if level == Recessive { '1' } else { '0' }
}

fn print_port(place: usize, port: &Port) {
    let counters = &port.controller.counters;
    let state = match counters.state() {
        State::Active => "active",
        State::Passive => "passive",
        State::BusOff => "off",
    };
    println!(
        "port {place} {state} tec {} rec {} missed {}",
        counters.transmit, counters.receive, port.missed
    );
    for (frame, sent) in &port.log {
        println!("  {} {}", if *sent { "sent" } else { "took" }, frame_text(frame));
    }
}

fn frame_text(frame: &Frame) -> String {
    let head = if frame.extended {
        format!("E {:08x}", frame.id)
    } else {
        format!("S {:03x}", frame.id)
    };
    let direction = if frame.remote { 'R' } else { 'D' };
    let gap = if frame.len > 0 { " " } else { "" };
    let data: String = frame.data[..frame.len].iter().map(|byte| format!("{byte:02x}")).collect();
    format!("{head} {direction} {}{gap}{data}", frame.dlc)
}

fn main() -> Result<(), Failure> {
    let mut text = String::new();
    io::stdin().read_to_string(&mut text)?;
    let mut scenario = Scenario::default();
    for line in text.lines() {
        scenario.read(line)?;
    }
    Ok(())
}
