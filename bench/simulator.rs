//! A plain bit-level simulator of a classical CAN bus, independent of the crates. It reads a scenario on standard
//! input, and writes the checksum of the recorded levels and a line for each port to standard output. A line `next`
//! separates two scenarios. It uses only the standard library, and is written from docs/ACCESS.md and docs/BUS.md.
//! `bench/bus` compares the speed of `Bus::run` with it, and its output with that of `bench/bus_driver.rattle`, which
//! reads the same scenarios. Its bus is in `wire.rs`, its controllers in `machine.rs`.

#[path = "machine.rs"]
mod machine;
#[path = "wire.rs"]
mod wire;

use machine::{Frame, Phase, Port, Recessive};
use std::error::Error;
use std::io::{self, Read};
use wire::{Bus, Hit, Offer};

#[derive(Default)]
struct Scenario {
    ports: usize,
    joining: usize,
    /// how many bit times the bus is idle before the first call
    rest: usize,
    bits: usize,
    call: usize,
    queue: usize,
    log: usize,
    holds: u32,
    hits: Vec<Hit>,
    frames: Vec<(usize, Frame)>,
    offers: Vec<Offer>,
}

/// A frame after the number of its port.
fn parse_frame(text: &str) -> Result<(usize, Frame), Box<dyn Error>> {
    let (port, text) = text.split_once(' ').ok_or("a frame of no port")?;
    Ok((port.parse()?, Frame::parse(text)?))
}

impl Scenario {
    fn parse(text: &str) -> Result<Scenario, Box<dyn Error>> {
        let mut scenario = Scenario::default();
        for line in text.lines() {
            let (word, rest) = line.split_once(' ').ok_or("a line of one word")?;
            let mut numbers = rest.split(' ');
            let mut first = || numbers.next().unwrap_or_default();
            match word {
                "ports" => scenario.ports = first().parse()?,
                "joining" => scenario.joining = first().parse()?,
                "rest" => scenario.rest = first().parse()?,
                "bits" => scenario.bits = first().parse()?,
                "call" => scenario.call = first().parse()?,
                "queue" => scenario.queue = first().parse()?,
                "log" => scenario.log = first().parse()?,
                "holds" => scenario.holds = first().parse()?,
                "at" => scenario.hits.push(Hit::At(first().parse()?)),
                "in" => {
                    let (attempt, offset) = (first().parse()?, first().parse()?);
                    scenario.hits.push(Hit::In { attempt, offset });
                }
                "view" => {
                    let (time, node) = (first().parse()?, first().parse()?);
                    scenario.hits.push(Hit::View { time, node });
                }
                "frame" => scenario.frames.push(parse_frame(rest)?),
                "offer" => {
                    let (time, rest) = rest.split_once(' ').ok_or("a time alone")?;
                    let (port, frame) = parse_frame(rest)?;
                    scenario.offers.push(Offer { time: time.parse()?, port, frame });
                }
                _ => return Err("an unknown word".into()),
            }
        }
        Ok(scenario)
    }

    /// A port before its first bit time; the last ports join.
    fn port(&self, place: usize) -> Port {
        let phase = if place + self.joining < self.ports {
            Phase::Idle
        } else {
            Phase::Joining { row: 0 }
        };
        Port::new(phase, self.queue, self.log)
    }
}

/// A checksum over numbers, one after another.
#[derive(Clone, Copy)]
struct Checksum(u64);

impl Checksum {
    fn add(&mut self, number: u64) {
        self.0 = (self.0 ^ number).wrapping_mul(0x0000_0100_0000_01b3);
    }

    fn add_entry(&mut self, frame: &Frame, sent: bool) {
        self.add(u64::from(frame.id));
        self.add(u64::from(frame.extended));
        self.add(u64::from(frame.remote));
        self.add(u64::from(frame.dlc));
        for &byte in &frame.data[..frame.len] {
            self.add(u64::from(byte));
        }
        self.add(u64::from(sent));
    }
}

/// Runs a scenario, and prints the result.
fn play(scenario: &Scenario) {
    let ports = (0..scenario.ports).map(|place| scenario.port(place)).collect();
    let mut bus = Bus::new(ports);
    let mut levels = vec![Recessive; scenario.call];
    let mut sum = Checksum(0xcbf2_9ce4_8422_2325);
    let mut rested = vec![Recessive; scenario.rest];
    bus.run(&[], &[], &mut rested);
    for &level in &rested {
        sum.add(u64::from(level == Recessive));
    }
    for _ in 0..scenario.bits / scenario.call {
        // a frame that a full queue refuses is dropped
        for &(port, frame) in &scenario.frames {
            bus.ports[port].offer(frame);
        }
        for port in &mut bus.ports {
            port.controller.overloads_wanted = scenario.holds;
        }
        bus.run(&scenario.hits, &scenario.offers, &mut levels);
        for &level in &levels {
            sum.add(u64::from(level == Recessive));
        }
    }
    println!("levels {:016x}", sum.0);
    println!("refused {}", bus.refused);
    for (place, port) in bus.ports.iter().enumerate() {
        let mut entries = Checksum(0xcbf2_9ce4_8422_2325);
        for (frame, sent) in &port.log {
            entries.add_entry(frame, *sent);
        }
        println!(
            "port {place} log {} {:016x} missed {} tec {} rec {}",
            port.log.len(),
            entries.0,
            port.missed,
            port.controller.counters.transmit,
            port.controller.counters.receive,
        );
    }
}

fn main() -> Result<(), Box<dyn Error>> {
    let mut text = String::new();
    io::stdin().read_to_string(&mut text)?;
    for part in text.split("next\n") {
        play(&Scenario::parse(part)?);
    }
    Ok(())
}
