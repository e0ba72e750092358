//! An adapter of the conformance kit with the plain controller of `bench/machine.rs` inside. It speaks the line protocol
//! over standard input and output. rustc builds it without cargo.

#[path = "../../bench/machine.rs"]
mod machine;

use machine::{Dominant, ErrorKind, Event, Frame, Phase, Port, Recessive, State};
use std::error::Error;
use std::fmt::Write as _;
use std::io::{self, BufRead, Write};

/// More frames than any case offers.
const QUEUE_SIZE: usize = 256;

fn frame_text(frame: &Frame) -> String {
    let direction = if frame.remote { 'R' } else { 'D' };
    let mut text = if frame.extended {
        format!("E {:08x} {direction} {}", frame.id, frame.dlc)
    } else {
        format!("S {:03x} {direction} {}", frame.id, frame.dlc)
    };
    if frame.len > 0 {
        text.push(' ');
    }
    for byte in &frame.data[..frame.len] {
        write!(text, "{byte:02x}").expect("a string takes all");
    }
    text
}

fn event_text(event: Event, frame: Option<&Frame>) -> String {
    let text = frame.map(frame_text).unwrap_or_default();
    let word = match event {
        Event::Sent => return format!("sent {text}"),
        Event::Received => return format!("received {text}"),
        Event::Lost => "lost",
        Event::Error(ErrorKind::Stuff) => "stuff error",
        Event::Error(ErrorKind::Bit) => "bit error",
        Event::Error(ErrorKind::Form) => "form error",
        Event::Error(ErrorKind::Crc) => "crc error",
        Event::Error(ErrorKind::Acknowledgement) => "ack error",
        Event::Overload => "overload",
        Event::WentOff => "went off",
        Event::Recovered => "recovered",
    };
    word.to_string()
}

/// Plays bit times. `0` and `1` are the tester's levels; with `f` the controller sees a recessive level.
fn play(port: &mut Port, levels: &str) -> Result<String, Box<dyn Error>> {
    let mut events = String::new();
    let mut drove = String::from("drove ");
    for (place, tester) in levels.chars().enumerate() {
        let driven = port.drive();
        let seen = match tester {
            '0' => Dominant,
            '1' => driven,
            'f' => Recessive,
            _ => return Err("expected levels: 0, 1 or f".into()),
        };
        if let Some(event) = port.sample(seen) {
            writeln!(events, "event {place} {}", event_text(event, port.controller.frame.as_ref()))?;
        }
        drove.push(if driven == Dominant { '0' } else { '1' });
    }
    Ok(events + &drove + "\n")
}

fn state_line(port: &Port) -> String {
    let counters = &port.controller.counters;
    let state = match counters.state() {
        State::Active => "active",
        State::Passive => "passive",
        State::BusOff => "off",
    };
    format!("state {state} {} {}\n", counters.transmit, counters.receive)
}

fn new_port(words: &str) -> Result<Port, Box<dyn Error>> {
    let phase = match words.rsplit(' ').next() {
        Some("idle") => Phase::Idle,
        Some("joining") => Phase::Joining { row: 0 },
        _ => return Err("expected idle or joining".into()),
    };
    Ok(Port::new(phase, QUEUE_SIZE, 0))
}

fn answer(port: &mut Option<Port>, line: &str) -> Result<String, Box<dyn Error>> {
    let (word, rest) = line.split_once(' ').unwrap_or((line, ""));
    if word == "case" {
        *port = Some(new_port(rest)?);
        return Ok("ready\n".to_string());
    }
    let port = port.as_mut().ok_or("expected a case first")?;
    match word {
        "offer" if !port.offer(Frame::parse(rest)?) => return Err("the queue is full".into()),
        "offer" => {}
        "hold" => port.controller.overloads_wanted = rest.parse()?,
        "play" => return play(port, rest),
        "end" => return Ok(state_line(port)),
        _ => return Err("unknown command".into()),
    }
    Ok(String::new())
}

fn main() -> Result<(), Box<dyn Error>> {
    let mut output = io::stdout().lock();
    writeln!(output, "can-kit 1 plain simulator")?;
    output.flush()?;
    let mut port = None;
    for line in io::stdin().lock().lines() {
        let line = line?;
        if line == "quit" {
            break;
        }
        let text = answer(&mut port, &line).unwrap_or_else(|fault| format!("error {fault}\n"));
        output.write_all(text.as_bytes())?;
        output.flush()?;
    }
    Ok(())
}
