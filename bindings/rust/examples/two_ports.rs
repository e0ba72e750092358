//! Two ports on one bus, each with a frame to send. It prints the levels of the bus, and the state, counters and log of
//! each port: the output of `canbit run` for `examples/scenarios/two_ports.toml`.

use riddlesage::{Frame, Level, Port, Refused, State};

const BIT_TIMES: usize = 103;

/// One bit time: the bus is dominant if a port drives dominant, and each port samples it.
fn bit_time(ports: &mut [Port]) -> Level {
    let bus = ports.iter().fold(Level::Recessive, |bus, port| bus & port.drive());
    for port in ports {
        port.sample(bus);
    }
    bus
}

fn print(place: usize, port: &Port) {
    let state = match port.state() {
        State::ErrorActive => "active",
        State::ErrorPassive => "passive",
        State::BusOff => "off",
    };
    let counters = port.counters();
    println!("port {place} {state} tec {} rec {} missed {}", counters.transmit, counters.receive, port.missed());
    for entry in port.log() {
        println!("  {} {}", if entry.sent { "sent" } else { "took" }, entry.frame);
    }
}

fn main() -> Result<(), Refused> {
    let mut ports = [Port::idle(1, 64)?, Port::idle(1, 64)?];
    ports[0].offer(&Frame::standard(0x001, &[])?)?;
    ports[1].offer(&Frame::standard(0x000, &[])?)?;
    println!("bits {BIT_TIMES}");
    let bus: String = (0..BIT_TIMES).map(|_| bit_time(&mut ports).to_string()).collect();
    println!("{bus}");
    for (place, port) in ports.iter().enumerate() {
        print(place, port);
    }
    Ok(())
}
