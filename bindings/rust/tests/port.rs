//! What the crate adds to `riddlesage.h`: types, refusals, ports that move and go to threads.

use riddlesage::{
    decode, decode_levels, decode_trace, encode, marks, plan, play, port_times, run, version, worst_case, Counters,
    Coverage, Entry, Event, EventKind, FaultKind, Field, Frame, Hit, Level, Mark, NetworkFault, Offer, Phase,
    PhaseKind, Port, Refused, Rule, ScenarioFault, Standing, State, TraceFault, Wire,
};

fn frame() -> Frame {
    Frame::standard(0x123, &[0xaa, 0x55]).expect("a frame")
}

fn port(queue: usize, log: usize) -> Port {
    Port::idle(queue, log).expect("memory")
}

#[test]
fn a_frame_goes_both_ways() {
    let levels = encode(&frame());
    let text: String = levels.iter().map(Level::to_string).collect();
    assert_eq!(text, "00010010001100000110101010100101010110000010100110011111111111");
    let heard = decode(&levels).expect("a frame");
    assert_eq!((heard.frame, heard.length, heard.acknowledged), (frame(), 62, false));
    let fault = decode(&levels[..20]).expect_err("a part of a frame");
    assert_eq!((fault.kind, fault.place), (FaultKind::Short, 20));
    assert_eq!(fault.to_string(), "short at 20: the levels end before the frame does");
    assert_eq!(decode(&[]).map_err(|fault| fault.kind), Err(FaultKind::Short));
    assert_eq!(decode(&[Level::Recessive]).map_err(|fault| fault.kind), Err(FaultKind::NoStart));
}

#[test]
fn what_is_no_frame_is_refused() {
    assert_eq!(Frame::standard(0x800, &[]), Err(Refused::BadIdentifier));
    assert_eq!(Frame::extended(0x2000_0000, &[]), Err(Refused::BadIdentifier));
    assert_eq!(Frame::new(1, false, true, 16, &[]), Err(Refused::BadDlc));
    assert_eq!(Frame::new(1, false, true, 1, &[0]), Err(Refused::BadDlc));
    assert_eq!(Frame::new(1, false, false, 9, &[0; 9]), Err(Refused::BadDlc));
    assert_eq!(Frame::standard(1, &[0; 9]), Err(Refused::BadDlc));
    assert_eq!(Frame::extended(0x1fff_ffff, &[1]).map(|frame| frame.to_string()), Ok("E 1fffffff D 1 01".to_string()));
    assert_eq!(Frame::new(5, false, false, 15, &[0; 8]).map(|frame| frame.data().len()), Ok(8));
}

#[test]
fn a_port_moves_and_goes_to_a_thread() {
    let mut sender = port(1, 4);
    sender.offer(&frame()).expect("room for a frame");
    assert_eq!(sender.offer(&frame()), Err(Refused::QueueFull));
    assert_eq!(sender.hold(3), Err(Refused::BadCount));
    let events = std::thread::spawn(move || {
        let port = &mut sender;
        let levels: Vec<_> = (0..200).filter_map(|_| port.sample(port.drive())).collect();
        levels
    });
    let events = events.join().expect("no panic");
    // nobody acknowledges
    assert!(!events.is_empty() && events.iter().all(|event| *event == Event::AckError));
}

#[test]
fn two_ports() {
    let mut ports = [port(1, 4), Port::joining(1, 0).expect("memory")];
    for _ in 0..11 {
        ports[1].sample(Level::Recessive);
    }
    ports[0].offer(&frame()).expect("room for a frame");
    for _ in 0..200 {
        let bus = ports[0].drive() & ports[1].drive();
        for port in &mut ports {
            port.sample(bus);
        }
    }
    assert_eq!(ports[0].state(), State::ErrorActive);
    assert_eq!(ports[0].log().collect::<Vec<_>>(), [Entry { frame: frame(), sent: true }]);
    assert_eq!((ports[0].missed(), ports[0].entry(1)), (0, None));
    assert_eq!((ports[1].missed(), ports[1].log().len()), (1, 0));
    assert_eq!(ports[1].counters(), Counters::default());
}

#[test]
fn many_bit_times_at_once() {
    let mut receiver = port(1, 4);
    assert_eq!(receiver.run(&[]), Err(Refused::NoLevels));
    let mut levels = encode(&frame());
    levels.extend([Level::Recessive; 11]);
    let (drives, events) = receiver.run(&levels).expect("levels");
    // the port acknowledges, and the slot stays recessive
    assert_eq!((drives[53], events[53]), (Level::Dominant, Some(EventKind::BitError)));
    assert_eq!(events[52], None);
}

#[test]
fn where_a_port_stands() {
    let mut sender = port(1, 0);
    assert_eq!(sender.phase(), Standing { phase: Phase::Idle, sender: false, rule: Rule::StartOfFrame });
    sender.offer(&frame()).expect("room for a frame");
    sender.sample(Level::Dominant);
    assert_eq!(sender.phase(), Standing { phase: Phase::StuffedPart(1), sender: true, rule: Rule::Arbitration });
    let mut copy = sender.copy().expect("memory");
    assert_eq!(copy.phase(), sender.phase());
    assert_eq!(copy.offer(&frame()), Err(Refused::QueueFull));
}

#[test]
fn a_bus_by_one_call() {
    let mut ports = [port(1, 4), port(1, 4)];
    let offer = |time, port| Offer { time, port, frame: frame() };
    let (inside, view) = (Hit::In { attempt: 0, offset: 16 }, Hit::View { time: 0, port: 2 });
    assert_eq!(play(&mut [], 1, &[], &[]), Err(Refused::BadBus));
    assert_eq!(play(&mut ports, 1, &[offer(0, 2)], &[]), Err(Refused::NoSuchPort));
    assert_eq!(play(&mut ports, 1, &[], &[view]), Err(Refused::NoSuchPort));
    assert_eq!(play(&mut ports, 1, &[offer(1, 0), offer(0, 0)], &[]), Err(Refused::BadOrder));
    assert_eq!(play(&mut ports, 1, &[], &[inside, Hit::At(0)]), Err(Refused::BadOrder));
    assert_eq!(ports[0].phase().phase, Phase::Idle);
    let played = play(&mut ports, 200, &[offer(5, 0), offer(5, 0)], &[inside]).expect("a bus");
    assert_eq!((played.levels.iter().position(|level| *level == Level::Dominant), played.refused), (Some(5), 1));
    assert_eq!(ports[0].counters(), Counters { transmit: 7, receive: 0 });
    assert_eq!(ports[1].log().collect::<Vec<_>>(), [Entry { frame: frame(), sent: false }]);
    assert_eq!(play(&mut ports, 0, &[], &[]).map(|played| played.levels), Ok(Vec::new()));
}

#[test]
fn a_wire_has_the_levels_of_a_bus() {
    let (offer, hits) = (
        Offer { time: 5, port: 0, frame: frame() },
        [Hit::At(90), Hit::In { attempt: 0, offset: 16 }, Hit::View { time: 130, port: 1 }],
    );
    let mut whole = [port(1, 4), port(1, 4)];
    let played = play(&mut whole, 300, &[offer], &hits).expect("a bus");
    let (mut ports, mut wire) = ([port(1, 4), port(1, 4)], Wire::new());
    let mut levels = Vec::new();
    while wire.time() < 300 {
        if wire.time() == offer.time {
            ports[offer.port].offer(&offer.frame).expect("room");
        }
        let (drives, mut seen) = ([ports[0].drive(), ports[1].drive()], [Level::Dominant; 2]);
        // in any order
        levels.push(wire.step(&drives, &[hits[2], hits[0], hits[1]], &mut seen).expect("a wire"));
        for (port, level) in ports.iter_mut().zip(seen) {
            port.sample(level);
        }
    }
    assert_eq!(levels, played.levels);
    assert_eq!(ports.map(|port| port.counters()), whole.map(|port| port.counters()));
    assert!(wire.attempts() > 1);
    let before = wire.clone();
    assert_eq!(wire.step(&[], &hits, &mut []), Err(Refused::NoSuchPort));
    assert_eq!(wire, before);
}

#[test]
fn texts() {
    let report = "bits 3\n111\nport 0 active tec 0 rec 0 missed 0\n";
    assert_eq!(run("version = 1\nbits = 3\nport = [{}]").as_deref(), Ok(report));
    let long = run("version = 1\nbits = 100000\nport = [{}]").expect("a report");
    assert_eq!(long.len(), "bits 100000\n\nport 0 active tec 0 rec 0 missed 0\n".len() + 100_000);
    let field = ScenarioFault::Field("port[0].log".to_string());
    assert_eq!(run("version = 1\nbits = 3\nport = [{ log = -1 }]"), Err(field));
    for (text, words) in [
        ("bits = 3\nport = [{}]\nx = 1", "key: a field of this table is unknown"),
        ("bits = 3\nport = [{ y = 1 }]", "port[0].key: a field of this table is unknown"),
        ("port = [{}]", "bits: missing, or not a valid value"),
    ] {
        let fault = run(&format!("version = 1\n{text}")).expect_err("a refusal");
        assert_eq!(fault.to_string(), format!("bad scenario: {words}"));
    }
    assert_eq!(decode_trace("111 000000\n").as_deref(), Ok("3 fault C3 at 8\n"));
    let fault = TraceFault::BadByte { place: 7, lines: "0 fault C3 at 5\n".to_string() };
    assert_eq!(decode_trace("0000001x0"), Err(fault));
    assert_eq!(decode_levels(&[Level::Dominant; 7]).as_deref(), Ok("0 fault C3 at 5\n"));
    assert_eq!(decode_levels(&[]).as_deref(), Ok(""));
}

#[test]
fn more_memory_than_there_is() {
    assert_eq!(Port::idle(usize::MAX, 0).err(), Some(Refused::NoMemory));
}

#[test]
fn one_version() {
    assert_eq!(version(), env!("CARGO_PKG_VERSION"));
}

#[test]
fn the_fields_of_levels() {
    let marked = marks(&encode(&frame()));
    assert_eq!((marked.len(), marked.iter().filter(|mark| mark.stuffed).count()), (62, 2));
    assert_eq!(marked[0], Mark { field: Field::StartOfFrame, stuffed: false });
    assert_eq!(marked[61], Mark { field: Field::EndOfFrame, stuffed: false });
    assert_eq!((marks(&[]), marks(&[Level::Recessive])), (vec![], vec![]));
    assert_eq!(marks(&[Level::Dominant; 200]).len(), 6);
}

#[test]
fn a_bus_to_the_next_event() {
    let mut ports = [port(1, 4), port(1, 4)];
    let mut wire = Wire::new();
    ports[0].offer(&frame()).expect("room for a frame");
    assert_eq!(wire.run(&mut [], &[], 9), Err(Refused::BadBus));
    assert_eq!(wire.run(&mut ports, &[Hit::View { time: 0, port: 2 }], 9), Err(Refused::NoSuchPort));
    assert_eq!(wire.time(), 0);
    let ran = wire.run(&mut ports, &[Hit::In { attempt: 0, offset: 16 }], 200).expect("a bus");
    assert_eq!((ran.passed, ran.events), (17, vec![Some(Event::BitError), None]));
    let mut events = Vec::new();
    while wire.time() < 200 {
        events.extend(wire.run(&mut ports, &[], 200).expect("a bus").events.into_iter().flatten());
    }
    assert_eq!(events, [Event::StuffError, Event::Received(frame()), Event::Sent(frame())]);
    assert_eq!(wire.run(&mut ports, &[], 0).map(|ran| (ran.passed, ran.events)), Ok((0, vec![None, None])));
}

#[test]
fn what_a_port_of_a_scenario_did() {
    let scenario = "version = 1\nbits = 3\nport = [{ queue = ['S 001 D 0'] }, { join = true }]";
    let times = port_times(scenario, 0).expect("a scenario");
    assert_eq!((times.len(), times[0].phase, times[0].sender), (3, PhaseKind::Idle, false));
    assert_eq!((times[1].phase, times[1].sender, times[1].drives), (PhaseKind::StuffedPart, true, Level::Dominant));
    let joining = port_times(scenario, 1).expect("a scenario")[0];
    assert_eq!(
        (joining.phase, joining.drives, joining.samples),
        (PhaseKind::Joining, Level::Recessive, Level::Dominant)
    );
    assert_eq!((joining.counters, joining.event), (Counters::default(), None));
    assert_eq!(port_times(scenario, 2), Err(ScenarioFault::NoSuchPort));
    assert_eq!(port_times("version = 1\nport = [{}]", 0), Err(ScenarioFault::Field("bits".to_string())));
}

#[test]
fn bounds_and_worst_cases() {
    let network = "version = 1\n[[message]]\nframe = 'S 100 D'\ndlc = 0\nperiod = 500\n";
    let planned = plan(network, false).expect("a network");
    assert!(planned.late == 0 && planned.report.starts_with("network messages 1 load "));
    assert!(plan(network, true).expect("a network").report.contains("\n  wire "));
    assert_eq!(plan(&format!("{network}deadline = 9"), false).map(|planned| planned.late), Ok(1));
    let fault = plan(&format!("{network}jitter = -1"), false).expect_err("a jitter below 0");
    assert_eq!(fault.to_string(), "bad network: message[0].jitter: must be a time of 0 to 4294967295");
    assert_eq!(worst_case(&format!("{network}jitter = -1"), "S 100 D"), Err(fault));
    assert!(worst_case(network, "S 100 D").expect("a network").starts_with("version = 2\n"));
    assert_eq!(worst_case(network, "S 101 D"), Err(NetworkFault::NoMessage));
    assert_eq!(worst_case(network, ""), Err(NetworkFault::NoMessage));
    let overload = format!("{network}[[message]]\nframe = 'S 101 D'\nperiod = 9");
    assert_eq!(worst_case(&overload, "S 101 D"), Err(NetworkFault::Endless));
}

#[test]
fn rules_that_a_port_applies() {
    let (mut port, mut coverage) = (port(1, 0), Coverage::new());
    port.offer(&frame()).expect("room for a frame");
    let level = port.drive();
    assert_eq!(coverage.sample(&mut port, level), None);
    let start = (0..Coverage::ITEMS).find(|item| coverage.counts()[*item] == 1).expect("a rule");
    assert_eq!(Coverage::name(start), Some("Start of frame, transmitter active"));
    assert_eq!((Coverage::case(start), Coverage::name(Coverage::ITEMS)), (Some("start-first"), None));
    let mut sum = Coverage::default();
    sum += &coverage;
    sum += &coverage;
    assert_eq!(sum.line(start), "coverage 2 Start of frame, transmitter active");
    assert_eq!(Coverage::case(Coverage::ITEMS), None);
}

#[test]
fn names() {
    assert_eq!((EventKind::Sent.to_string(), EventKind::Recovered.to_string()), ("sent".into(), "recovered".into()));
    assert_eq!((PhaseKind::Idle.to_string(), Phase::BusOff(3).kind().to_string()), ("idle".into(), "bus-off".into()));
    assert_eq!(
        (Rule::Joining.to_string(), Rule::OverloadFlags.to_string()),
        ("Joining".into(), "Overload flags".into())
    );
}
