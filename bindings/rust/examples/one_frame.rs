//! The example of bindings/rust/README.md: one port sends a frame and another receives it, then a bus with one call.

use riddlesage::{play, Event, Frame, Hit, Offer, Port, Refused};

fn main() -> Result<(), Refused> {
    let mut sender = Port::idle(16, 64)?; // capacity: 16 queued frames, 64 log entries
    let mut receiver = Port::idle(16, 64)?;
    sender.offer(&Frame::standard(0x123, &[0xaa, 0x55])?)?;
    for _ in 0..80 {
        let bus = sender.drive() & receiver.drive(); // dominant at first: a start of frame
        sender.sample(bus);
        if let Some(Event::Received(frame)) = receiver.sample(bus) {
            println!("{frame}"); // S 123 D 2 aa55
        }
    }

    let mut ports = [sender, receiver];
    let offer = Offer { time: 5, port: 1, frame: Frame::standard(0x124, &[])? };
    let hit = Hit::In { attempt: 0, offset: 16 }; // 16 bit times after the start of attempt 0
    let played = play(&mut ports, 200, &[offer], &[hit])?; // a bus with one call
    println!("{} {}", played.levels.len(), ports[1].counters().transmit); // 200 7
    Ok(())
}
