//! Like door.c, but with the Rust crate.
use riddlesage::{Event, Frame, Port, Refused};

fn main() -> Result<(), Refused> {
    let bits: u64 = std::env::args().nth(1).and_then(|word| word.parse().ok()).unwrap_or(0);
    let frame = Frame::standard(0x123, &[0x01, 0x23, 0x45, 0x67, 0x89, 0xab, 0xcd, 0xef])?;
    let (mut one, mut other, mut sent) = (Port::idle(1, 0)?, Port::idle(0, 0)?, 0);
    one.offer(&frame)?;
    for _ in 0..bits {
        let bus = one.drive() & other.drive();
        other.sample(bus);
        if let Some(Event::Sent(_)) = one.sample(bus) {
            sent += 1;
            one.offer(&frame)?;
        }
    }
    println!("{sent}");
    Ok(())
}
