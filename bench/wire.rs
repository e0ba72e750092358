//! A plain bus of the controllers of `machine.rs`, with offers and hits. It is written from docs/BUS.md, independent of
//! the crates, and uses only the standard library. `simulator.rs` and `calls.rs` use it.

use crate::machine::{Dominant, Frame, Level, Port, Recessive};

/// A hit (an injected bit error); the order is that of a list of hits.
#[derive(Clone, Copy, PartialEq, Eq, PartialOrd, Ord)]
pub enum Hit {
    At(u64),
    In { attempt: u64, offset: u64 },
    View { time: u64, node: usize },
}

pub struct Offer {
    pub time: u64,
    pub port: usize,
    pub frame: Frame,
}

pub struct Bus {
    pub ports: Vec<Port>,
    /// How many recessive levels were recorded last, at most eleven.
    rest: u32,
    /// The number of offers that a full queue has refused.
    pub refused: usize,
}

impl Bus {
    /// An idle bus.
    pub fn new(ports: Vec<Port>) -> Bus {
        Bus { ports, rest: 11, refused: 0 }
    }

    pub fn run(&mut self, hits: &[Hit], offers: &[Offer], levels: &mut [Level]) {
        let mut attempts = 0u64;
        let mut began = 0u64;
        for (time, recorded) in (0u64..).zip(levels.iter_mut()) {
            for offer in offers.iter().filter(|offer| offer.time == time) {
                if !self.ports[offer.port].offer(offer.frame) {
                    self.refused += 1;
                }
            }
            let is_driven = self.ports.iter().any(|port| port.drive() == Dominant);
            let wired = Level::of_bit(!is_driven);
            if wired == Dominant && self.rest == 11 {
                attempts += 1;
                began = time;
            }
            let is_hit = hits.iter().any(|hit| match *hit {
                Hit::At(at) => at == time,
                Hit::In { attempt, offset } => attempt + 1 == attempts && began + offset == time,
                Hit::View { .. } => false,
            });
            let level = if is_hit { wired.opposite() } else { wired };
            for (place, port) in self.ports.iter_mut().enumerate() {
                let is_hit = hits.iter().any(|hit| match *hit {
                    Hit::View { time: at, node } => at == time && node == place,
                    Hit::At(_) | Hit::In { .. } => false,
                });
                port.sample(if is_hit { level.opposite() } else { level });
            }
            self.rest = if level == Recessive { (self.rest + 1).min(11) } else { 0 };
            *recorded = level;
        }
    }
}
