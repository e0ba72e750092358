//! Frames of classical CAN: their levels to the end of the CRC sequence, and their reception. `machine.rs` has the
//! controller that sends and receives them, and re-exports the names that programs use.

use std::error::Error;

#[derive(Clone, Copy, PartialEq, Eq, Debug)]
pub enum Level {
    Dominant,
    Recessive,
}

pub use self::Level::{Dominant, Recessive};

impl Level {
    pub fn of_bit(bit: bool) -> Level {
        if bit { Recessive } else { Dominant }
    }

    pub fn opposite(self) -> Level {
        Level::of_bit(self == Dominant)
    }
}

#[derive(Clone, Copy, PartialEq, Eq)]
pub struct Frame {
    pub id: u32,
    pub extended: bool,
    pub remote: bool,
    pub dlc: u8,
    pub data: [u8; 8],
    pub len: usize,
}

fn push_bits(levels: &mut Vec<Level>, value: u32, count: u32) {
    for place in (0..count).rev() {
        levels.push(Level::of_bit(value >> place & 1 == 1));
    }
}

fn number(levels: &[Level]) -> u32 {
    levels
        .iter()
        .fold(0, |value, &level| value << 1 | u32::from(level == Recessive))
}

fn crc(levels: &[Level]) -> u32 {
    let mut register = 0u32;
    for &level in levels {
        let feedback = u32::from(level == Recessive) ^ (register >> 14 & 1);
        register = register << 1 & 0x7fff;
        if feedback == 1 {
            register ^= 0x4599;
        }
    }
    register
}

impl Frame {
    pub fn parse(line: &str) -> Result<Frame, Box<dyn Error>> {
        let mut words = line.split(' ');
        let mut word = || words.next().unwrap_or_default();
        let extended = word() == "E";
        let id = u32::from_str_radix(word(), 16)?;
        let remote = word() == "R";
        let dlc = word().parse()?;
        let digits = word();
        let mut data = [0; 8];
        for (place, byte) in data[..digits.len() / 2].iter_mut().enumerate() {
            *byte = u8::from_str_radix(&digits[2 * place..2 * place + 2], 16)?;
        }
        let len = digits.len() / 2;
        Ok(Frame { id, extended, remote, dlc, data, len })
    }

    /// The arbitration field as a number: the lower one has priority.
    pub fn key(&self) -> u32 {
        if self.extended {
            (self.id >> 18) << 21 | 0b11 << 19 | (self.id & 0x3ffff) << 1 | u32::from(self.remote)
        } else {
            self.id << 21 | u32::from(self.remote) << 20
        }
    }

    /// The place of the RTR bit.
    pub fn rtr_place(&self) -> usize {
        if self.extended { 32 } else { 12 }
    }

    /// The levels from the start of frame to the end of the CRC sequence, before stuffing.
    pub fn unstuffed(&self) -> Vec<Level> {
        let mut levels = Vec::with_capacity(118);
        push_bits(&mut levels, 0, 1);
        if self.extended {
            push_bits(&mut levels, self.id >> 18, 11);
            push_bits(&mut levels, 0b11, 2);
            push_bits(&mut levels, self.id & 0x3ffff, 18);
        } else {
            push_bits(&mut levels, self.id, 11);
        }
        push_bits(&mut levels, u32::from(self.remote), 1);
        push_bits(&mut levels, 0, 2);
        push_bits(&mut levels, u32::from(self.dlc), 4);
        for &byte in &self.data[..self.len] {
            push_bits(&mut levels, u32::from(byte), 8);
        }
        let check = crc(&levels);
        push_bits(&mut levels, check, 15);
        levels
    }
}

/// What has been received of the stuffed part of a frame.
pub struct Hearing {
    pub levels: Vec<Level>,
    pub last: Level,
    run: u32,
    /// How many unstuffed levels the frame has, once that is known.
    whole: Option<usize>,
}

impl Hearing {
    pub fn new() -> Hearing {
        Hearing { levels: Vec::with_capacity(118), last: Recessive, run: 0, whole: None }
    }

    pub fn begin(&mut self) {
        self.levels.clear();
        self.levels.push(Dominant);
        self.last = Dominant;
        self.run = 1;
        self.whole = None;
    }

    pub fn is_stuff_place(&self) -> bool {
        self.run == 5
    }

    pub fn has_ended(&self) -> bool {
        self.whole == Some(self.levels.len()) && !self.is_stuff_place()
    }

    fn is_extended(&self) -> bool {
        self.levels[13] == Recessive
    }

    fn rtr_place(&self) -> usize {
        if self.is_extended() { 32 } else { 12 }
    }

    fn length(&self) -> Option<usize> {
        if self.levels.len() < 14 {
            return None;
        }
        let data_place = self.rtr_place() + 7;
        if self.levels.len() < data_place {
            return None;
        }
        let remote = self.levels[self.rtr_place()] == Recessive;
        let dlc = number(&self.levels[data_place - 4..data_place]) as usize;
        Some(data_place + if remote { 0 } else { 8 * dlc.min(8) } + 15)
    }

    /// Takes a level; false if it is the sixth equal one in a row.
    pub fn hear(&mut self, level: Level) -> bool {
        if self.is_stuff_place() {
            if level == self.last {
                return false;
            }
            self.run = 1;
        } else {
            self.levels.push(level);
            self.run = if level == self.last { self.run + 1 } else { 1 };
            if self.whole.is_none() {
                self.whole = self.length();
            }
        }
        self.last = level;
        true
    }

    pub fn agrees(&self) -> bool {
        let (head, check) = self.levels.split_at(self.levels.len() - 15);
        crc(head) == number(check)
    }

    pub fn frame(&self) -> Frame {
        let levels = &self.levels;
        let extended = self.is_extended();
        let mut id = number(&levels[1..12]);
        if extended {
            id = id << 18 | number(&levels[14..32]);
        }
        let data_place = self.rtr_place() + 7;
        let mut data = [0; 8];
        let bits = &levels[data_place..levels.len() - 15];
        for (byte, bits) in data.iter_mut().zip(bits.chunks(8)) {
            *byte = number(bits) as u8;
        }
        Frame {
            id,
            extended,
            remote: levels[self.rtr_place()] == Recessive,
            dlc: number(&levels[data_place - 4..data_place]) as u8,
            data,
            len: bits.len() / 8,
        }
    }
}
