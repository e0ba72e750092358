//! A plain encoder for classical CAN frames, independent of the crates. It reads frame lines on standard input, and
//! writes a line of levels for each to standard output. It uses only the standard library. `bench/encode` compares the
//! speed and the output of canbit with those of this encoder.

mod machine;

use machine::{Frame, Level, Recessive};
use std::error::Error;
use std::io::{self, BufRead, BufWriter, Write};

fn digit(level: Level) -> u8 {
    if level == Recessive { b'1' } else { b'0' }
}

/// Writes the levels that the transmitter drives into the line: a stuff bit follows five equal levels.
fn lay_out(frame: &Frame, line: &mut Vec<u8>) {
    line.clear();
    // the bus is idle, so the start of frame begins a run
    let (mut last, mut run) = (Recessive, 0);
    for level in frame.unstuffed() {
        run = if level == last { run + 1 } else { 1 };
        last = level;
        line.push(digit(level));
        if run == 5 {
            last = level.opposite();
            run = 1;
            line.push(digit(last));
        }
    }
    line.extend_from_slice(b"1111111111\n");
}

fn main() -> Result<(), Box<dyn Error>> {
    let mut reader = io::stdin().lock();
    let mut writer = BufWriter::new(io::stdout().lock());
    let (mut text, mut line) = (String::new(), Vec::new());
    while reader.read_line(&mut text)? > 0 {
        lay_out(&Frame::parse(text.trim_end())?, &mut line);
        writer.write_all(&line)?;
        text.clear();
    }
    writer.flush()?;
    Ok(())
}
