//! The program `unpack` over the published function: byte pairs in, a line for each out.
use std::io::{self, BufReader, BufWriter, Read, Write};

use crate::expected;
use crate::reference::EMPTY_Y;

const BUFFER: usize = 1 << 16;

pub fn run() -> io::Result<()> {
    let mut bytes = BufReader::with_capacity(BUFFER, io::stdin().lock()).bytes();
    let mut out = BufWriter::with_capacity(BUFFER, io::stdout().lock());
    while let Some(y) = bytes.next() {
        let y = y? as i8;
        let Some(x) = bytes.next() else {
            writeln!(out, "short")?;
            break;
        };
        match expected::dequantize([y, x? as i8]) {
            Ok([EMPTY_Y, _]) => writeln!(out, "empty")?,
            Ok([y, x]) => writeln!(out, "{y} {x}")?,
            Err(number) => writeln!(out, "refused {number}")?,
        }
    }
    out.flush()
}

/// Random bytes, to feed the program with.
pub fn write_random(seed: u64, count: usize) -> io::Result<()> {
    let mut rng = crate::rng::Rng::new(seed);
    let bytes = std::iter::repeat_with(|| rng.word().to_le_bytes()).flatten();
    io::stdout().write_all(&bytes.take(count).collect::<Vec<u8>>())
}
