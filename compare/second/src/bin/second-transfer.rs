//! The transfer program over standard input and output, in large reads and writes.

use std::io::{self, Read, Write};

use second::transfer::{close, Machine, Step};

const READ: usize = 1 << 16;

fn main() -> io::Result<()> {
    let mut machine = Machine::default();
    let mut input = io::stdin().lock();
    let mut output = io::stdout().lock();
    let mut held: Vec<u8> = Vec::with_capacity(2 * READ);
    let mut printed = Vec::with_capacity(4 * READ);
    loop {
        let (used, stopped) = serve(&mut machine, &held, &mut printed, &mut output)?;
        held.drain(..used);
        // The next read may wait, and whoever waits for these lines must have them.
        flush(&mut printed, &mut output)?;
        let before = held.len();
        if !stopped {
            held.resize(before + READ, 0);
            let got = input.read(&mut held[before..])?;
            held.truncate(before + got);
        }
        if held.len() == before {
            close(&held, &mut printed);
            return flush(&mut printed, &mut output);
        }
    }
}

/// Serves every whole record that is held; the bytes used, and whether the program stops.
fn serve(
    machine: &mut Machine,
    held: &[u8],
    printed: &mut Vec<u8>,
    output: &mut impl Write,
) -> io::Result<(usize, bool)> {
    let mut used = 0;
    loop {
        match machine.step(&held[used..], printed) {
            Step::Record(len) => used += len,
            Step::More => return Ok((used, false)),
            Step::Stop => return Ok((used, true)),
        }
        if printed.len() > READ {
            output.write_all(printed)?;
            printed.clear();
        }
    }
}

fn flush(printed: &mut Vec<u8>, output: &mut impl Write) -> io::Result<()> {
    output.write_all(printed)?;
    printed.clear();
    output.flush()
}
