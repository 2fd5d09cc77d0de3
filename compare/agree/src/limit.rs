//! The record limit: one record more than the program may serve, which takes a while to send.

use std::io::{self, Read, Write};
use std::process::{Child, ChildStdin, Command, Stdio};

/// The most records that the program serves.
const MOST: u64 = 4_294_967_295;
/// A finishing of an unknown number, and its line.
const RECORD: &[u8] = b"LTF\0\0\0\x01";
const LINE: &[u8] = b"F 14\n";
/// Records sent at once.
const BATCH: u64 = 10_000;
/// Lines between two words of progress.
const PROGRESS: u64 = 100_000_000;

/// Sends so many records and tells whether the program printed what it should.
pub fn holds(program: &str, records: u64) -> io::Result<bool> {
    let mut child: Child = Command::new(program)
        .stdin(Stdio::piped())
        .stdout(Stdio::piped())
        .spawn()?;
    let (stdin, stdout) = (child.stdin.take(), child.stdout.take());
    let sender = std::thread::spawn(move || send(stdin, records));
    let close: &[u8] = if records > MOST {
        b"stop 11\n"
    } else {
        b"end\n"
    };
    let right = match stdout {
        Some(stdout) => lines_then(stdout, records.min(MOST), close)?,
        None => false,
    };
    let _ = sender.join();
    child.wait()?;
    Ok(right)
}

fn send(stdin: Option<ChildStdin>, records: u64) {
    let Some(mut stdin) = stdin else { return };
    let batch = RECORD.repeat(BATCH as usize);
    let mut left = records;
    while left > 0 {
        let now = left.min(BATCH);
        // A program that stops needn't read the rest.
        if stdin
            .write_all(&batch[..now as usize * RECORD.len()])
            .is_err()
        {
            return;
        }
        left -= now;
    }
}

/// Whether the output is so many lines and the closing one.
fn lines_then(mut output: impl Read, lines: u64, close: &[u8]) -> io::Result<bool> {
    let batch = LINE.repeat(BATCH as usize);
    let mut got = vec![0; batch.len()];
    let mut left = lines;
    while left > 0 {
        let len = left.min(BATCH) as usize * LINE.len();
        output.read_exact(&mut got[..len])?;
        if got[..len] != batch[..len] {
            return Ok(false);
        }
        left -= left.min(BATCH);
        if (lines - left).is_multiple_of(PROGRESS) {
            eprintln!("{} of {lines} lines", lines - left);
        }
    }
    let mut rest = Vec::new();
    output.read_to_end(&mut rest)?;
    Ok(rest == close)
}
