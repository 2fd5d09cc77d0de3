//! The refusals in words, with what helps. One row for each number.

/// Number, words, what helps.
pub const REFUSALS: [(u8, &str, &str); 24] = [
    (
        1,
        "a figure is out of range",
        "n is 3 to 4096, q 2 to 256, m 1 to 8, b at least 1; the former figures still hold",
    ),
    (
        2,
        "the figures don't fit",
        "a shorter b, fewer bursts or a longer strip; with m 7 or 8 there can be too many placements, and then a longer b, \
         fewer bursts or a shorter strip: m 7 fits up to n 1999, m 8 up to n 999, by the Larsson code up to 3343 and 1631; \
         one long burst has figures of its own, `long`; a move needs figures that fit both codes",
    ),
    (
        3,
        "another length than the figures give",
        "`figures` alone shows which hold: a strip has n cells of two hex digits, a placement m starts, lanes as many words as \
         their depth",
    ),
    (
        4,
        "a value above what the alphabet has",
        "the strip belongs to other figures, or the head reads wrongly; q itself is a silent cell, and never written",
    ),
    (
        5,
        "starts too close, descending or past the end",
        "plan the placement again: `cover` gives one, and `on` covers before it writes",
    ),
    (
        6,
        "no placement covers these positions",
        "the strip is worn out for these figures: a longer b or more bursts, or another strip",
    ),
    (
        7,
        "the blocks' first symbols are in no listed pattern",
        "the strip is damaged outside its bursts, or has other figures: don't grind by it, read it again",
    ),
    (
        8,
        "the value that the strip spells is no placement",
        "the strip is damaged outside its bursts, or has other figures: don't grind by it, read it again",
    ),
    (
        9,
        "the placement disagrees with the blocks",
        "the strip is damaged outside its bursts, or has other figures: don't grind by it, read it again",
    ),
    (
        10,
        "the strip has no room for a job, or its symbols spell none",
        "other figures: a job takes 5 bytes; or it is no job's strip, and `decode` shows its message",
    ),
    (
        11,
        "a record can't be read",
        "nothing at the desk sends records; the transfer program does",
    ),
    (
        12,
        "the job is cancelled",
        "ask the order desk; `reinstate` takes a wrong cancellation back",
    ),
    (
        13,
        "the job is already open",
        "nothing is to be done for it; one on hold is opened by `release`",
    ),
    (
        14,
        "the job is not open",
        "`jobs` shows what the table holds; ask the order desk, and `open` it where it is right",
    ),
    (
        15,
        "64 numbers are in the table already",
        "finish an open one; cancelled ones stay",
    ),
    (
        16,
        "no prescription by the rules",
        "powers are whole eighths of a dioptre from -30 to 30, sphere plus cylinder too; a power that stands alone and a cylinder are not 0, and none is -0; \
         an axis is 1 to 180; the pupil distance is in whole half millimetres from 40 to 80; the text has room for 13 bytes. `read` shows any other text",
    ),
    (
        17,
        "0 is no job number",
        "it is the tray maker's test tray; a job has another number",
    ),
    (
        18,
        "the depth is outside 1 to 16",
        "the number behind `lay` or `take` is how many words lie side by side",
    ),
    (
        19,
        "a silent cell stands where a symbol is needed",
        "read the strip again; a silent cell inside its bursts is no harm",
    ),
    (
        20,
        "the job is not cancelled",
        "`jobs` shows what the table holds; there is nothing to take back",
    ),
    (
        21,
        "no value stands in most of the sub-blocks",
        "the strip is damaged outside its bursts, has other figures, or is no older tray's: don't grind by it, read it again",
    ),
    (
        22,
        "the job's text has no room on the other strip",
        "keep the job on this strip, or write it anew with a shorter text",
    ),
    (
        23,
        "the job is on hold",
        "`release` it once its frame has arrived",
    ),
    (
        24,
        "the job is not on hold",
        "`jobs` shows what the table holds; only a job on hold is released",
    ),
];

/// What is said for a number: words, and what helps.
pub fn said(number: u8) -> (&'static str, &'static str) {
    let row = REFUSALS.iter().find(|row| row.0 == number);
    row.map_or(
        ("an unknown refusal", "the library is newer than the desk"),
        |row| (row.1, row.2),
    )
}

/// What helps, as lines with a label in front. They are short enough for a terminal.
pub fn helps_lines(helps: &str) -> String {
    const COLUMNS: usize = 98;
    let mut lines = vec![String::from("  helps:")];
    for word in helps.split(' ') {
        let line = lines.last_mut().expect("never empty");
        if line.len() + 1 + word.len() <= COLUMNS {
            line.push(' ');
            line.push_str(word);
        } else {
            lines.push(format!("         {word}"));
        }
    }
    lines.join("\n")
}
