//! A picture in characters.

use super::wrap::Measure;
use super::{occurring, Cell, Kind, Picture};

/// Columns of a line, and of the label in front of it.
const COLUMNS: usize = 100;
const LABEL: usize = 10;

/// Text at a column, in a colour where there are colours.
struct Placed {
    column: usize,
    text: String,
    colour: &'static str,
}

/// The cells that one line has room for, and the column of each.
struct Line {
    first: usize,
    columns: Vec<usize>,
}

impl Line {
    fn end(&self) -> usize {
        self.first + self.columns.len()
    }

    /// The column of a cell, where it stands on this line.
    fn column(&self, at: usize) -> Option<usize> {
        at.checked_sub(self.first)
            .and_then(|i| self.columns.get(i))
            .copied()
    }
}

pub fn drawn(picture: &Picture, colour: bool) -> String {
    let mut text = format!("{}\n{}\n", picture.title, picture.note);
    for line in lines(picture) {
        text.push('\n');
        push(&mut text, "position", positions(picture, &line), false);
        for row in &picture.rows {
            push(&mut text, row.label, stretches(picture, &line, row), false);
        }
        push(&mut text, "kind", kinds(picture, &line), false);
        push(&mut text, "word", values(picture, &line), colour);
        push(&mut text, "cell", letters(picture, &line), colour);
    }
    text.push('\n');
    text + &legend(picture)
}

/// Values of two digits are parted by a space, and a block from the next by one more.
fn lines(picture: &Picture) -> Vec<Line> {
    let cell = picture.value_len();
    let measure = Measure {
        room: COLUMNS - LABEL,
        cell,
        pitch: 2 * cell - 1,
        gap: 1,
    };
    let mut first = 0;
    let spots = measure.spots(&picture.blocks);
    let lines = spots.chunk_by(|one, next| one.line == next.line);
    lines
        .map(|line| {
            first += line.len();
            Line {
                first: first - line.len(),
                columns: line.iter().map(|spot| spot.x).collect(),
            }
        })
        .collect()
}

/// Each block's first position, and the line's, where the one before leaves room.
fn positions(picture: &Picture, line: &Line) -> Vec<Placed> {
    let heads = picture
        .blocks
        .iter()
        .map(|block| block.cells.start)
        .filter(|at| *at > line.first);
    let mut free = 0;
    let mut placed = Vec::new();
    for at in std::iter::once(line.first).chain(heads) {
        let Some(column) = line.column(at) else {
            continue;
        };
        if column >= free {
            placed.push(plain(column, at.to_string()));
            free = column + at.to_string().len() + 1;
        }
    }
    placed
}

/// A number and dashes for each stretch of a row. Blocks inside parts have room for the number alone.
fn stretches(picture: &Picture, line: &Line, row: &super::Row) -> Vec<Placed> {
    let mut placed = Vec::new();
    for (number, cells) in row.stretches.iter().enumerate() {
        let (first, end) = (cells.start.max(line.first), cells.end.min(line.end()));
        if first >= end {
            continue;
        }
        let column = line.columns[first - line.first];
        let width = line.columns[end - 1 - line.first] + picture.value_len() - column;
        let number = number.to_string();
        let dashes = if row.label == "block" {
            0
        } else {
            width.saturating_sub(number.len())
        };
        if number.len() <= width {
            placed.push(plain(column, number + &"-".repeat(dashes)));
        }
    }
    placed
}

fn kinds(picture: &Picture, line: &Line) -> Vec<Placed> {
    let heads = picture
        .blocks
        .iter()
        .map(|block| (block.cells.start.max(line.first), block));
    let here = heads.filter(|(at, block)| block.cells.contains(at));
    here.filter_map(|(at, block)| Some(plain(line.column(at)?, block.kind.letter().into())))
        .collect()
}

fn values(picture: &Picture, line: &Line) -> Vec<Placed> {
    each_cell(picture, line, |at| picture.value(at))
}

fn letters(picture: &Picture, line: &Line) -> Vec<Placed> {
    each_cell(picture, line, |at| {
        picture.cells[at]
            .letter()
            .to_string()
            .repeat(picture.value_len())
    })
}

/// The text of each cell; cells side by side in one colour are one text.
fn each_cell(picture: &Picture, line: &Line, text: impl Fn(usize) -> String) -> Vec<Placed> {
    let mut placed: Vec<Placed> = Vec::new();
    for (i, column) in line.columns.iter().enumerate() {
        let at = line.first + i;
        let colour = match picture.is_silent(at) {
            true => "1;35",
            false => colour(picture.cells[at]),
        };
        match placed.last_mut() {
            Some(last) if last.colour == colour && last.column + last.text.len() == *column => {
                last.text += &text(at);
            }
            _ => placed.push(Placed {
                column: *column,
                text: text(at),
                colour,
            }),
        }
    }
    placed
}

fn plain(column: usize, text: String) -> Placed {
    Placed {
        column,
        text,
        colour: "",
    }
}

/// ANSI's colours.
fn colour(cell: Cell) -> &'static str {
    match cell {
        Cell::Message => "36",
        Cell::Burst => "31;7",
        Cell::Digit => "32",
        Cell::Fixed => "33",
        Cell::Unknown => "2",
    }
}

fn push(text: &mut String, label: &str, placed: Vec<Placed>, colour: bool) {
    *text += &format!("{label:LABEL$}");
    let mut column = 0;
    for part in placed {
        *text += &" ".repeat(part.column - column);
        column = part.column + part.text.chars().count();
        match colour && !part.colour.is_empty() {
            true => *text += &format!("\x1b[{}m{}\x1b[0m", part.colour, part.text),
            false => *text += &part.text,
        }
    }
    text.truncate(text.trim_end().len());
    text.push('\n');
}

fn legend(picture: &Picture) -> String {
    let cells = occurring(picture.cells.iter().copied());
    let mut cells: Vec<String> = cells
        .iter()
        .map(|cell| format!("{} {}", cell.letter(), cell.name()))
        .collect();
    for (mark, name) in [('?', "silent"), ('!', "above q")] {
        if (0..picture.word.len()).any(|at| picture.value(at).contains(mark)) {
            cells.push(format!("{mark} {name}"));
        }
    }
    let kinds = occurring(picture.blocks.iter().map(|block| block.kind));
    let kinds = kinds.iter().filter(|kind| **kind != Kind::Gap);
    let kinds: Vec<String> = kinds
        .map(|kind| format!("{} {}", kind.letter(), kind.name()))
        .collect();
    let kinds = match kinds.is_empty() {
        true => String::new(),
        false => format!("kinds: {}\n", kinds.join(", ")),
    };
    format!("{kinds}cells: {}", cells.join(", "))
}
