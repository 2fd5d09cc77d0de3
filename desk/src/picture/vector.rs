//! A picture as an SVG.

use super::wrap::Measure;
use super::{occurring, Cell, Kind, Picture};
use crate::svg::Svg;

/// The widest picture. A short strip's is narrower, as far as its legend lets it.
const WIDTH: f64 = 980.0;
const MARGIN: f64 = 24.0;
/// Between two blocks.
const GAP: f64 = 5.0;
const CELL_HEIGHT: f64 = 26.0;
const ROW_HEIGHT: f64 = 18.0;
/// Between a line of cells and the next.
const LEADING: f64 = 22.0;
const HEAD: f64 = 70.0;
const LEGEND: f64 = 44.0;

const STYLE: &str = "\
.cell { stroke: #8a8a85; stroke-width: 0.7; }
.message { fill: #dcebf7; }
.burst { fill: url(#hatch); }
.digit { fill: #bfe6d2; }
.fixed { fill: #f2dc8c; }
.unknown { fill: #ececea; }
.silent { fill: #ffffff; fill-opacity: 0.75; stroke: #a0006d; stroke-width: 1.4; stroke-dasharray: 3 2; }
.bracket { fill: none; stroke: #777; stroke-width: 1; }
.under { fill: none; stroke: #c2571a; stroke-width: 2; }
.refused { fill: #a01010; }
";

const HATCH: &str = "\
<defs><pattern id=\"hatch\" width=\"6\" height=\"6\" patternUnits=\"userSpaceOnUse\" patternTransform=\"rotate(45)\">\
<rect width=\"6\" height=\"6\" fill=\"#fbe0d0\"/><rect width=\"2\" height=\"6\" fill=\"#f2b08c\"/></pattern></defs>";

pub fn drawn(picture: &Picture) -> String {
    let width = if picture.value_len() == 1 { 15.0 } else { 21.0 };
    let edges = edges(picture, width);
    let rows = picture.rows.len() as f64;
    let line_height = ROW_HEIGHT * (rows + 2.0) + CELL_HEIGHT + LEADING;
    let lines = edges.last().map_or(0, |edge| edge.line + 1);
    let height = HEAD + line_height * lines as f64 + LEGEND;
    let legend = Legend::of(picture);
    let widest = edges
        .iter()
        .map(|edge| edge.x + width)
        .fold(legend.right, f64::max);
    let mut svg = Svg::new(widest + MARGIN, height, &picture.title, STYLE);
    svg.raw(HATCH);
    svg.text(MARGIN, 30.0, "title", &picture.title);
    let class = if picture.refusal.is_some() {
        "refused"
    } else {
        ""
    };
    svg.text(MARGIN, 50.0, class, &picture.note);
    let drawing = Drawing {
        picture,
        width,
        edges,
        line_height,
    };
    for (i, row) in picture.rows.iter().enumerate() {
        for (number, cells) in row.stretches.iter().enumerate() {
            drawing.bracket(&mut svg, cells, i as f64, (row.label, number));
        }
    }
    drawing.kinds(&mut svg, rows);
    drawing.cells(&mut svg, rows + 1.0);
    drawing.positions(&mut svg, rows + 1.0);
    drawing.bursts(&mut svg, rows + 1.0);
    legend.draw(&mut svg, height - LEGEND + 18.0);
    svg.finish()
}

/// A cell's line, and its left edge.
#[derive(Clone, Copy)]
struct Edge {
    line: usize,
    x: f64,
}

fn edges(picture: &Picture, width: f64) -> Vec<Edge> {
    let measure = Measure {
        room: (WIDTH - 2.0 * MARGIN) as usize,
        cell: width as usize,
        pitch: width as usize,
        gap: GAP as usize,
    };
    let spots = measure.spots(&picture.blocks).into_iter();
    spots
        .map(|spot| Edge {
            line: spot.line,
            x: MARGIN + spot.x as f64,
        })
        .collect()
}

struct Drawing<'a> {
    picture: &'a Picture,
    width: f64,
    edges: Vec<Edge>,
    line_height: f64,
}

impl Drawing<'_> {
    /// The upper edge of a row of a line.
    fn y(&self, line: usize, row: f64) -> f64 {
        HEAD + self.line_height * line as f64 + ROW_HEIGHT * row
    }

    /// The pieces of a stretch, one for each line that it is on: line, left and right edge.
    fn pieces(&self, cells: &super::Cells) -> Vec<(usize, f64, f64)> {
        let mut pieces: Vec<(usize, f64, f64)> = Vec::new();
        for edge in &self.edges[cells.clone()] {
            let right = edge.x + self.width;
            match pieces.last_mut() {
                Some(piece) if piece.0 == edge.line => piece.2 = right,
                _ => pieces.push((edge.line, edge.x, right)),
            }
        }
        pieces
    }

    /// A bracket with its name, or with the number alone where it is too short for that.
    fn bracket(&self, svg: &mut Svg, cells: &super::Cells, row: f64, name: (&str, usize)) {
        for (line, left, right) in self.pieces(cells) {
            let bottom = self.y(line, row) + ROW_HEIGHT - 2.0;
            let (left, right, top) = (left + 0.5, right - 0.5, bottom - 3.0);
            svg.polyline(
                &[(left, bottom), (left, top), (right, top), (right, bottom)],
                "bracket",
            );
            let fits = |name: &String| name.len() as f64 * LETTER <= right - left + GAP;
            let names = [format!("{} {}", name.0, name.1), name.1.to_string()];
            if let Some(name) = names.iter().find(|name| fits(name)) {
                svg.text((left + right) / 2.0, top - 3.0, "faint middle", name);
            }
        }
    }

    fn kinds(&self, svg: &mut Svg, row: f64) {
        for block in &self.picture.blocks {
            for (line, left, right) in self.pieces(&block.cells) {
                let letter = block.kind.letter().to_string();
                svg.text(
                    (left + right) / 2.0,
                    self.y(line, row) + ROW_HEIGHT - 5.0,
                    "mono middle",
                    letter.trim_end(),
                );
            }
        }
    }

    /// A line below each burst, so that bursts side by side are seen apart.
    fn bursts(&self, svg: &mut Svg, row: f64) {
        for burst in &self.picture.bursts {
            for (line, left, right) in self.pieces(burst) {
                let y = self.y(line, row) + CELL_HEIGHT + 2.5;
                svg.line((left + 1.5, y), (right - 1.5, y), "under");
            }
        }
    }

    /// Values in their cells.
    fn cells(&self, svg: &mut Svg, row: f64) {
        for (at, edge) in self.edges.iter().enumerate() {
            let y = self.y(edge.line, row);
            svg.rect(
                edge.x,
                y,
                self.width,
                CELL_HEIGHT,
                cell_class(self.picture.cells[at]),
            );
            if self.picture.is_silent(at) {
                svg.rect(
                    edge.x + 1.5,
                    y + 1.5,
                    self.width - 3.0,
                    CELL_HEIGHT - 3.0,
                    "silent",
                );
            }
            let value = self.picture.value(at);
            svg.text(edge.x + self.width / 2.0, y + 17.5, "mono middle", &value);
        }
    }

    /// Below each block's first cell, and each line's, its position, where the one before leaves room.
    fn positions(&self, svg: &mut Svg, row: f64) {
        let mut free = (0, 0.0);
        let first_on_line =
            |at: &usize| *at == 0 || self.edges[*at].line > self.edges[*at - 1].line;
        let is_head = |at: &usize| {
            self.picture
                .blocks
                .iter()
                .any(|block| block.cells.start == *at)
        };
        for at in (0..self.edges.len()).filter(|at| first_on_line(at) || is_head(at)) {
            let Edge { line, x } = self.edges[at];
            if line > free.0 || x >= free.1 {
                svg.text(
                    x,
                    self.y(line, row) + CELL_HEIGHT + 15.0,
                    "faint",
                    &at.to_string(),
                );
                free = (line, x + 7.5 * at.to_string().len() as f64 + 4.0);
            }
        }
    }
}

fn cell_class(cell: Cell) -> &'static str {
    match cell {
        Cell::Message => "cell message",
        Cell::Burst => "cell burst",
        Cell::Digit => "cell digit",
        Cell::Fixed => "cell fixed",
        Cell::Unknown => "cell unknown",
    }
}

/// Names beside squares of their class, and names alone, each with its left edge.
struct Legend {
    entries: Vec<(f64, &'static str, String)>,
    right: f64,
}

/// A character of the legend, about; a square with its room; and what is between two entries.
const LETTER: f64 = 7.0;
const SQUARE: f64 = 20.0;
const SPACE: f64 = 24.0;

impl Legend {
    fn of(picture: &Picture) -> Legend {
        let mut legend = Legend {
            entries: Vec::new(),
            right: MARGIN,
        };
        for cell in occurring(picture.cells.iter().copied()) {
            legend.add(cell_class(cell), cell.name().into());
        }
        if (0..picture.word.len()).any(|at| picture.is_silent(at)) {
            legend.add("silent", "silent".into());
        }
        for kind in occurring(picture.blocks.iter().map(|block| block.kind)) {
            if kind != Kind::Gap {
                legend.add("", format!("{} {}", kind.letter(), kind.name()));
            }
        }
        legend.right -= SPACE;
        legend
    }

    fn add(&mut self, class: &'static str, name: String) {
        let square = if class.is_empty() { 0.0 } else { SQUARE };
        let width = square + LETTER * name.len() as f64 + SPACE;
        self.entries.push((self.right, class, name));
        self.right += width;
    }

    fn draw(&self, svg: &mut Svg, y: f64) {
        for (x, class, name) in &self.entries {
            let mut x = *x;
            if !class.is_empty() {
                svg.rect(x, y - 11.0, 14.0, 14.0, class);
                x += SQUARE;
            }
            svg.text(x, y, "", name);
        }
    }
}
