//! A picture of a scheme: the rows of a block with what stands in them, and beside them which rows each party sends. It
//! shows why more parties send less: the highest coefficients of a row stand once more in the rows below it.

use crate::rows::{Coefficient, Group, Rows};
use crate::scheme::{Block, Scheme};
use canvas::{width_of, Canvas, LINE, MARGIN};

mod canvas;
mod words;

/// The height of a cell, and what is left free between cells.
const CELL: usize = 38;
const BETWEEN: usize = 4;
/// A cell is as wide as this at least, and as where a copy comes from needs it, so much for each letter.
const NARROWEST_CELL: usize = 58;
const SMALL_LETTER: usize = 6;
/// The height of the line that stands for the rows left out.
const LEFT_OUT: usize = 28;
/// The names of the rows stand before their cells.
const NAMES: usize = 64;
/// From one bracket to the next, and the room for what stands beside it.
const BRACKET: usize = 14;
const BESIDE: usize = 210;
/// What is written above the rows needs this room, however few columns there are.
const NARROWEST: usize = 800;
const FEWEST_COLUMNS: usize = 5;
/// About so many rows are drawn, in all groups together. A group has these at least and at most.
const ROWS_DRAWN: usize = 24;
const FEWEST_OF_A_GROUP: usize = 4;
const MOST_OF_A_GROUP: usize = 12;

/// The picture of an accepted scheme, as an SVG file.
pub fn picture(scheme: &Scheme, block: &Block) -> String {
    let rows = Rows::new(scheme, block);
    let mut drawing = Drawing::new(&rows);
    let title = words::title(scheme);
    drawing.head(&title, &words::introduction(scheme, block));
    drawing.legend();
    for number in 0..rows.groups.len() {
        drawing.group(number);
    }
    drawing.reasons();
    let height = drawing.y + MARGIN - LINE;
    drawing.canvas.document(height, &title, &words::description(scheme, block, &rows.groups))
}

/// A line of a group.
enum Line {
    Row(usize),
    /// So many rows that are not drawn.
    LeftOut(usize),
}

/// The lines of a group: its rows, and where they are too many the first of them and the last.
fn lines(group: &Group, most: usize) -> Vec<Line> {
    let rows = group.rows.clone();
    if rows.len() <= most {
        return rows.map(Line::Row).collect();
    }
    let (first, last) = (rows.start..rows.start + most - 2, rows.end - 1);
    let left_out = Line::LeftOut(rows.len() - first.len() - 1);
    first.map(Line::Row).chain([left_out, Line::Row(last)]).collect()
}

struct Drawing<'a> {
    rows: &'a Rows,
    canvas: Canvas,
    /// Down to here all is drawn.
    y: usize,
    /// Where the first row is.
    top: usize,
    /// The width of a cell.
    cell: usize,
}

impl Drawing<'_> {
    fn new(rows: &Rows) -> Drawing<'_> {
        let cell = widest_origin(rows).max(NARROWEST_CELL);
        let mut drawing = Drawing { rows, canvas: Canvas::new(0), y: MARGIN, top: 0, cell };
        let width = drawing.bracket(0) + BESIDE + MARGIN;
        drawing.canvas = Canvas::new(width.max(NARROWEST));
        drawing
    }

    fn column(&self, degree: usize) -> usize {
        MARGIN + NAMES + (self.cell + BETWEEN) * degree
    }

    /// Where the bracket of a group stands, right of the widest row. The later the group, the longer its bracket and the
    /// nearer to the rows: so no two lines cross, and beside the rows of the group there is room for words.
    fn bracket(&self, number: usize) -> usize {
        let groups = &self.rows.groups;
        self.column(groups[0].d.max(FEWEST_COLUMNS)) + BRACKET * (groups.len() - number)
    }

    fn head(&mut self, title: &str, introduction: &str) {
        self.canvas.text("title", (MARGIN, self.y + 18), title);
        self.y = self.canvas.paragraph("", (MARGIN, self.y + 46), introduction);
    }

    /// What the kinds of cells mean. Only where there are several groups there are copies.
    fn legend(&mut self) {
        let kinds = [
            ("cell key", "key byte"),
            ("cell g0", "message byte"),
            ("cell copy g1", "copy, and where it is from"),
            ("mark g1", "copied into rows of this colour"),
        ];
        let drawn = if self.rows.groups.len() == 1 { 2 } else { kinds.len() };
        let mut x = MARGIN;
        for (class, words) in &kinds[..drawn] {
            let (shape, below) = if class.starts_with("mark") { ((26, 4), 7) } else { ((26, 18), 0) };
            self.canvas.rect(class, (x, self.y + below), shape);
            self.canvas.text("", (x + 34, self.y + 14), words);
            x += 34 + width_of(words) + 24;
        }
        self.y += 18 + 14;
    }

    /// The powers of x over the columns.
    fn powers(&mut self) {
        for degree in 0..self.rows.groups[0].d {
            self.canvas.text("quiet middle", (self.column(degree) + self.cell / 2, self.y + 14), &words::power(degree));
        }
        self.y += LINE;
    }

    /// The rows of a group, and a bracket beside all rows down to them, which are those that its parties send.
    fn group(&mut self, number: usize) {
        let groups = &self.rows.groups;
        let group = &groups[number];
        self.canvas.text("quiet", (self.column(0), self.y + 14), &words::caption(group));
        self.y += LINE + 3;
        if number == 0 {
            self.powers();
            self.top = self.y;
        }
        let start = self.y;
        let most = (ROWS_DRAWN / groups.len()).clamp(FEWEST_OF_A_GROUP, MOST_OF_A_GROUP);
        for line in lines(group, most) {
            match line {
                Line::Row(row) => self.row(number, row),
                Line::LeftOut(many) => self.left_out(many),
            }
        }
        let x = self.bracket(number);
        self.canvas.bracket(&format!("bracket g{number}"), x, self.top, self.y - BETWEEN);
        let [rows, bytes] = words::sent(group);
        self.canvas.text("strong", (x + 12, start + 16), &rows);
        self.canvas.text("", (x + 12, start + 16 + LINE - 2), &bytes);
        self.y += 6;
    }

    fn row(&mut self, number: usize, row: usize) {
        let name = (MARGIN + NAMES - 10, self.y + CELL / 2 + 4);
        self.canvas.text("quiet end", name, &format!("row {row}"));
        for degree in 0..self.rows.groups[number].d {
            self.cell(number, row, degree);
        }
        self.y += CELL + BETWEEN;
    }

    fn cell(&mut self, number: usize, row: usize, degree: usize) {
        let ((x, y), size) = ((self.column(degree), self.y), (self.cell, CELL));
        let (middle, half) = (x + self.cell / 2, y + CELL / 2 + 3);
        match self.rows.coefficient(row, degree) {
            Coefficient::Key(key) => {
                self.canvas.rect("cell key", (x, y), size);
                self.canvas.text("quiet middle", (middle, half), &format!("k{key}"));
            }
            Coefficient::Message(place) => {
                self.canvas.rect("cell g0", (x, y), size);
                self.canvas.text("middle", (middle, half), &format!("m{place}"));
            }
            Coefficient::Copy { place, row, degree } => {
                self.canvas.rect(&format!("cell copy g{number}"), (x, y), size);
                self.canvas.text("middle", (middle, y + 15), &format!("m{place}"));
                self.canvas.text("small middle", (middle, y + 27), &words::origin(row, degree));
            }
        }
        if let Some(copied_into) = self.copied_into(number, degree) {
            self.canvas.rect(&format!("mark g{copied_into}"), (x + 5, y + CELL - 7), (self.cell - 10, 4));
        }
    }

    /// The later group that has copies of this degree of the rows of a group: the first of which the count is no higher.
    fn copied_into(&self, number: usize, degree: usize) -> Option<usize> {
        let later = number + 1..self.rows.groups.len();
        later.into_iter().find(|&later| self.rows.groups[later].d <= degree)
    }

    fn left_out(&mut self, many: usize) {
        let words = format!("… {many} more rows");
        self.canvas.text("quiet", (self.column(0), self.y + 16), &words);
        self.y += LEFT_OUT;
    }

    fn reasons(&mut self) {
        self.y += 14;
        self.canvas.text("strong", (MARGIN, self.y + 14), words::question(&self.rows.groups));
        self.y += 14 + LINE + 3;
        for (number, group) in self.rows.groups.iter().enumerate() {
            self.canvas.rect(&format!("mark g{number}"), (MARGIN, self.y - 10), (10, 10));
            self.y = self.canvas.paragraph("", (MARGIN + 20, self.y), &words::reason(group)) + 4;
        }
    }
}

/// The room for the longest words that say where a copy comes from.
fn widest_origin(rows: &Rows) -> usize {
    let last_row = rows.groups.last().map_or(0, |group| group.rows.end - 1);
    SMALL_LETTER * words::origin(last_row, rows.groups[0].d - 1).chars().count()
}
