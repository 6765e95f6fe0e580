//! The report for the eye, as a picture: the map of the store on the left, the loans as a tree beside it. It has a background of its
//! own, no scripts and no fonts but the viewer's.

use crate::report::{Report, Row};
use std::fmt::Write;

/// The height of a line, and the side of a sheet in the map.
const LINE: usize = 20;
/// Where the first line and the first sheet are.
const TOP: usize = 50;
const MAP: usize = 50;
/// The tree's left edge, and how far a loan stands in.
const TREE: usize = MAP + 16 * LINE + 40;
const STEP: usize = 18;

/// Colours of taken grants, in turn.
const COLOURS: [&str; 8] =
    ["#a6cee3", "#b2df8a", "#fdbf6f", "#cab2d6", "#fb9a99", "#ffed6f", "#8dd3c7", "#d8b08c"];

/// A picture under way.
struct Picture(String);

impl Picture {
    fn add(&mut self, element: std::fmt::Arguments) {
        writeln!(self.0, "{element}").expect("text grows");
    }

    fn words(&mut self, x: usize, y: usize, words: &str) {
        self.add(format_args!("<text x=\"{x}\" y=\"{}\">{words}</text>", y + 15));
    }

    /// A square with the letter of a taken grant.
    fn square(&mut self, x: usize, y: usize, grant: &Row) {
        let colour = COLOURS[grant.taken % COLOURS.len()];
        self.add(format_args!(
            "<rect x=\"{x}\" y=\"{y}\" width=\"{LINE}\" height=\"{LINE}\" fill=\"{colour}\" stroke=\"#ffffff\"/>"
        ));
        self.words(x + 6, y, &grant.letter().to_string());
    }
}

pub fn picture(report: &Report) -> String {
    let deepest = report.rows.iter().map(|row| row.depth).max().unwrap_or(0);
    let columns = label_at(deepest) + 140;
    let (width, height) = (columns + 160, TOP + LINE * report.rows.len().max(16) + 30);
    let mut picture = Picture(String::new());
    picture.add(format_args!(
        "<svg xmlns=\"http://www.w3.org/2000/svg\" width=\"{width}\" height=\"{height}\" \
         viewBox=\"0 0 {width} {height}\" font-family=\"monospace\" font-size=\"13\" fill=\"#222222\">"
    ));
    picture.add(format_args!("<title>Ward report</title>"));
    picture.add(format_args!("<rect width=\"{width}\" height=\"{height}\" fill=\"#ffffff\"/>"));
    map(&mut picture, report);
    tree(&mut picture, report, columns);
    picture.add(format_args!("</svg>"));
    picture.0
}

/// Sixteen sheets to a line, the first one's number in front.
fn map(picture: &mut Picture, report: &Report) {
    picture.words(MAP, TOP - LINE - 5, &report.totals());
    let side = 16 * LINE;
    picture.add(format_args!(
        "<rect x=\"{MAP}\" y=\"{TOP}\" width=\"{side}\" height=\"{side}\" fill=\"#eeeeee\"/>"
    ));
    for line in 0..16 {
        picture.words(MAP - 30, TOP + LINE * line, &(16 * line).to_string());
    }
    for (sheet, grant) in report.map().iter().enumerate() {
        if let Some(grant) = grant {
            picture.square(MAP + LINE * (sheet % 16), TOP + LINE * (sheet / 16), grant);
        }
    }
}

fn tree(picture: &mut Picture, report: &Report, columns: usize) {
    for (x, words) in [(TREE, "pad/program/ticket"), (columns, "sheets"), (columns + 80, "rights")] {
        picture.words(x, TOP - LINE - 5, words);
    }
    // The lines of the row at hand and of its lenders.
    let mut lenders: Vec<usize> = Vec::new();
    for (at, row) in report.rows.iter().enumerate() {
        let (x, y) = (label_at(row.depth), TOP + LINE * at);
        lenders.truncate(row.depth);
        match lenders.last() {
            None => picture.square(TREE, y, row),
            Some(&lender) => picture.add(format_args!(
                "<path d=\"M{} {}V{}H{}\" fill=\"none\" stroke=\"#888888\"/>",
                x - STEP + 4,
                TOP + LINE * lender + 18,
                y + LINE / 2,
                x - 3
            )),
        }
        lenders.push(at);
        picture.words(x, y, &row.name);
        picture.words(columns, y, &row.range());
        picture.words(columns + 80, y, &row.rights());
    }
}

/// Where the names of this depth begin.
fn label_at(depth: usize) -> usize {
    TREE + 28 + STEP * depth
}
