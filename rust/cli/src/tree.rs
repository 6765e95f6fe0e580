//! The report for the eye, as text: the loans as a tree, and a map of the store.

use crate::report::{Report, Row};

const HEADING: [&str; 3] = ["pad/program/ticket", "sheets", "rights"];

pub fn text(report: &Report) -> String {
    let labels = labels(&report.rows);
    let width = labels.iter().map(|label| label.chars().count()).fold(HEADING[0].len(), usize::max);
    let line = |label: &str, sheets: &str, rights: &str| format!("{label:<width$}  {sheets:<7}  {rights}\n");
    let mut text = line(HEADING[0], HEADING[1], HEADING[2]);
    for (row, label) in report.rows.iter().zip(&labels) {
        text += &line(label, &row.range(), &row.rights());
    }
    text + "\n" + &map(report) + "\n" + &report.totals() + "\n"
}

/// Each ticket's name behind the lines that lead to it; a taken grant's behind its letter.
fn labels(rows: &[Row]) -> Vec<String> {
    // What stands in front of the loans of the row at hand: for each depth a line that goes on, or none.
    let mut lines: Vec<&str> = Vec::new();
    let label = |row: &Row| {
        lines.truncate(row.depth);
        let before = lines.concat();
        lines.push(if row.depth > 0 && row.more { "│ " } else { "  " });
        match (row.depth, row.more) {
            (0, _) => format!("{} {}", row.letter(), row.name),
            (_, true) => format!("{before}├─{}", row.name),
            (_, false) => format!("{before}└─{}", row.name),
        }
    };
    rows.iter().map(label).collect()
}

/// Sixteen sheets to a line, the first one's number in front.
fn map(report: &Report) -> String {
    let letters = report.map().map(|grant| grant.map_or('.', Row::letter));
    let line =
        |(at, sheets): (usize, &[char])| format!("{:>3}  {}\n", 16 * at, sheets.iter().collect::<String>());
    letters.chunks(16).enumerate().map(line).collect()
}
