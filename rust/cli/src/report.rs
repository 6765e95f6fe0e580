//! The report's text, read back for drawing. It is the only source of what is drawn.

use dock::rights;
use std::ops::Range;

pub const SHEETS: usize = 256;

/// Letters of taken grants; behind the last they begin again.
const LETTERS: &[u8] = b"ABCDEFGHIJKLMNOPQRSTUVWXYZabcdefghijklmnopqrstuvwxyz0123456789";

/// A line of the report: a ticket.
pub struct Row {
    pub depth: usize,
    /// Pad, program and number.
    pub name: String,
    pub sheets: Range<usize>,
    rights: usize,
    /// Which taken grant it stands under, or is, from 0.
    pub taken: usize,
    /// Does its lender have a loan behind it?
    pub more: bool,
}

impl Row {
    fn of(line: &str) -> Self {
        let numbers = numbers(line);
        let [depth, pad, program, ticket, first, count, rights] = numbers[..] else {
            panic!("no line of a report: {line}")
        };
        let (name, sheets) = (format!("{pad}/{program}/{ticket}"), first..first + count);
        Row { depth, name, sheets, rights, taken: 0, more: false }
    }

    /// The sheets of the store: `7`, or `0-3`.
    pub fn range(&self) -> String {
        match self.sheets.len() {
            1 => self.sheets.start.to_string(),
            _ => format!("{}-{}", self.sheets.start, self.sheets.end - 1),
        }
    }

    /// Read, write, pass on; `-` for what is missing.
    pub fn rights(&self) -> String {
        let letters = [('r', rights::READ), ('w', rights::WRITE), ('p', rights::PASS_ON)];
        letters
            .map(|(letter, right)| if self.rights & usize::from(right) != 0 { letter } else { '-' })
            .iter()
            .collect()
    }

    pub fn letter(&self) -> char {
        LETTERS[self.taken % LETTERS.len()] as char
    }
}

pub struct Report {
    pub rows: Vec<Row>,
    /// Sheets taken and sheets free.
    pub taken: usize,
    pub free: usize,
}

impl Report {
    pub fn of(text: &str) -> Self {
        let lines: Vec<&str> = text.lines().skip(1).collect();
        let (last, lines) = lines.split_last().expect("a report has its last line");
        let [taken, free] = numbers(last)[..] else { panic!("no last line of a report: {last}") };
        let mut rows: Vec<Row> = lines.iter().map(|line| Row::of(line)).collect();
        let mut grants = 0;
        for at in 0..rows.len() {
            grants += usize::from(rows[at].depth == 0);
            rows[at].taken = grants - 1;
            let behind = rows[at + 1..].iter().find(|row| row.depth <= rows[at].depth);
            rows[at].more = behind.is_some_and(|row| row.depth == rows[at].depth);
        }
        Report { rows, taken, free }
    }

    /// The taken grant of each sheet.
    pub fn map(&self) -> [Option<&Row>; SHEETS] {
        let mut map = [None; SHEETS];
        for row in self.rows.iter().filter(|row| row.depth == 0) {
            map[row.sheets.clone()].fill(Some(row));
        }
        map
    }

    pub fn totals(&self) -> String {
        format!("sheets: {} taken, {} free", self.taken, self.free)
    }
}

fn numbers(line: &str) -> Vec<usize> {
    line.split(' ').map(|number| number.parse().expect("a report has numbers")).collect()
}
