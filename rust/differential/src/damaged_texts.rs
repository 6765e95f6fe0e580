//! Saved texts with bytes, numbers or lines changed, as a failing disk or a careless hand could. Which of them load, the model says.

use image::random::Rng;

/// The numbers of a line; they may be too large for one.
type Row = [u32; 11];

/// Columns.
const KIND: usize = 0;
const PAD: usize = 1;
const NUMBER: usize = 3;
const OTHER: usize = 5;

const RECALL: u32 = 4;
const ENTRY: u32 = 5;

/// A text in the place of a saved one.
pub fn damaged(rng: &mut Rng, text: &str) -> Vec<u8> {
    if rng.once_in(4) {
        return other_bytes(rng, text.as_bytes().to_vec());
    }
    let (names, lines) = text.split_once('\n').expect("a saved text has names");
    let mut rows: Vec<Row> = lines.lines().map(row).collect();
    for _ in 0..1 + rng.below(2) {
        change(rng, &mut rows);
    }
    if rng.once_in(2) {
        rows.sort_unstable();
    }
    let mut lines: Vec<String> =
        rows.iter().map(|row| row.map(|number| number.to_string()).join(" ")).collect();
    if rng.once_in(4) {
        other_form(rng, &mut lines);
    }
    format!("{names}\n{}\n", lines.join("\n")).into_bytes()
}

fn row(line: &str) -> Row {
    let numbers: Vec<u32> = line.split(' ').map(|number| number.parse().expect("a number")).collect();
    numbers.try_into().expect("eleven numbers")
}

/// Another text of bytes.
fn other_bytes(rng: &mut Rng, mut text: Vec<u8>) -> Vec<u8> {
    let at = rng.below(text.len());
    match rng.below(8) {
        0 => text.truncate(at),
        1 => text[at] ^= 1 << rng.below(8),
        2 => text[at] = rng.word() as u8,
        3 => text[at] = b"0123456789 \n"[rng.below(12)],
        4 => text.insert(at, b"0123456789 \n"[rng.below(12)]),
        5 => drop(text.remove(at)),
        6 => text.truncate(text.iter().take(at).rposition(|&byte| byte == b'\n').map_or(0, |end| end + 1)),
        _ => text = (0..at).map(|_| rng.word() as u8).collect(),
    }
    text
}

/// Another form of a line, or of two.
fn other_form(rng: &mut Rng, lines: &mut Vec<String>) {
    let at = rng.below(lines.len());
    let line = &mut lines[at];
    match rng.below(9) {
        0 => line.push_str(" 0"),
        1 => line.truncate(line.rfind(' ').unwrap_or(0)),
        2 => *line = line.replacen(' ', "  ", 1),
        3 => *line = line.replacen(' ', " 0", 1),
        4 => line.push(' '),
        5 => line.insert(0, ' '),
        6 => line.push('\r'),
        7 => line.clear(),
        _ => {
            // Two lines become one.
            let next = lines.remove((at + 1) % lines.len());
            lines.first_mut().expect("32 lines and more").push_str(&next);
        }
    }
}

/// Other lines.
fn change(rng: &mut Rng, rows: &mut Vec<Row>) {
    let (at, other, column) = (line(rng, rows), line(rng, rows), rng.below(11));
    let (next, program) = ((at + 1) % rows.len(), rng.below(rows.len().min(32)));
    match rng.below(16) {
        0 => drop(rows.remove(at)),
        1 => rows.insert(at, rows[at]),
        2 => rows.swap(at, other),
        3 => rows.swap(at, next),
        4 | 5 => rows[at][column] = rows[at][column].saturating_add(1),
        6 => rows[at][column] = rows[at][column].saturating_sub(1),
        7 => rows[at][column] = u32::from(rng.edge()),
        8 => rows[at][column] = [65_535, 65_536, 99_999, 131_072][rng.below(4)],
        9 => rows[at][column] = rows[other][column],
        10 => rows[at] = rows[other],
        11 => tickets(rng, rows),
        12 => entries(rng, rows),
        13 => store_beside_0(rng, rows),
        14 => programs(rng, rows),
        // A higher last number is in order.
        _ => rows[program][NUMBER] += [1, 2, 9, 60_000][rng.below(4)],
    }
}

/// Mostly a line of a ticket or an entry, where there is one.
fn line(rng: &mut Rng, rows: &[Row]) -> usize {
    let programs = rows.iter().take_while(|row| row[KIND] == 0).count();
    if programs < rows.len() && !rng.once_in(5) {
        programs + rng.below(rows.len() - programs)
    } else {
        rng.below(rows.len())
    }
}

/// A program has no line of kind 0, or a second one with a higher number.
fn programs(rng: &mut Rng, rows: &mut Vec<Row>) {
    let at = [0, 31, rng.below(32)][rng.below(3)].min(rows.len() - 1);
    let mut again = rows[at];
    again[NUMBER] += 1;
    if rng.once_in(2) {
        rows.insert(at + 1, again);
    } else {
        rows.remove(at);
    }
}

/// A program has seven to ten tickets, under new numbers: recalls of nothing, which are in order where a grant may lend.
fn tickets(rng: &mut Rng, rows: &mut Vec<Row>) {
    let at = line(rng, rows);
    let [_, pad, program, number, ..] = rows[at];
    let of_program = |row: &&Row| (1..=RECALL).contains(&row[KIND]) && row[PAD..NUMBER] == [pad, program];
    let (count, wanted) = (rows.iter().filter(of_program).count(), 7 + rng.below(4));
    let last = rows.iter().filter(|row| row[PAD..NUMBER] == [pad, program]).map(|row| row[NUMBER]).max();
    for new in 1..=wanted.saturating_sub(count) as u32 {
        let number_of_new = last.unwrap_or(0) + new;
        rows.push([RECALL, pad, program, number_of_new, number, (pad + 1) % 4, new % 8, 1, 0, 0, 0]);
    }
    if let Some(row) = rows.iter_mut().find(|row| row[..NUMBER] == [0, pad, program]) {
        row[NUMBER] = row[NUMBER].max(last.unwrap_or(0) + wanted as u32);
    }
}

/// So many entries, around 256, that most name no grant.
fn entries(rng: &mut Rng, rows: &mut Vec<Row>) {
    let wanted = 254 + rng.below(5);
    let count = rows.iter().filter(|row| row[KIND] == ENTRY).count();
    for new in count..wanted {
        let (seat, number) = (new as u32 % 32, 60_000 + new as u32);
        rows.push([ENTRY, seat / 8, seat % 8, number, 0, 0, 0, 0, 0, 1, 7]);
    }
}

/// The parent of an entry under the store gets a pad or a program.
fn store_beside_0(rng: &mut Rng, rows: &mut [Row]) {
    let under_store = |row: &Row| row[KIND] == ENTRY && row[OTHER + 2] == 0;
    let found: Vec<usize> = (0..rows.len()).filter(|&at| under_store(&rows[at])).collect();
    if let Some(at) = rng.pick(&found) {
        rows[at][OTHER + rng.below(2)] = 1 + rng.below(8) as u32;
    }
}
