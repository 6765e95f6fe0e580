//! Saved texts on both sides of every edge, each with what loading answers: tried on the model by saved.rs, on the
//! library by rust/dock/tests/save.rs.

pub const NAMES: &str = "kind pad program number own opad oprogram onumber first count rights\n";

pub const LOADS: u16 = 0;
pub const NOT_IN_ORDER: u16 = 14;
pub const BAD_TEXT: u16 = 18;

/// A text, what is about it, and the result of loading it.
pub struct Edge {
    pub what: String,
    pub text: String,
    pub result: u16,
}

/// The numbers of a line.
type Row = [u32; 11];

/// A program's last number.
fn last(pad: u32, program: u32, number: u32) -> Row {
    [0, pad, program, number, 0, 0, 0, 0, 0, 0, 0]
}

/// The text of these lines, whatever they say.
fn text(rows: &[Row]) -> String {
    let line = |row: &Row| row.map(|number| number.to_string()).join(" ") + "\n";
    NAMES.to_string() + &rows.iter().map(line).collect::<String>()
}

/// The last numbers of all programs, those given and else 0, and these lines behind them.
fn tables(lasts: &[(u32, u32, u32)], rows: &[Row]) -> Vec<Row> {
    let mut all: Vec<Row> = (0..32).map(|seat| last(seat / 8, seat % 8, 0)).collect();
    for &(pad, program, number) in lasts {
        all[(8 * pad + program) as usize] = last(pad, program, number);
    }
    all.extend(rows);
    all
}

/// What lines stand by.
fn place(row: &Row) -> [u32; 4] {
    [row[0], row[PAD], row[PROGRAM], row[NUMBER]]
}

/// The ward: capture took four sheets, the viewer is lent two of them on the pad, the nurse one of these on hers.
fn ward() -> Vec<Row> {
    tables(
        &[(0, 0, 2), (0, 1, 2), (1, 0, 1)],
        &[
            [1, 0, 0, 1, 0, 0, 0, 0, 0, 4, 7],
            [2, 1, 0, 1, 0, 0, 0, 0, 0, 1, 1],
            [3, 0, 1, 1, 0, 0, 0, 1, 0, 2, 5],
            [4, 0, 0, 2, 1, 0, 1, 1, 0, 0, 0],
            [4, 0, 1, 2, 1, 1, 0, 1, 0, 0, 0],
            [5, 0, 0, 1, 0, 0, 0, 0, 0, 4, 7],
            [5, 1, 0, 1, 0, 0, 0, 1, 0, 1, 1],
        ],
    )
}

/// Where the ward's lines are.
const LAST: usize = 0;
const TAKEN: usize = 32;
const RECEIVED: usize = 33;
const CHILD: usize = 34;
const RECALL: usize = 35;
const FAR_RECALL: usize = 36;
const ENTRY: usize = 37;
const ENTRY_BELOW: usize = 38;

/// Columns.
const PAD: usize = 1;
const PROGRAM: usize = 2;
const NUMBER: usize = 3;
const OWN: usize = 4;
const OPAD: usize = 5;
const OPROGRAM: usize = 6;
const ONUMBER: usize = 7;
const FIRST: usize = 8;
const COUNT: usize = 9;
const RIGHTS: usize = 10;

pub fn ward_text() -> String {
    text(&ward())
}

/// A program with so many taken grants of one sheet each, from its number 1 on, with their entries.
fn taken_by(pad: u32, program: u32, count: u32) -> Vec<Row> {
    let rows = |kind| (1..=count).map(move |number| [kind, pad, program, number, 0, 0, 0, 0, number, 1, 7]);
    rows(1).chain(rows(5)).collect()
}

/// A taken grant of one sheet in every place, with its entry: 256 of both.
pub fn every_place() -> String {
    text(&full())
}

fn full() -> Vec<Row> {
    let lasts: Vec<_> = (0..32).map(|seat| (seat / 8, seat % 8, 65_535)).collect();
    let rows = |kind| {
        (0..256)
            .map(move |place| [kind, place / 64, place / 8 % 8, 65_528 + place % 8, 0, 0, 0, 0, place, 1, 7])
    };
    tables(&lasts, &rows(1).chain(rows(5)).collect::<Vec<_>>())
}

/// Children in a row on pad 0, from program to program, with their recalls; as many as there are places.
pub fn longest_chain() -> String {
    let (mut children, mut recalls) = (Vec::new(), Vec::new());
    for loan in 1..32 {
        let (lender, borrower) = ((loan - 1) % 8, loan % 8);
        let (lent, got) = (2 * ((loan - 1) / 8) + 1, 2 * (loan / 8) + 1);
        children.push([3, 0, borrower, got, 0, 0, lender, lent, 0, 1, 7]);
        recalls.push([4, 0, lender, lent + 1, lent, 0, borrower, got, 0, 0, 0]);
    }
    children.sort_unstable();
    recalls.sort_unstable();
    let lasts: Vec<_> = (0..8).map(|program| (0, program, if program == 7 { 7 } else { 8 })).collect();
    let ends = [[1, 0, 0, 1, 0, 0, 0, 0, 0, 1, 7], [5, 0, 0, 1, 0, 0, 0, 0, 0, 1, 7]];
    text(&tables(&lasts, &[&ends[..1], &children, &recalls, &ends[1..]].concat()))
}

/// The edges, each from the ward by one change or from tables of its own.
struct Edges(Vec<Edge>);

impl Edges {
    fn text(&mut self, what: &str, text: String, result: u16) {
        self.0.push(Edge { what: what.to_string(), text, result });
    }

    fn rows(&mut self, what: &str, rows: &[Row], result: u16) {
        self.text(what, text(rows), result);
    }

    /// The ward with other numbers in a line.
    fn put(&mut self, line: usize, numbers: &[(usize, u32)], result: u16) {
        let mut rows = ward();
        for &(column, number) in numbers {
            rows[line][column] = number;
        }
        self.rows(&format!("line {line} with {numbers:?}"), &rows, result);
    }

    /// The ward with more lines, each where it belongs by kind and name.
    fn more(&mut self, what: &str, more: &[Row], result: u16) {
        let mut rows = ward();
        rows.extend(more);
        rows.sort_by_key(place);
        self.rows(what, &rows, result);
    }

    /// The ward with these characters instead of others, once.
    fn instead(&mut self, old: &str, new: &str, result: u16) {
        let ward = ward_text();
        assert!(ward.contains(old));
        self.text(&format!("{new:?} for {old:?}"), ward.replacen(old, new, 1), result);
    }
}

pub fn edges() -> Vec<Edge> {
    let mut edges = Edges(Vec::new());
    whole_texts(&mut edges);
    forms(&mut edges);
    unused_columns(&mut edges);
    programs(&mut edges);
    order_of_lines(&mut edges);
    room(&mut edges);
    out_of_order(&mut edges);
    edges.0
}

fn whole_texts(edges: &mut Edges) {
    let (ward, names) = (ward_text(), NAMES.trim_end());
    edges.text("the ward", ward.clone(), LOADS);
    edges.text("an emptied dock", text(&tables(&[], &[])), LOADS);
    edges.text("the longest chain", longest_chain(), LOADS);
    edges.text("nothing", String::new(), BAD_TEXT);
    edges.text("byte 10 alone", "\n".to_string(), BAD_TEXT);
    edges.text("the names alone", NAMES.to_string(), BAD_TEXT);
    edges.text("the names without byte 10", names.to_string(), BAD_TEXT);
    edges.text("no names", ward[NAMES.len()..].to_string(), BAD_TEXT);
    edges.text("the names twice", NAMES.to_string() + &ward, BAD_TEXT);
    edges.text("no last byte 10", ward.trim_end().to_string(), BAD_TEXT);
    edges.text("an empty line at the end", ward.clone() + "\n", BAD_TEXT);
    edges.text("an empty line at the start", "\n".to_string() + &ward, BAD_TEXT);
    edges.text("a long text", ward + &"\n".repeat(70_000), BAD_TEXT);
    edges.instead("kind", "Kind", BAD_TEXT);
    edges.instead("rights\n", "right\n", BAD_TEXT);
    edges.instead("rights\n", "rights \n", BAD_TEXT);
    edges.instead("rights\n", "rights\r\n", BAD_TEXT);
}

fn forms(edges: &mut Edges) {
    let line = "0 3 7 0 0 0 0 0 0 0 0\n";
    for other in ["0 3 7 65535 0 0 0 0 0 0 0\n", "0 3 7 9 0 0 0 0 0 0 0\n"] {
        edges.instead(line, other, LOADS);
    }
    for other in [
        "0 3 7 65536 0 0 0 0 0 0 0\n",
        "0 3 7 99999 0 0 0 0 0 0 0\n",
        "0 3 7 131071 0 0 0 0 0 0 0\n",
        "0 3 7 4294967296 0 0 0 0 0 0 0\n",
        "0 3 7 18446744073709551616 0 0 0 0 0 0 0\n",
        "0 3 7 00 0 0 0 0 0 0 0\n",
        "0 3 7 01 0 0 0 0 0 0 0\n",
        "0 3 7 +1 0 0 0 0 0 0 0\n",
        "0 3 7 -1 0 0 0 0 0 0 0\n",
        "0 3 7 1. 0 0 0 0 0 0 0\n",
        "0 3 7 a 0 0 0 0 0 0 0\n",
        "0 3 7 : 0 0 0 0 0 0 0\n",
        "0 3 7 / 0 0 0 0 0 0 0\n",
        "0 3 7  0 0 0 0 0 0 0\n",
        "0 3 7 0 0 0 0 0 0 0\n",
        "0 3 7 0 0 0 0 0 0 0 \n",
        "0 3 7 0 0 0 0 0 0 0 0 \n",
        "0 3 7 0 0 0 0 0 0 0 0 0\n",
        "0 3 7 0 0 0 0 0 0 0 0\r\n",
        "0 3 7 0 0 0 0 0 0 0 0\n\n",
        "0 3 7 0\t0 0 0 0 0 0 0\n",
        "0 3 7  0 0 0 0 0 0 0 0\n",
        " 0 3 7 0 0 0 0 0 0 0 0\n",
        "\n",
        "",
    ] {
        edges.instead(line, other, BAD_TEXT);
    }
}

/// "What a kind doesn't use is 0."
fn unused_columns(edges: &mut Edges) {
    let grants = [OWN, OPAD, OPROGRAM, ONUMBER];
    let program = [&grants[..], &[FIRST, COUNT, RIGHTS]].concat();
    let unused = [
        (LAST, &program[..]),
        (TAKEN, &grants[..]),
        (RECEIVED, &grants[..]),
        (CHILD, &[OWN][..]),
        (RECALL, &[FIRST, COUNT, RIGHTS][..]),
        (ENTRY, &[OWN][..]),
        (ENTRY_BELOW, &[OWN][..]),
    ];
    for (line, columns) in unused {
        for &column in columns {
            edges.put(line, &[(column, 1)], BAD_TEXT);
        }
    }
}

fn programs(edges: &mut Edges) {
    let last_of_all = |kind| [kind, 3, 7, 65_535, 0, 0, 0, 0, 255, 1, 7];
    let rows = tables(&[(3, 7, 65_535)], &[last_of_all(1), last_of_all(5)]);
    edges.rows("the last number of the last program, on the last sheet", &rows, LOADS);
    // The last line of each kind, so that the order of lines does not tell.
    for line in [TAKEN, RECEIVED, CHILD, FAR_RECALL, ENTRY_BELOW] {
        edges.put(line, &[(PAD, 4)], BAD_TEXT);
        edges.put(line, &[(PROGRAM, 8)], BAD_TEXT);
        edges.put(line, &[(PAD, 65_535)], BAD_TEXT);
    }
    for line in [CHILD, RECALL, ENTRY_BELOW] {
        edges.put(line, &[(OPAD, 4)], BAD_TEXT);
        edges.put(line, &[(OPROGRAM, 8)], BAD_TEXT);
        // Some other program of this dock, which is a matter of T3, T5 and T6.
        edges.put(line, &[(OPAD, 3)], NOT_IN_ORDER);
        edges.put(line, &[(OPROGRAM, 7)], NOT_IN_ORDER);
    }
    edges.more("a program of a fifth pad", &[last(4, 0, 0)], BAD_TEXT);
    edges.more("a ninth program", &[last(3, 8, 0)], BAD_TEXT);
    edges.put(ENTRY_BELOW, &[(0, 6)], BAD_TEXT);
    edges.put(ENTRY_BELOW, &[(0, 65_535)], BAD_TEXT);
    // A recall may name a number of another pad that is dead.
    let mut rows = ward();
    rows[0] = last(0, 0, 3);
    rows[31] = last(3, 7, 1);
    rows.insert(FAR_RECALL, [4, 0, 0, 3, 1, 3, 7, 1, 0, 0, 0]);
    edges.rows("a recall of the last program's number", &rows, LOADS);
}

fn order_of_lines(edges: &mut Edges) {
    for (one, two) in
        [(0, 1), (30, 31), (31, 32), (TAKEN, RECEIVED), (RECALL, FAR_RECALL), (ENTRY, ENTRY_BELOW)]
    {
        let mut rows = ward();
        rows.swap(one, two);
        edges.rows(&format!("lines {one} and {two} exchanged"), &rows, BAD_TEXT);
    }
    for line in 0..ward().len() {
        let mut rows = ward();
        rows.insert(line, rows[line]);
        edges.rows(&format!("line {line} twice"), &rows, BAD_TEXT);
    }
    let mut rows = ward();
    rows.insert(ENTRY + 1, [5, 0, 0, 1, 0, 0, 0, 0, 9, 1, 7]);
    edges.rows("two entries of one name", &rows, BAD_TEXT);
    for program in [0, 1, 17, 31] {
        let mut rows = ward();
        let [_, pad, number, ..] = rows.remove(program);
        edges.rows(&format!("no kind 0 line of {pad} {number}"), &rows, BAD_TEXT);
        // A higher number, which is above the line before it.
        let mut rows = ward();
        rows.insert(program + 1, last(pad, number, rows[program][NUMBER] + 1));
        edges.rows(&format!("two kind 0 lines of {pad} {number}"), &rows, BAD_TEXT);
    }
}

fn room(edges: &mut Edges) {
    edges.rows("eight tickets of a program", &tables(&[(2, 5, 8)], &taken_by(2, 5, 8)), LOADS);
    edges.rows("nine tickets of a program", &tables(&[(2, 5, 9)], &taken_by(2, 5, 9)), BAD_TEXT);
    // Capture has a grant and a recall.
    let more: Vec<Row> = (2..=8).map(|number| [3, 0, 0, number, 0, 0, 1, 1, 0, 0, 0]).collect();
    edges.more("eight tickets that break T1 and T2", &more[..6], NOT_IN_ORDER);
    edges.more("nine tickets that break T1 and T2", &more, BAD_TEXT);
    edges.text("256 taken grants and entries", every_place(), LOADS);
    let mut rows = full();
    rows.push([5, 3, 7, 65_535 - 8, 0, 0, 0, 0, 0, 0, 0]);
    rows.sort_by_key(place);
    edges.rows("257 entries", &rows, BAD_TEXT);
    rows.pop();
    edges.rows("256 entries, one of no grant", &rows, NOT_IN_ORDER);
}

/// In form, with tables that break T1 to T6.
fn out_of_order(edges: &mut Edges) {
    // T1.
    for line in [TAKEN, RECEIVED, CHILD, RECALL] {
        edges.put(line, &[(NUMBER, 0)], NOT_IN_ORDER);
        edges.put(line, &[(NUMBER, 65_535)], NOT_IN_ORDER);
    }
    edges.put(LAST, &[(NUMBER, 1)], NOT_IN_ORDER);
    edges.more("a number of two kinds", &[[2, 0, 0, 1, 0, 0, 0, 0, 0, 4, 7]], NOT_IN_ORDER);
    // T2, and an end beyond 16 bits.
    for line in [TAKEN, RECEIVED, CHILD] {
        for wrong in [(COUNT, 0), (COUNT, 257), (FIRST, 256), (RIGHTS, 0), (RIGHTS, 8), (RIGHTS, 65_535)] {
            edges.put(line, &[wrong], NOT_IN_ORDER);
        }
        edges.put(line, &[(FIRST, 65_535), (COUNT, 2)], NOT_IN_ORDER);
    }
    // T3: no parent, a parent of another pad, a ring.
    edges.put(CHILD, &[(ONUMBER, 0)], NOT_IN_ORDER);
    edges.put(CHILD, &[(ONUMBER, 2)], NOT_IN_ORDER);
    edges.put(CHILD, &[(OPAD, 1)], NOT_IN_ORDER);
    edges.put(CHILD, &[(OPROGRAM, 1)], NOT_IN_ORDER);
    edges.put(CHILD, &[(COUNT, 5)], NOT_IN_ORDER);
    let ring = [
        [3, 0, 0, 1, 0, 0, 1, 1, 0, 1, 7],
        [3, 0, 1, 1, 0, 0, 0, 1, 0, 1, 7],
        [4, 0, 0, 2, 1, 0, 1, 1, 0, 0, 0],
        [4, 0, 1, 2, 1, 0, 0, 1, 0, 0, 0],
    ];
    edges.rows("a ring of children", &tables(&[(0, 0, 2), (0, 1, 2)], &ring), NOT_IN_ORDER);
    // T5: what names no grant or another one, and a parent that is neither the store nor an entry.
    for line in [ENTRY, ENTRY_BELOW] {
        edges.put(line, &[(NUMBER, 0)], NOT_IN_ORDER);
        edges.put(line, &[(COUNT, 3)], NOT_IN_ORDER);
        edges.put(line, &[(RIGHTS, 2)], NOT_IN_ORDER);
        edges.put(line, &[(ONUMBER, 9)], NOT_IN_ORDER);
        edges.put(line, &[(OPAD, 1), (OPROGRAM, 0), (ONUMBER, 0)], NOT_IN_ORDER);
        edges.put(line, &[(OPAD, 0), (OPROGRAM, 1), (ONUMBER, 0)], NOT_IN_ORDER);
        edges.put(line, &[(OPAD, 3), (OPROGRAM, 7), (ONUMBER, 0)], NOT_IN_ORDER);
    }
    edges.put(ENTRY_BELOW, &[(ONUMBER, 0)], NOT_IN_ORDER);
    let mut rows = ward();
    rows.remove(ENTRY_BELOW);
    edges.rows("a loan whose entry has gone", &rows, LOADS);
    rows.remove(ENTRY);
    edges.rows("a taken grant without its entry", &rows, NOT_IN_ORDER);
    // T6.
    edges.put(RECALL, &[(OWN, 0)], NOT_IN_ORDER);
    edges.put(RECALL, &[(OWN, 2)], NOT_IN_ORDER);
    edges.put(RECALL, &[(ONUMBER, 0)], NOT_IN_ORDER);
    edges.put(FAR_RECALL, &[(ONUMBER, 0)], NOT_IN_ORDER);
    edges.put(FAR_RECALL, &[(ONUMBER, 2)], NOT_IN_ORDER);
    for line in [RECALL, FAR_RECALL] {
        let mut rows = ward();
        rows.remove(line);
        edges.rows("a loan without its recall", &rows, NOT_IN_ORDER);
    }
    // Of a text that is wrong in both ways the form is told.
    edges.put(TAKEN, &[(COUNT, 0), (OWN, 1)], BAD_TEXT);
    edges.put(ENTRY_BELOW, &[(OPAD, 4), (ONUMBER, 0)], BAD_TEXT);
}
