//! The tables as text, document 02's fourth request: saved at one dock, loaded at the next.

use crate::text::{line, numbers};
use crate::{Entry, Grant, Name, Refusal, Sheets, Source, State, Ticket, SEATS};
use std::collections::BTreeMap;

const NAMES: &str = "kind pad program number own opad oprogram onumber first count rights";

/// Numbers of a line.
const COLUMNS: usize = 11;

/// Kinds of line.
const LAST: u16 = 0;
const TAKEN: u16 = 1;
const RECEIVED: u16 = 2;
const CHILD: u16 = 3;
const RECALL: u16 = 4;
const ENTRY: u16 = 5;

/// "At most 256 entries can exist."
const ENTRIES: usize = 256;

/// What a kind does not use is 0.
const NO_NAME: Name = Name { pad: 0, program: 0, number: 0 };
const NO_SHEETS: Sheets = Sheets { first: 0, count: 0 };

/// A line.
#[derive(Clone, Copy)]
struct Row {
    kind: u16,
    /// Of a program the number is the last that it was given.
    name: Name,
    own: u16,
    other: Name,
    sheets: Sheets,
    rights: u16,
}

impl Row {
    /// A line that uses no more than these.
    fn of(kind: u16, name: Name) -> Self {
        Row { kind, name, own: 0, other: NO_NAME, sheets: NO_SHEETS, rights: 0 }
    }

    fn of_ticket(name: Name, ticket: &Ticket) -> Self {
        match *ticket {
            Ticket::Recall { own, target } => Row { own, other: target, ..Row::of(RECALL, name) },
            Ticket::Grant(Grant { source, sheets, rights, .. }) => {
                let (kind, other) = match source {
                    Source::Taken => (TAKEN, NO_NAME),
                    Source::Received => (RECEIVED, NO_NAME),
                    Source::Child { parent } => (CHILD, parent),
                };
                Row { other, sheets, rights, ..Row::of(kind, name) }
            }
        }
    }

    fn of_entry(name: Name, entry: &Entry) -> Self {
        let Entry { parent, sheets, rights } = *entry;
        Row { other: parent.unwrap_or(NO_NAME), sheets, rights, ..Row::of(ENTRY, name) }
    }

    /// "Zeros meaning the store."
    fn entry(&self) -> Entry {
        let parent = (self.other != NO_NAME).then_some(self.other);
        Entry { parent, sheets: self.sheets, rights: self.rights }
    }

    /// The ticket; a child's dock name is that of the head of its chain.
    fn ticket(&self, dock: Name) -> Ticket {
        let source = match self.kind {
            RECALL => return Ticket::Recall { own: self.own, target: self.other },
            TAKEN => Source::Taken,
            RECEIVED => Source::Received,
            _ => Source::Child { parent: self.other },
        };
        Ticket::Grant(Grant { source, sheets: self.sheets, rights: self.rights, dock })
    }

    fn columns(&self) -> [u16; COLUMNS] {
        let Row { kind, name, own, other, sheets, rights } = *self;
        let (Name { pad, program, number }, Sheets { first, count }) = (name, sheets);
        [kind, pad, program, number, own, other.pad, other.program, other.number, first, count, rights]
    }

    /// A line's row, where it is in form: the kind exists, so do both programs, and what the kind does not use is 0.
    fn read(line: &[u8]) -> Option<Self> {
        let [kind, pad, program, number, own, opad, oprogram, onumber, first, count, rights] = numbers(line)?;
        let name = Name { pad, program, number };
        let other = Name { pad: opad, program: oprogram, number: onumber };
        let sheets = Sheets { first, count };
        let no_sheets = sheets == NO_SHEETS && rights == 0;
        let unused_are_0 = match kind {
            LAST => own == 0 && other == NO_NAME && no_sheets,
            TAKEN | RECEIVED => own == 0 && other == NO_NAME,
            CHILD | ENTRY => own == 0,
            RECALL => no_sheets,
            _ => return None,
        };
        let programs = name.seat().is_some() && other.seat().is_some();
        (unused_are_0 && programs).then_some(Row { kind, name, own, other, sheets, rights })
    }

    /// "Lines stand by kind, pad, program, number."
    fn key(&self) -> (u16, Name) {
        (self.kind, self.name)
    }
}

impl State {
    /// The text, or why it is refused, with an output of so many bytes.
    pub fn save(&self, output: usize) -> Result<String, Refusal> {
        if !self.in_order() {
            return Err(Refusal::NotInOrder);
        }
        let text = self.saved();
        if text.len() > output {
            return Err(Refusal::TooShort);
        }
        Ok(text)
    }

    /// The whole text, of tables in order.
    fn saved(&self) -> String {
        let lasts = (0..SEATS).map(|seat| Row::of(LAST, Name::new(seat, self.last(seat))));
        let tickets = self.tickets().map(|(name, ticket)| Row::of_ticket(name, ticket));
        let entries = self.entries().map(|(name, entry)| Row::of_entry(name, entry));
        let mut rows: Vec<Row> = lasts.chain(tickets).chain(entries).collect();
        rows.sort_unstable_by_key(Row::key);
        let mut text = format!("{NAMES}\n");
        for row in rows {
            line(&mut text, &row.columns());
        }
        text
    }
}

/// The tables of a text, or why it is refused.
pub fn load(text: &[u8]) -> Result<State, Refusal> {
    let state = rows(text).and_then(|rows| tables(&rows)).ok_or(Refusal::BadText)?;
    if state.in_order() {
        Ok(state)
    } else {
        Err(Refusal::NotInOrder)
    }
}

/// The lines below the names, where each is in form and they rise strictly.
fn rows(text: &[u8]) -> Option<Vec<Row>> {
    let mut lines = text.strip_suffix(b"\n")?.split(|&byte| byte == b'\n');
    if lines.next() != Some(NAMES.as_bytes()) {
        return None;
    }
    let rows: Vec<Row> = lines.map(Row::read).collect::<Option<_>>()?;
    rows.is_sorted_by(|one, next| one.key() < next.key()).then_some(rows)
}

/// The tables of these lines; nothing where a program has not its one line of kind 0 or has a ninth ticket, or
/// where there is a 257th entry.
fn tables(rows: &[Row]) -> Option<State> {
    let of_kind = |kind| rows.iter().filter(move |row| row.kind == kind);
    let programs = of_kind(LAST).map(|row| row.name.seat());
    if !programs.eq((0..SEATS).map(Some)) || of_kind(ENTRY).count() > ENTRIES {
        return None;
    }
    let parents: BTreeMap<Name, Name> = of_kind(CHILD).map(|row| (row.name, row.other)).collect();
    let mut state = State::empty();
    for row in rows {
        let seat = row.name.seat()?;
        match row.kind {
            LAST => state.set_last(seat, row.name.number),
            ENTRY => state.put_entry(row.name, row.entry()),
            _ => {
                let ticket = row.ticket(head(&parents, row.name));
                state.put_ticket(seat, row.name.number, ticket).then_some(())?;
            }
        }
    }
    Some(state)
}

/// The head of a ticket's chain. Children can stand in a ring; then T3 fails, whatever their dock names.
fn head(parents: &BTreeMap<Name, Name>, of: Name) -> Name {
    let mut at = of;
    for _ in 0..parents.len() {
        match parents.get(&at) {
            Some(parent) => at = *parent,
            None => break,
        }
    }
    at
}
