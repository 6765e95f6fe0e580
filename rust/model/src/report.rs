//! The ward report, document 02's second request: who can read what.

use crate::eight::SheetSet;
use crate::text::line;
use crate::{Grant, Name, Refusal, Sheets, Source, State, Ticket, SHEETS};

/// "32 bytes of marks, one bit for a place", document 02's sixth request. The model marks nothing in them.
pub const SCRATCH: usize = 32;

const NAMES: &str = "depth pad program ticket first count rights";

/// A line: a grant, and how many loans lie between it and the store.
struct Row {
    depth: u16,
    name: Name,
    sheets: Sheets,
    rights: u16,
}

impl State {
    /// The text, or why it is refused, with a scratch and an output of so many bytes.
    pub fn report(&self, scratch: usize, output: usize) -> Result<String, Refusal> {
        if !self.in_order() {
            return Err(Refusal::NotInOrder);
        }
        if scratch != SCRATCH {
            return Err(Refusal::Scratch);
        }
        let text = self.text();
        if text.len() > output {
            return Err(Refusal::TooShort);
        }
        Ok(text)
    }

    /// The whole text, of tables in order.
    fn text(&self) -> String {
        let rows = self.rows();
        let mut text = format!("{NAMES}\n");
        for Row { depth, name, sheets, rights } in &rows {
            let (Name { pad, program, number }, Sheets { first, count }) = (*name, *sheets);
            line(&mut text, &[*depth, pad, program, number, first, count, *rights]);
        }
        // "The sum of the counts of the depth 0 lines."
        let taken = rows.iter().filter(|row| row.depth == 0).map(|row| row.sheets.count).sum();
        line(&mut text, &[taken, self.sheets_free()]);
        text
    }

    /// "From each taken grant, by pad, program and number."
    fn rows(&self) -> Vec<Row> {
        let mut taken: Vec<(Name, Grant)> = self.tickets().filter_map(taken).collect();
        taken.sort_unstable_by_key(|(name, _)| *name);
        let mut rows = Vec::new();
        for (name, grant) in taken {
            self.rows_from(0, name, grant, &mut rows);
        }
        rows
    }

    /// "A ticket's line is followed by its list of loans, and each loan listed is again a ticket."
    fn rows_from(&self, depth: u16, name: Name, grant: Grant, rows: &mut Vec<Row>) {
        rows.push(Row { depth, name, sheets: grant.sheets, rights: grant.rights });
        for (name, grant) in self.loans(name) {
            self.rows_from(depth + 1, name, grant, rows);
        }
    }

    /// "The live targets of its recalls, by recall number; a target whose entry has gone is left out."
    fn loans(&self, lender: Name) -> Vec<(Name, Grant)> {
        let mut recalls: Vec<(u16, Name)> = self
            .of_program(lender)
            .filter_map(|(number, ticket)| match *ticket {
                Ticket::Recall { own, target } if own == lender.number => Some((number, target)),
                _ => None,
            })
            .collect();
        recalls.sort_unstable();
        let listed = |(_, target)| match self.ticket(target) {
            Some(Ticket::Grant(grant)) if self.entry(grant.dock).is_some() => Some((target, *grant)),
            _ => None,
        };
        recalls.into_iter().filter_map(listed).collect()
    }

    /// The live tickets of a program with their numbers.
    fn of_program(&self, of: Name) -> impl Iterator<Item = (u16, &Ticket)> {
        let tickets = of.seat().map(|seat| &self.tickets[seat]);
        tickets
            .into_iter()
            .flat_map(|eight| eight.places().map(|place| (eight.number(place), eight.item(place))))
    }

    /// "Counted sheet by sheet over all entries."
    fn sheets_free(&self) -> u16 {
        let mut used = SheetSet::default();
        for (_, entry) in self.entries() {
            used.add(entry.sheets);
        }
        SHEETS as u16 - used.count()
    }
}

fn taken((name, ticket): (Name, &Ticket)) -> Option<(Name, Grant)> {
    match ticket {
        Ticket::Grant(grant) if grant.source == Source::Taken => Some((name, *grant)),
        _ => None,
    }
}
