//! Document 01 in plain Rust, with document 02's first five requests, as docs/DECISIONS.md reads them: a second
//! implementation that the proved library is compared with and timed against. It shares no code and no layout
//! with the library.
//!
//! A program's tickets and the dock's entries made for it stand in two tables of eight. Tables in order
//! never need more, since every entry names a live ticket of its program (T5). Entries that don't fit, or
//! whose name is impossible, are kept aside, so that damaged tables can be held and told apart.

mod eight;
mod order;
pub mod report;
pub mod saved;
mod text;
pub mod trace;

use eight::{Eight, SheetSet};

pub const PADS: usize = 4;
pub const PROGRAMS: usize = 8;
/// The programs of all pads; program `p` of pad `d` has seat `8 d + p`.
pub const SEATS: usize = PADS * PROGRAMS;
pub const SHEETS: usize = 256;
/// Bytes of a sheet.
pub const SHEET: usize = 64;
/// Bytes of the store.
pub const STORE: usize = SHEETS * SHEET;

/// Numbers of a request.
pub const NUMBERS: usize = 9;

pub const READ: u16 = 1;
pub const WRITE: u16 = 2;
pub const PASS_ON: u16 = 4;

/// The refusals, by the documents' numbers.
#[derive(Clone, Copy, Debug, PartialEq, Eq)]
#[repr(u16)]
pub enum Refusal {
    NoProgram = 1,
    NoOperation = 2,
    Field = 3,
    NoTicket = 4,
    WrongKind = 5,
    Beyond = 6,
    RightLacking = 7,
    ToOneself = 8,
    NoPlace = 9,
    NoNumber = 10,
    NoRun = 11,
    NoEntry = 12,
    Length = 13,
    NotInOrder = 14,
    Scratch = 16,
    TooShort = 17,
    BadText = 18,
}

/// A ticket's name anywhere: pad, program and number. Any values can be held.
#[derive(Clone, Copy, Debug, PartialEq, Eq, PartialOrd, Ord)]
pub struct Name {
    pub pad: u16,
    pub program: u16,
    pub number: u16,
}

impl Name {
    pub fn new(seat: usize, number: u16) -> Self {
        Name { pad: (seat / PROGRAMS) as u16, program: (seat % PROGRAMS) as u16, number }
    }

    /// The seat, where pad and program exist.
    #[inline]
    pub fn seat(self) -> Option<usize> {
        let (pad, program) = (self.pad as usize, self.program as usize);
        (pad < PADS && program < PROGRAMS).then_some(pad * PROGRAMS + program)
    }
}

/// A run of sheets.
#[derive(Clone, Copy, Debug, PartialEq, Eq, PartialOrd, Ord)]
pub struct Sheets {
    pub first: u16,
    pub count: u16,
}

impl Sheets {
    fn end(self) -> u32 {
        u32::from(self.first) + u32::from(self.count)
    }

    fn contains(self, other: Sheets) -> bool {
        self.first <= other.first && other.end() <= self.end()
    }
}

/// Whether each right of `asked` is one of `held`.
fn within(asked: u16, held: u16) -> bool {
    asked & !held == 0
}

#[derive(Clone, Copy, Debug, PartialEq, Eq, PartialOrd, Ord)]
pub enum Source {
    Taken,
    Received,
    Child { parent: Name },
}

#[derive(Clone, Copy, Debug, PartialEq, Eq, PartialOrd, Ord)]
pub struct Grant {
    pub source: Source,
    pub sheets: Sheets,
    pub rights: u16,
    /// The dock name: whose entry the dock asks for.
    pub dock: Name,
}

#[derive(Clone, Copy, Debug, PartialEq, Eq, PartialOrd, Ord)]
pub enum Ticket {
    Grant(Grant),
    /// `own` is the number of the grant, of the same program, that the recall stands under.
    Recall {
        own: u16,
        target: Name,
    },
}

/// An entry of the dock; without a parent it stands under the store.
#[derive(Clone, Copy, Debug, PartialEq, Eq, PartialOrd, Ord)]
pub struct Entry {
    pub parent: Option<Name>,
    pub sheets: Sheets,
    pub rights: u16,
}

#[derive(Clone, Copy, Debug, Default, PartialEq, Eq)]
pub struct Request {
    pub pad: u16,
    pub program: u16,
    pub op: u16,
    pub ticket: u16,
    pub topad: u16,
    pub toprogram: u16,
    pub first: u16,
    pub count: u16,
    pub rights: u16,
}

impl Request {
    /// A request about the sender's ticket of that name; all other fields 0.
    pub fn by(name: Name, op: u16) -> Self {
        Request { pad: name.pad, program: name.program, op, ticket: name.number, ..Request::default() }
    }

    /// The nine numbers.
    pub fn numbers(&self) -> [u16; NUMBERS] {
        let Request { pad, program, op, ticket, topad, toprogram, first, count, rights } = *self;
        [pad, program, op, ticket, topad, toprogram, first, count, rights]
    }
}

impl From<[u16; NUMBERS]> for Request {
    fn from(n: [u16; NUMBERS]) -> Self {
        let [pad, program, op, ticket, topad, toprogram, first, count, rights] = n;
        Request { pad, program, op, ticket, topad, toprogram, first, count, rights }
    }
}

#[derive(Clone, Copy, Debug, Default, PartialEq, Eq)]
pub struct Answer {
    pub result: u16,
    pub ticket: u16,
    pub recipient: u16,
}

/// The new numbers of an accepted request, or its refusal.
type Outcome = Result<(u16, u16), Refusal>;

/// Each program's tickets, by number.
type Tickets = [Eight<Ticket>; SEATS];
/// The entries named after each program's tickets, by ticket number.
type Entries = [Eight<Entry>; SEATS];

/// All tables: last numbers, tickets, entries.
#[derive(Clone, Debug)]
pub struct State {
    last: [u16; SEATS],
    tickets: Tickets,
    entries: Entries,
    /// Entries with an impossible name, or more than eight of one program. Only damaged tables have any.
    strays: Vec<(Name, Entry)>,
}

impl State {
    pub fn empty() -> Self {
        let nobody = Name { pad: 0, program: 0, number: 0 };
        let nothing = Sheets { first: 0, count: 0 };
        State {
            last: [0; SEATS],
            tickets: [Eight::new(Ticket::Recall { own: 0, target: nobody }); SEATS],
            entries: [Eight::new(Entry { parent: None, sheets: nothing, rights: 0 }); SEATS],
            strays: Vec::new(),
        }
    }

    pub fn last(&self, seat: usize) -> u16 {
        self.last[seat]
    }

    pub fn set_last(&mut self, seat: usize, last: u16) {
        self.last[seat] = last;
    }

    /// Adds a ticket as it is; false where the program has eight.
    pub fn put_ticket(&mut self, seat: usize, number: u16, ticket: Ticket) -> bool {
        self.tickets[seat].insert(number, ticket)
    }

    /// Adds an entry as it is.
    pub fn put_entry(&mut self, name: Name, entry: Entry) {
        let placed = name.seat().is_some_and(|seat| self.entries[seat].insert(name.number, entry));
        if !placed {
            self.strays.push((name, entry));
        }
    }

    /// The live tickets with their names.
    pub fn tickets(&self) -> impl Iterator<Item = (Name, &Ticket)> {
        self.tickets.iter().enumerate().flat_map(|(seat, eight)| {
            eight.places().map(move |place| (Name::new(seat, eight.number(place)), eight.item(place)))
        })
    }

    /// The entries with their names.
    pub fn entries(&self) -> impl Iterator<Item = (Name, &Entry)> {
        let kept = self.entries.iter().enumerate().flat_map(|(seat, eight)| {
            eight.places().map(move |place| (Name::new(seat, eight.number(place)), eight.item(place)))
        });
        kept.chain(self.strays.iter().map(|(name, entry)| (*name, entry)))
    }

    pub fn ticket(&self, name: Name) -> Option<&Ticket> {
        self.tickets[name.seat()?].get(name.number)
    }

    #[inline]
    pub fn entry(&self, name: Name) -> Option<&Entry> {
        self.entries[name.seat()?].get(name.number)
    }

    /// Serves one request: the tests that come first everywhere, then the operation.
    pub fn step(&mut self, store: &mut [u8], sheet: &mut [u8], request: &Request) -> Answer {
        if store.len() == STORE && sheet.len() == SHEET && !self.in_order() {
            return Answer { result: Refusal::NotInOrder as u16, ..Answer::default() };
        }
        self.step_in_order(store, sheet, request)
    }

    /// `step` for tables that are known to be in order: everything but the test of that.
    pub fn step_in_order(&mut self, store: &mut [u8], sheet: &mut [u8], request: &Request) -> Answer {
        match self.serve(store, sheet, request) {
            Ok((ticket, recipient)) => Answer { result: 0, ticket, recipient },
            Err(refusal) => Answer { result: refusal as u16, ..Answer::default() },
        }
    }

    fn serve(&mut self, store: &mut [u8], sheet: &mut [u8], request: &Request) -> Outcome {
        let store: &mut [u8; STORE] = store.try_into().map_err(|_| Refusal::Length)?;
        let sheet: &mut [u8; SHEET] = sheet.try_into().map_err(|_| Refusal::Length)?;
        let asker = Name { pad: request.pad, program: request.program, number: request.ticket };
        let seat = asker.seat().ok_or(Refusal::NoProgram)?;
        fields_in_range(request)?;
        match request.op {
            1 => self.take(store, seat, request),
            2 => self.pass(seat, request),
            3 => self.recall(seat, request.ticket),
            4 => self.give_back(store, seat, request.ticket),
            5 => {
                let at = self.usable_sheet(seat, request, READ)?;
                sheet.copy_from_slice(&store[at..at + SHEET]);
                Ok((0, 0))
            }
            _ => {
                let at = self.usable_sheet(seat, request, WRITE)?;
                store[at..at + SHEET].copy_from_slice(sheet);
                Ok((0, 0))
            }
        }
    }

    fn take(&mut self, store: &mut [u8; STORE], seat: usize, request: &Request) -> Outcome {
        if self.tickets[seat].is_full() {
            return Err(Refusal::NoPlace);
        }
        if self.last[seat] == u16::MAX {
            return Err(Refusal::NoNumber);
        }
        let mut used = SheetSet::default();
        for eight in &self.entries {
            for place in eight.places() {
                used.add(eight.item(place).sheets);
            }
        }
        let first = used.smallest_gap(request.count).ok_or(Refusal::NoRun)?;
        let (sheets, rights) = (Sheets { first, count: request.count }, request.rights);
        store[bytes(sheets)].fill(0);
        let number = self.next_number(seat);
        let dock = Name::new(seat, number);
        self.put_ticket(seat, number, Ticket::Grant(Grant { source: Source::Taken, sheets, rights, dock }));
        self.put_entry(dock, Entry { parent: None, sheets, rights });
        Ok((number, 0))
    }

    fn pass(&mut self, seat: usize, request: &Request) -> Outcome {
        let grant = *self.grant(seat, request.ticket)?;
        let to = request.topad as usize * PROGRAMS + request.toprogram as usize;
        if to == seat {
            return Err(Refusal::ToOneself);
        }
        if request.first + request.count > grant.sheets.count {
            return Err(Refusal::Beyond);
        }
        if grant.rights & PASS_ON == 0 || !within(request.rights, grant.rights) {
            return Err(Refusal::RightLacking);
        }
        if self.tickets[seat].is_full() || self.tickets[to].is_full() {
            return Err(Refusal::NoPlace);
        }
        if self.last[seat] == u16::MAX || self.last[to] == u16::MAX {
            return Err(Refusal::NoNumber);
        }
        let abroad = request.topad != request.pad;
        if abroad && self.entry(grant.dock).is_none() {
            return Err(self.drop_stale(grant.dock));
        }
        let (ticket, recipient) = (self.next_number(seat), self.next_number(to));
        let target = Name::new(to, recipient);
        let sheets = Sheets { first: grant.sheets.first + request.first, count: request.count };
        let rights = request.rights;
        let (source, dock) = if abroad {
            self.put_entry(target, Entry { parent: Some(grant.dock), sheets, rights });
            (Source::Received, target)
        } else {
            (Source::Child { parent: Name::new(seat, request.ticket) }, grant.dock)
        };
        self.put_ticket(seat, ticket, Ticket::Recall { own: request.ticket, target });
        self.put_ticket(to, recipient, Ticket::Grant(Grant { source, sheets, rights, dock }));
        Ok((ticket, recipient))
    }

    fn recall(&mut self, seat: usize, number: u16) -> Outcome {
        let place = self.tickets[seat].find(number).ok_or(Refusal::NoTicket)?;
        let Ticket::Recall { target, .. } = *self.tickets[seat].item(place) else {
            return Err(Refusal::WrongKind);
        };
        let (pad, State { tickets, entries, .. }) = ((seat / PROGRAMS) as u16, self);
        tickets[seat].remove(place);
        if target.pad == pad {
            // The dock follows: "the target entry of each other-pad recall among the tickets it removes".
            remove_ticket(tickets, target, |gone| match *gone {
                Ticket::Recall { target, .. } if target.pad != pad => remove_entry(entries, target),
                _ => {}
            });
        } else {
            remove_entry(entries, target);
        }
        Ok((0, 0))
    }

    fn give_back(&mut self, store: &mut [u8; STORE], seat: usize, number: u16) -> Outcome {
        match *self.tickets[seat].get(number).ok_or(Refusal::NoTicket)? {
            Ticket::Grant(Grant { source: Source::Taken, sheets, dock, .. }) => {
                remove_entry(&mut self.entries, dock);
                store[bytes(sheets)].fill(0);
                remove_ticket(&mut self.tickets, dock, |_| {});
                Ok((0, 0))
            }
            _ => Err(Refusal::WrongKind),
        }
    }

    /// Read's and write's tests; where the sheet's bytes begin in the store.
    fn usable_sheet(&mut self, seat: usize, request: &Request, right: u16) -> Result<usize, Refusal> {
        let grant = *self.grant(seat, request.ticket)?;
        if request.first >= grant.sheets.count {
            return Err(Refusal::Beyond);
        }
        if grant.rights & right == 0 {
            return Err(Refusal::RightLacking);
        }
        let sheet = grant.sheets.first + request.first;
        match self.dock_check(grant.dock, sheet, right) {
            Ok(()) => Ok(sheet as usize * SHEET),
            Err(Refusal::NoEntry) => Err(self.drop_stale(grant.dock)),
            Err(other) => Err(other),
        }
    }

    /// The dock's own check, with the test of the tables' order.
    pub fn check(&self, name: Name, sheet: u16, right: u16) -> u16 {
        if !self.in_order() {
            return Refusal::NotInOrder as u16;
        }
        if sheet as usize >= SHEETS || !(right == READ || right == WRITE) {
            return Refusal::Field as u16;
        }
        self.dock_check(name, sheet, right).map_or_else(|refusal| refusal as u16, |()| 0)
    }

    fn dock_check(&self, name: Name, sheet: u16, right: u16) -> Result<(), Refusal> {
        let entry = self.entry(name).ok_or(Refusal::NoEntry)?;
        if !entry.sheets.contains(Sheets { first: sheet, count: 1 }) {
            return Err(Refusal::Beyond);
        }
        if entry.rights & right == 0 {
            return Err(Refusal::RightLacking);
        }
        Ok(())
    }

    /// The asker's grant of that number.
    fn grant(&self, seat: usize, number: u16) -> Result<&Grant, Refusal> {
        match self.tickets[seat].get(number).ok_or(Refusal::NoTicket)? {
            Ticket::Grant(grant) => Ok(grant),
            Ticket::Recall { .. } => Err(Refusal::WrongKind),
        }
    }

    fn next_number(&mut self, seat: usize) -> u16 {
        self.last[seat] += 1;
        self.last[seat]
    }

    /// Refusal 12. The head of the chain is found at once: along a chain the dock names agree (T3), and the
    /// head's is its own (T4).
    fn drop_stale(&mut self, dock: Name) -> Refusal {
        remove_ticket(&mut self.tickets, dock, |_| {});
        Refusal::NoEntry
    }
}

/// Removes a ticket and all under it on its pad; `gone` hears of each that was under it.
fn remove_ticket(tickets: &mut Tickets, name: Name, mut gone: impl FnMut(&Ticket)) {
    let Some(seat) = name.seat() else { return };
    let Some(place) = tickets[seat].find(name.number) else { return };
    let pad = seat / PROGRAMS * PROGRAMS..(seat / PROGRAMS + 1) * PROGRAMS;
    // Removed grants whose own tickets are still to be removed. Without the right to pass on a grant has
    // nothing under it (T3, T6).
    let mut waiting = Stack::new();
    let passes_on = |ticket: &Ticket| matches!(ticket, Ticket::Grant(g) if g.rights & PASS_ON != 0);
    tickets[seat].remove(place);
    if passes_on(tickets[seat].item(place)) {
        waiting.push(seat, place);
    }
    while let Some((above, place)) = waiting.pop() {
        let name = Name::new(above, tickets[above].number(place));
        for seat in pad.clone() {
            for place in tickets[seat].places() {
                let ticket = tickets[seat].item(place);
                let under = match ticket {
                    Ticket::Recall { own, .. } => seat == above && *own == name.number,
                    Ticket::Grant(Grant { source: Source::Child { parent }, .. }) => *parent == name,
                    Ticket::Grant(_) => false,
                };
                if under {
                    if passes_on(ticket) {
                        waiting.push(seat, place);
                    }
                    gone(ticket);
                    tickets[seat].remove(place);
                }
            }
        }
    }
}

/// Removes an entry, if it is there, and all below it.
fn remove_entry(entries: &mut Entries, name: Name) {
    let Some(seat) = name.seat() else { return };
    let Some(place) = entries[seat].find(name.number) else { return };
    // As for tickets: without the right to pass on nothing is below (T5).
    let mut waiting = Stack::new();
    entries[seat].remove(place);
    if entries[seat].item(place).rights & PASS_ON != 0 {
        waiting.push(seat, place);
    }
    while let Some((above, place)) = waiting.pop() {
        let name = Some(Name::new(above, entries[above].number(place)));
        for (seat, entries) in entries.iter_mut().enumerate() {
            for place in entries.places() {
                let entry = entries.item(place);
                if entry.parent == name {
                    if entry.rights & PASS_ON != 0 {
                        waiting.push(seat, place);
                    }
                    entries.remove(place);
                }
            }
        }
    }
}

/// Places whose descendants are still to be looked for. Each place is pushed at most once.
struct Stack {
    places: [u8; SEATS * 8],
    height: usize,
}

impl Stack {
    fn new() -> Self {
        Stack { places: [0; SEATS * 8], height: 0 }
    }

    fn push(&mut self, seat: usize, place: usize) {
        self.places[self.height] = (seat * 8 + place) as u8;
        self.height += 1;
    }

    fn pop(&mut self) -> Option<(usize, usize)> {
        self.height = self.height.checked_sub(1)?;
        let at = self.places[self.height] as usize;
        Some((at / 8, at % 8))
    }
}

/// Refusals 2 and 3: the operation exists, its fields are in range and the others 0.
fn fields_in_range(r: &Request) -> Result<(), Refusal> {
    let ticket = r.ticket >= 1;
    let recipient = r.topad < PADS as u16 && r.toprogram < PROGRAMS as u16;
    let first = r.first < SHEETS as u16;
    let count = (1..=SHEETS as u16).contains(&r.count);
    let rights = (1..=7).contains(&r.rights);
    let no_ticket = r.ticket == 0;
    let no_recipient = r.topad | r.toprogram == 0;
    let no_first = r.first == 0;
    let no_size = r.count | r.rights == 0;
    let good = match r.op {
        1 => count && rights && no_ticket && no_recipient && no_first,
        2 => ticket && recipient && first && count && rights,
        3 | 4 => ticket && no_recipient && no_first && no_size,
        5 | 6 => ticket && first && no_recipient && no_size,
        _ => return Err(Refusal::NoOperation),
    };
    good.then_some(()).ok_or(Refusal::Field)
}

/// The bytes of a run of sheets in the store.
fn bytes(run: Sheets) -> std::ops::Range<usize> {
    run.first as usize * SHEET..run.end() as usize * SHEET
}
