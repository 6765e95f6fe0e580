//! The image of the tables, as the library's boundary lays it out, to and from the model's tables.
//!
//! Every field is 16 bits, so an image is worked on as words; only at the edge they are little endian bytes.

pub mod random;

use dock::layout;
use model::{Entry, Grant, Name, Sheets, Source, State, Ticket, SEATS};

pub use dock::TABLES as LENGTH;

/// Words of a program: eight tickets, then the last number.
const PROGRAM: usize = layout::PROGRAM_SIZE / 2;
const LAST: usize = layout::LAST_AT / 2;
const ENTRIES: usize = layout::ENTRIES_AT / 2;
/// Words of an entry.
pub const ENTRY: usize = layout::ENTRY_SIZE / 2;
/// Words of a ticket.
pub const TICKET: usize = layout::TICKET_SIZE / 2;
pub const ENTRY_PLACES: usize = 256;

/// A ticket's words. A name takes three: pad, program, number.
pub const KIND: usize = layout::TICKET_KIND_AT / 2;
pub const NUMBER: usize = layout::TICKET_NUMBER_AT / 2;
pub const OWN: usize = layout::TICKET_OWN_AT / 2;
pub const OTHER: usize = layout::TICKET_OTHER_AT / 2;
pub const FIRST: usize = layout::TICKET_FIRST_AT / 2;
pub const COUNT: usize = layout::TICKET_COUNT_AT / 2;
pub const RIGHTS: usize = layout::TICKET_RIGHTS_AT / 2;
pub const DOCK: usize = layout::TICKET_DOCK_AT / 2;

/// A ticket's kinds.
pub const FREE: u16 = 0;
pub const TAKEN: u16 = 1;
pub const RECEIVED: u16 = 2;
pub const CHILD: u16 = 3;
pub const RECALL: u16 = 4;

/// An entry's words. A parent of zeros is the store.
pub const LIVE: usize = layout::ENTRY_LIVE_AT / 2;
pub const NAME: usize = layout::ENTRY_NAME_AT / 2;
pub const PARENT: usize = layout::ENTRY_PARENT_AT / 2;
pub const ENTRY_FIRST: usize = layout::ENTRY_FIRST_AT / 2;
pub const ENTRY_COUNT: usize = layout::ENTRY_COUNT_AT / 2;
pub const ENTRY_RIGHTS: usize = layout::ENTRY_RIGHTS_AT / 2;

const THE_STORE: Name = Name { pad: 0, program: 0, number: 0 };

/// The first word of a ticket's place.
pub fn ticket_at(seat: usize, place: usize) -> usize {
    PROGRAM * seat + TICKET * place
}

/// The word of a program's last number.
pub fn last_at(seat: usize) -> usize {
    PROGRAM * seat + LAST
}

/// The first word of an entry's place.
pub fn entry_at(place: usize) -> usize {
    ENTRIES + ENTRY * place
}

pub fn to_words(bytes: &[u8]) -> Vec<u16> {
    bytes.chunks_exact(2).map(|pair| u16::from_le_bytes([pair[0], pair[1]])).collect()
}

pub fn to_bytes(words: &[u16]) -> Vec<u8> {
    words.iter().flat_map(|word| word.to_le_bytes()).collect()
}

/// The name in the three words from `at` on.
pub fn name(words: &[u16], at: usize) -> Name {
    Name { pad: words[at], program: words[at + 1], number: words[at + 2] }
}

pub fn set_name(words: &mut [u16], at: usize, name: Name) {
    words[at..at + 3].copy_from_slice(&[name.pad, name.program, name.number]);
}

/// The model's tables; nothing where the bytes are no tables.
pub fn to_model(bytes: &[u8]) -> Option<State> {
    if bytes.len() != LENGTH {
        return None;
    }
    let words = to_words(bytes);
    let mut state = State::empty();
    for seat in 0..SEATS {
        state.set_last(seat, words[last_at(seat)]);
        for place in 0..8 {
            let t = &words[ticket_at(seat, place)..][..TICKET];
            let grant = |source| {
                let sheets = Sheets { first: t[FIRST], count: t[COUNT] };
                Ticket::Grant(Grant { source, sheets, rights: t[RIGHTS], dock: name(t, DOCK) })
            };
            let ticket = match t[KIND] {
                FREE => continue,
                TAKEN => grant(Source::Taken),
                RECEIVED => grant(Source::Received),
                CHILD => grant(Source::Child { parent: name(t, OTHER) }),
                RECALL => Ticket::Recall { own: t[OWN], target: name(t, OTHER) },
                _ => return None,
            };
            state.put_ticket(seat, t[NUMBER], ticket);
        }
    }
    for place in 0..ENTRY_PLACES {
        let e = &words[entry_at(place)..][..ENTRY];
        match e[LIVE] {
            0 => {}
            1 => {
                let above = name(e, PARENT);
                let parent = (above != THE_STORE).then_some(above);
                let sheets = Sheets { first: e[ENTRY_FIRST], count: e[ENTRY_COUNT] };
                state.put_entry(name(e, NAME), Entry { parent, sheets, rights: e[ENTRY_RIGHTS] });
            }
            _ => return None,
        }
    }
    Some(state)
}

/// An image of the model's tables: each thing in the lowest place, all else zeros.
pub fn encode(state: &State) -> Vec<u8> {
    let mut words = vec![0; LENGTH / 2];
    let mut used = [0; SEATS];
    for seat in 0..SEATS {
        words[last_at(seat)] = state.last(seat);
    }
    for (own_name, ticket) in state.tickets() {
        let seat = own_name.seat().expect("tickets are found by seat");
        let t = &mut words[ticket_at(seat, used[seat])..][..TICKET];
        used[seat] += 1;
        t[NUMBER] = own_name.number;
        match *ticket {
            Ticket::Recall { own, target } => {
                t[KIND] = RECALL;
                t[OWN] = own;
                set_name(t, OTHER, target);
            }
            Ticket::Grant(grant) => {
                t[KIND] = match grant.source {
                    Source::Taken => TAKEN,
                    Source::Received => RECEIVED,
                    Source::Child { parent } => {
                        set_name(t, OTHER, parent);
                        CHILD
                    }
                };
                (t[FIRST], t[COUNT], t[RIGHTS]) = (grant.sheets.first, grant.sheets.count, grant.rights);
                set_name(t, DOCK, grant.dock);
            }
        }
    }
    for (place, (own_name, entry)) in state.entries().enumerate() {
        let e = &mut words[entry_at(place)..][..ENTRY];
        e[LIVE] = 1;
        set_name(e, NAME, own_name);
        if let Some(parent) = entry.parent {
            set_name(e, PARENT, parent);
        }
        (e[ENTRY_FIRST], e[ENTRY_COUNT], e[ENTRY_RIGHTS]) =
            (entry.sheets.first, entry.sheets.count, entry.rights);
    }
    to_bytes(&words)
}

/// What counts when tables are compared: last numbers, live tickets and entries by name, no places. Lists
/// in the names' order stand for maps, since damaged tables can have a name twice.
#[derive(PartialEq, Eq)]
pub struct View {
    last: Vec<u16>,
    tickets: Vec<(Name, Ticket)>,
    entries: Vec<(Name, Entry)>,
}

impl View {
    pub fn of(state: &State) -> View {
        let mut tickets: Vec<_> = state.tickets().map(|(name, ticket)| (name, *ticket)).collect();
        let mut entries: Vec<_> = state.entries().map(|(name, entry)| (name, *entry)).collect();
        tickets.sort_unstable();
        entries.sort_unstable();
        View { last: (0..SEATS).map(|seat| state.last(seat)).collect(), tickets, entries }
    }

    /// The first thing in which two tables differ.
    pub fn difference(&self, other: &View) -> Option<String> {
        if self.last != other.last {
            let seat = (0..SEATS).find(|&seat| self.last[seat] != other.last[seat])?;
            let (pad, program) = (seat / 8, seat % 8);
            let (one, two) = (self.last[seat], other.last[seat]);
            return Some(format!("last number of pad {pad} program {program}: {one} and {two}"));
        }
        first_difference(&self.tickets, &other.tickets, "ticket")
            .or_else(|| first_difference(&self.entries, &other.entries, "entry"))
    }
}

fn first_difference<T: PartialEq + std::fmt::Debug>(one: &[T], two: &[T], what: &str) -> Option<String> {
    let at = (0..one.len().max(two.len())).find(|&at| one.get(at) != two.get(at))?;
    Some(format!("{what}: {:?} and {:?}", one.get(at), two.get(at)))
}

#[cfg(test)]
mod tests {
    use super::*;
    use model::{Request, SHEET, STORE};

    #[test]
    fn an_image_gives_the_tables_back() {
        let (mut state, mut store, mut sheet) = (State::empty(), vec![0; STORE], [0; SHEET]);
        for request in [[0, 0, 1, 0, 0, 0, 0, 4, 7], [0, 0, 2, 1, 0, 1, 1, 2, 5], [0, 1, 2, 1, 3, 7, 1, 1, 1]]
        {
            assert_eq!(state.step(&mut store, &mut sheet, &Request::from(request)).result, 0);
        }
        let bytes = encode(&state);
        assert_eq!(bytes.len(), LENGTH);
        let again = to_model(&bytes).expect("tables");
        assert_eq!(View::of(&state).difference(&View::of(&again)), None);
        assert_eq!(encode(&again), bytes);
    }
}
