//! Tables in order: rules T1 to T6. All must hold, so they are tested in the order that is cheapest, and a
//! later one may lean on an earlier one.

use crate::eight::SheetSet;
use crate::{within, Entry, Grant, Name, Source, State, Ticket, PADS, PASS_ON, PROGRAMS, SEATS, SHEETS};

/// No parent, where the parents of places are kept as places.
const NONE: u16 = u16::MAX;

/// The tickets that somebody lent, as bits of their places: T6 has each of them recalled.
struct Lent {
    children: [u8; SEATS],
    /// The grants whose entry is below another.
    below: [u8; SEATS],
}

impl State {
    /// Whether the tables are in order.
    pub fn in_order(&self) -> bool {
        let mut lent = Lent { children: [0; SEATS], below: [0; SEATS] };
        // A stray entry has an impossible name, or is one of nine of a program, and then one of them names
        // no live ticket or two have one name (T5).
        self.strays.is_empty()
            && (0..SEATS).all(|seat| self.numbers_in_order(seat))
            && (0..PADS).all(|pad| self.grants_in_order(pad, &mut lent.children))
            && self.entries_in_order(&mut lent.below)
            && self.recalls_in_order(&lent)
    }

    /// T1.
    fn numbers_in_order(&self, seat: usize) -> bool {
        let tickets = &self.tickets[seat];
        tickets.places().all(|place| {
            let number = tickets.number(place);
            number >= 1 && number <= self.last[seat] && tickets.find(number) == Some(place)
        })
    }

    /// T2, T3 and T4, and of T5 that every taken grant has its entry.
    fn grants_in_order(&self, pad: usize, children: &mut [u8; SEATS]) -> bool {
        let mut parents = [NONE; PROGRAMS * 8];
        let mut some = false;
        for program in 0..PROGRAMS {
            let seat = pad * PROGRAMS + program;
            let tickets = &self.tickets[seat];
            for place in tickets.places() {
                let Ticket::Grant(grant) = tickets.item(place) else { continue };
                let in_store = grant.sheets.count >= 1 && grant.sheets.end() <= SHEETS as u32;
                if !in_store || !(1..=7).contains(&grant.rights) {
                    return false;
                }
                let own = Name::new(seat, tickets.number(place));
                match grant.source {
                    Source::Taken if grant.dock == own && self.entry(own).is_some() => {}
                    Source::Received if grant.dock == own => {}
                    Source::Child { parent } if parent.pad == own.pad && parent.program != own.program => {
                        let Some(at) = self.parent_of(grant, parent) else { return false };
                        parents[program * 8 + place] = at;
                        children[seat] |= 1 << place;
                        some = true;
                    }
                    _ => return false,
                }
            }
        }
        !some || all_end(&parents)
    }

    /// The place on its pad of a child's parent, where that is a grant as T3 asks.
    fn parent_of(&self, child: &Grant, parent: Name) -> Option<u16> {
        let tickets = &self.tickets[parent.seat()?];
        let place = tickets.find(parent.number)?;
        let Ticket::Grant(above) = tickets.item(place) else { return None };
        let good = above.rights & PASS_ON != 0
            && above.sheets.contains(child.sheets)
            && within(child.rights, above.rights)
            && above.dock == child.dock;
        good.then_some(parent.program * 8 + place as u16)
    }

    /// T5, but for its last sentence.
    fn entries_in_order(&self, below: &mut [u8; SEATS]) -> bool {
        let mut parents = [NONE; SEATS * 8];
        let mut under_store = SheetSet::default();
        let mut some = false;
        for seat in 0..SEATS {
            let entries = &self.entries[seat];
            for place in entries.places() {
                let (number, entry) = (entries.number(place), entries.item(place));
                let Some(own) = self.tickets[seat].find(number) else { return false };
                let Ticket::Grant(grant) = self.tickets[seat].item(own) else { return false };
                if entries.find(number) != Some(place)
                    || grant.sheets != entry.sheets
                    || grant.rights != entry.rights
                {
                    return false;
                }
                match (entry.parent, grant.source) {
                    // The run lies in the store: it is the grant's, and T2 was tested.
                    (None, Source::Taken) if under_store.add(entry.sheets) => {}
                    (Some(parent), Source::Received) => {
                        let Some(at) = self.parent_entry(entry, parent) else { return false };
                        parents[seat * 8 + place] = at;
                        below[seat] |= 1 << own;
                        some = true;
                    }
                    _ => return false,
                }
            }
        }
        !some || all_end(&parents)
    }

    /// The place of an entry's parent, where that is an entry as T5 asks.
    fn parent_entry(&self, entry: &Entry, parent: Name) -> Option<u16> {
        let seat = parent.seat()?;
        let place = self.entries[seat].find(parent.number)?;
        let above = self.entries[seat].item(place);
        let good = above.rights & PASS_ON != 0
            && above.sheets.contains(entry.sheets)
            && within(entry.rights, above.rights);
        good.then_some((seat * 8 + place) as u16)
    }

    /// T6.
    fn recalls_in_order(&self, lent: &Lent) -> bool {
        // The targets so far: live tickets as bits of their places, dead ones in a list.
        let mut named = [0u8; SEATS];
        let mut dead = [0u32; SEATS * 8];
        let mut dead_count = 0;
        for seat in 0..SEATS {
            let tickets = &self.tickets[seat];
            for place in tickets.places() {
                let Ticket::Recall { own, target } = *tickets.item(place) else { continue };
                let Some(Ticket::Grant(grant)) = tickets.get(own) else { return false };
                let Some(to) = target.seat() else { return false };
                if grant.rights & PASS_ON == 0 {
                    return false;
                }
                let found = self.tickets[to].find(target.number);
                let allowed = if to / PROGRAMS == seat / PROGRAMS {
                    found.is_some_and(|at| child_of(self.tickets[to].item(at)) == Some(Name::new(seat, own)))
                } else {
                    // "No recall names a live child of another pad."
                    target.number >= 1
                        && target.number <= self.last[to]
                        && found.is_none_or(|at| lent.children[to] & (1 << at) == 0)
                        && self.entry(target).is_none_or(|entry| {
                            entry.parent == Some(grant.dock)
                                && grant.sheets.contains(entry.sheets)
                                && within(entry.rights, grant.rights)
                        })
                };
                if !allowed {
                    return false;
                }
                match found {
                    Some(at) if named[to] & (1 << at) != 0 => return false,
                    Some(at) => named[to] |= 1 << at,
                    None => {
                        dead[dead_count] = (to as u32) << 16 | u32::from(target.number);
                        dead_count += 1;
                    }
                }
            }
        }
        let dead = &mut dead[..dead_count];
        dead.sort_unstable();
        // "Every child has one", and "every entry below another has exactly one live recall naming it": that
        // no target has two was seen to above.
        dead.windows(2).all(|pair| pair[0] != pair[1])
            && (0..SEATS).all(|seat| (lent.children[seat] | lent.below[seat]) & !named[seat] == 0)
    }
}

/// A child's parent; nothing for any other ticket.
fn child_of(ticket: &Ticket) -> Option<Name> {
    match ticket {
        Ticket::Grant(Grant { source: Source::Child { parent }, .. }) => Some(*parent),
        _ => None,
    }
}

/// Whether every chain of parents ends. Places on a chain that is known to end are not walked again.
fn all_end(parents: &[u16]) -> bool {
    let mut settled = [false; SEATS * 8];
    for start in 0..parents.len() {
        let (mut at, mut steps) = (start, 0);
        while parents[at] != NONE && !settled[at] {
            at = parents[at] as usize;
            steps += 1;
            if steps > parents.len() {
                return false;
            }
        }
        at = start;
        while parents[at] != NONE && !settled[at] {
            settled[at] = true;
            at = parents[at] as usize;
        }
    }
    true
}
