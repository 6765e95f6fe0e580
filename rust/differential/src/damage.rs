//! Changes to an image such as only a host could make: some that keep the tables in order, some that break
//! a single clause of T1 to T6 and leave no other rule to tell, some at random. Which is which, the model
//! says. A change that finds nothing to work on does nothing.

use image::random::Rng;
use image::*;
use model::{Name, PASS_ON, SEATS};

const GRANTS: [u16; 3] = [TAKEN, RECEIVED, CHILD];
const ANY: [u16; 4] = [TAKEN, RECEIVED, CHILD, RECALL];

/// An image, as words, under change.
struct Host<'a> {
    words: Vec<u16>,
    rng: &'a mut Rng,
}

/// So many changes that could leave tables in order, then so many that harm them.
pub fn damage(image: &[u8], lawful: usize, harm: usize, rng: &mut Rng) -> Vec<u8> {
    let mut host = Host { words: to_words(image), rng };
    for _ in 0..lawful {
        host.lawful();
    }
    for _ in 0..harm {
        host.harm();
    }
    to_bytes(&host.words)
}

/// Changes that don't count: places, free places, fields that a kind does not use.
pub fn rearrange(image: &[u8], rng: &mut Rng) -> Vec<u8> {
    let mut host = Host { words: to_words(image), rng };
    host.swap_places();
    host.garbage();
    to_bytes(&host.words)
}

/// An image with one clause broken, where there is something to break it by.
type Broken = fn(&[u8], &mut Rng) -> Option<Vec<u8>>;

/// Each breaks one clause of T5 or T6; nothing else is wrong where the image was in order.
pub const ONE_CLAUSE: [(&str, Broken); 3] = [
    ("  a far child recalled", |image, rng| one_change(image, rng, |host| host.recall_from_abroad())),
    ("  an entry not recalled", |image, rng| one_change(image, rng, |host| host.free_recall(true))),
    ("  a parent beside 0", |image, rng| one_change(image, rng, |host| host.name_beside_0())),
];

fn one_change(image: &[u8], rng: &mut Rng, change: fn(&mut Host) -> Option<()>) -> Option<Vec<u8>> {
    let mut host = Host { words: to_words(image), rng };
    change(&mut host)?;
    Some(to_bytes(&host.words))
}

/// Last numbers near the end, or at it.
pub fn spend_numbers(image: &[u8], rng: &mut Rng) -> Vec<u8> {
    let mut words = to_words(image);
    for seat in 0..SEATS {
        if !rng.once_in(3) {
            words[last_at(seat)] = words[last_at(seat)].max(65_535 - rng.below(6) as u16);
        }
    }
    to_bytes(&words)
}

impl Host<'_> {
    /// A change that leaves tables in order, or could.
    fn lawful(&mut self) -> Option<()> {
        match self.rng.below(8) {
            0 => self.garbage(),
            1 => self.swap_places(),
            2 => {
                let at = last_at(self.rng.below(SEATS));
                self.words[at] = self.words[at].saturating_add([1, 2, 60_000][self.rng.below(3)]);
            }
            3 => self.move_received()?,
            4 => self.free_recall(false)?,
            5 => self.move_far_recall()?,
            _ => self.recall_of_nothing(PASS_ON)?,
        }
        Some(())
    }

    /// A change that mostly breaks one rule.
    fn harm(&mut self) -> Option<()> {
        let (seat, at) = self.pick(&ANY)?;
        let (_, other) = self.pick(&ANY)?;
        let entry = self.rng.pick(&self.entries(1))?;
        match self.rng.below(33) {
            0 | 1 => {
                let field = self.rng.below(TICKET);
                self.change(at + field, other + field);
            }
            2 | 3 => {
                let (like, field) = (self.rng.pick(&self.entries(1))?, self.rng.below(ENTRY));
                self.change(entry + field, like + field);
            }
            4 => self.change(last_at(seat), at + NUMBER),
            5 => self.words[at + KIND] = FREE,
            6 => self.words[entry + LIVE] = 0,
            7 => {
                // A second ticket like this one, under its own number or a new one.
                let to = if self.rng.once_in(2) { seat } else { self.rng.below(SEATS) };
                let place = self.free_place(to)?;
                self.words.copy_within(at..at + TICKET, place);
                if !self.rng.once_in(3) {
                    self.words[place + NUMBER] = self.fresh(to)?;
                }
            }
            8 => {
                let place = self.rng.pick(&self.entries(0))?;
                self.words.copy_within(entry..entry + ENTRY, place);
                if self.rng.once_in(2) {
                    self.change(place + NAME + 2, at + NUMBER);
                }
            }
            9 => self.swap(at, other, TICKET),
            10 => {
                let word = self.rng.below(self.words.len());
                self.words[word] ^= 1 << self.rng.below(16);
            }
            11 => {
                // A kind that no ticket or entry has, whatever was in the place.
                let (seat, place) = (self.rng.below(SEATS), self.rng.below(ENTRY_PLACES));
                let at = [ticket_at(seat, place % 8) + KIND, entry_at(place) + LIVE][self.rng.below(2)];
                self.words[at] = [2, 5, 256, 257, 65_535][self.rng.below(5)];
            }
            12 | 13 => self.change_grant_and_entry(entry),
            14 => self.move_child()?,
            15 => self.ring_of_children()?,
            16 => self.ring_of_entries(entry)?,
            17 | 18 => self.narrow_a_lender()?,
            19 => self.adopt()?,
            20 => self.entry_of_a_child()?,
            21 => {
                // An entry moves up to its parent's parent.
                let parent = self.entry(name(&self.words, entry + PARENT))?;
                self.words.copy_within(parent + PARENT..parent + PARENT + 3, entry + PARENT);
            }
            22 => {
                // A run whose end is beyond 16 bits.
                let below = 1 + self.rng.below(9) as u16;
                self.words[at + FIRST] = 0u16.wrapping_sub(below);
                self.words[at + COUNT] = below + self.rng.below(9) as u16;
            }
            23 => {
                let (lender, borrower) = (name(&self.words, entry + PARENT), name(&self.words, entry + NAME));
                self.lend_without_pass_on(lender, borrower);
            }
            24 | 25 => self.retarget()?,
            26 => {
                let (_, child) = self.pick(&[CHILD])?;
                self.words[child + RIGHTS] = 1 + self.rng.below(7) as u16;
            }
            27 => self.recall_from_abroad()?,
            28 => self.free_recall(true)?,
            29 => self.recall_of_nothing(0)?,
            30 => self.name_beside_0()?,
            _ => {
                // Another number, for this ticket or for what a recall stands under.
                let mate = self.rng.pick(&self.of_program(seat))?;
                let last = self.words[last_at(seat)];
                let number = [self.words[mate + NUMBER], 0, last, last.wrapping_add(1)][self.rng.below(4)];
                let field = if self.words[at + KIND] == RECALL && self.rng.once_in(2) { OWN } else { NUMBER };
                self.words[at + field] = number;
            }
        }
        Some(())
    }

    /// Another value in a word: near, small, at an edge, or the value of another word.
    fn change(&mut self, at: usize, like: usize) {
        self.words[at] = match self.rng.below(5) {
            0 => self.words[at].wrapping_add(1),
            1 => self.words[at].wrapping_sub(1),
            2 => self.words[like],
            3 => self.rng.below(9) as u16,
            _ => self.rng.edge(),
        };
    }

    /// Free places and unused fields may hold anything.
    fn garbage(&mut self) {
        let tickets = (0..SEATS * 8).map(|place| ticket_at(place / 8, place % 8));
        let mut unused: Vec<usize> = Vec::new();
        for at in tickets {
            unused.extend(match self.words[at + KIND] {
                FREE => at + 1..at + TICKET,
                TAKEN | RECEIVED => at + OWN..at + FIRST,
                CHILD => at + OWN..at + OTHER,
                _ => at + FIRST..at + TICKET,
            });
        }
        for at in (0..ENTRY_PLACES).map(entry_at) {
            if self.words[at + LIVE] == 0 {
                unused.extend(at + 1..at + ENTRY);
            }
        }
        for word in unused {
            self.words[word] = self.rng.edge();
        }
        self.like_grants();
    }

    /// Recalls that hold a grant's sheets, rights and dock name in the fields that they do not use.
    fn like_grants(&mut self) {
        for (_, recall) in self.tickets(&[RECALL], |_, _, _| true) {
            if let (true, Some((_, grant))) = (self.rng.once_in(4), self.pick(&GRANTS)) {
                self.words.copy_within(grant + FIRST..grant + TICKET, recall + FIRST);
            }
        }
    }

    fn swap_places(&mut self) {
        for _ in 0..40 {
            let seat = self.rng.below(SEATS);
            let (one, two) = (self.rng.below(ENTRY_PLACES), self.rng.below(ENTRY_PLACES));
            self.swap(ticket_at(seat, one % 8), ticket_at(seat, two % 8), TICKET);
            self.swap(entry_at(one), entry_at(two), ENTRY);
        }
    }

    /// A child's recall goes to another pad, under some grant there that may pass on.
    fn recall_from_abroad(&mut self) -> Option<()> {
        let (seat, child) = self.pick(&[CHILD])?;
        let lenders = self.tickets(&GRANTS, |host, other, at| {
            other / 8 != seat / 8 && host.words[at + RIGHTS] & PASS_ON != 0
        });
        let (abroad, grant) = self.rng.pick(&lenders)?;
        self.move_recall(Name::new(seat, self.words[child + NUMBER]), abroad, self.words[grant + NUMBER])
    }

    /// The recall of a loan to another pad is missing, which is in order where the loan has no entry.
    fn free_recall(&mut self, entry: bool) -> Option<()> {
        let far = self.tickets(&[RECALL], |host, seat, at| {
            let target = name(&host.words, at + OTHER);
            target.pad != seat as u16 / 8 && host.entry(target).is_some() == entry
        });
        let (_, at) = self.rng.pick(&far)?;
        self.words[at + KIND] = FREE;
        Some(())
    }

    /// The recall of a loan to another pad may stand under any grant that has the lender's dock name and what was
    /// lent.
    fn move_far_recall(&mut self) -> Option<()> {
        let far = |host: &Self, seat, at| host.words[at + OTHER] != seat as u16 / 8;
        let (seat, at) = self.rng.pick(&self.tickets(&[RECALL], far))?;
        let dock = self.ticket(Name::new(seat, self.words[at + OWN]))? + DOCK;
        let lenders = self.tickets(&GRANTS, |host, _, grant| {
            host.words[grant + DOCK..][..3] == host.words[dock..][..3]
                && host.words[grant + RIGHTS] & PASS_ON != 0
        });
        let (to, grant) = self.rng.pick(&lenders)?;
        self.move_recall(name(&self.words, at + OTHER), to, self.words[grant + NUMBER])
    }

    /// A recall, under a grant with these rights, of a number of another pad that has no entry: dead, a stale
    /// received grant, even a recall.
    fn recall_of_nothing(&mut self, rights: u16) -> Option<()> {
        let lenders = self.tickets(&GRANTS, |host, _, at| host.words[at + RIGHTS] & rights == rights);
        let (seat, grant) = self.rng.pick(&lenders)?;
        let to = self.off_pad(seat);
        let last = self.words[last_at(to)].max(1);
        let target = Name::new(to, 1 + self.rng.below(last as usize) as u16);
        let child = self.ticket(target).is_some_and(|at| self.words[at + KIND] == CHILD);
        if child || self.entry(target).is_some() || !self.recalls_of(target).is_empty() {
            return None;
        }
        let (own, place) = (self.words[grant + NUMBER], self.free_place(seat)?);
        self.words[place + NUMBER] = self.fresh(seat)?;
        self.words[place + OWN] = own;
        self.words[place + KIND] = RECALL;
        set_name(&mut self.words, place + OTHER, target);
        Some(())
    }

    /// Puts the recall that names `target` into another program, under its grant `own`.
    fn move_recall(&mut self, target: Name, seat: usize, own: u16) -> Option<()> {
        let &(_, at) = self.recalls_of(target).first()?;
        let place = self.move_ticket(at, seat)?;
        self.words[place + OWN] = own;
        Some(())
    }

    /// Moves a ticket to another program, under a new number there.
    fn move_ticket(&mut self, at: usize, seat: usize) -> Option<usize> {
        let place = self.free_place(seat)?;
        let number = self.fresh(seat)?;
        self.words.copy_within(at..at + TICKET, place);
        self.words[at + KIND] = FREE;
        self.words[place + NUMBER] = number;
        Some(place)
    }

    /// A received grant that lent nothing goes to another program, off its lender's pad, with its entry and its
    /// recall.
    fn move_received(&mut self) -> Option<()> {
        let idle = self.tickets(&[RECEIVED], |host, seat, at| {
            let number = host.words[at + NUMBER];
            host.of_program(seat)
                .iter()
                .all(|t| host.words[t + KIND] != RECALL || host.words[t + OWN] != number)
        });
        let (seat, at) = self.rng.pick(&idle)?;
        let old = Name::new(seat, self.words[at + NUMBER]);
        let lender = self.recalls_of(old).first().map_or(seat, |&(lender, _)| lender);
        let to = self.off_pad(lender);
        let place = self.move_ticket(at, to)?;
        let new = Name::new(to, self.words[place + NUMBER]);
        set_name(&mut self.words, place + DOCK, new);
        self.retarget_all(old, new);
        let entry = self.entry(old)?;
        set_name(&mut self.words, entry + NAME, new);
        Some(())
    }

    /// The recalls that name one ticket name another.
    fn retarget_all(&mut self, old: Name, new: Name) {
        for (_, recall) in self.recalls_of(old) {
            set_name(&mut self.words, recall + OTHER, new);
        }
    }

    /// A child goes to its parent's own program, or to any; its recall follows.
    fn move_child(&mut self) -> Option<()> {
        let (seat, at) = self.pick(&[CHILD])?;
        let parent = name(&self.words, at + OTHER).seat()?;
        let to = if self.rng.once_in(2) { parent } else { self.rng.below(SEATS) };
        let old = Name::new(seat, self.words[at + NUMBER]);
        let place = self.move_ticket(at, to)?;
        self.retarget_all(old, Name::new(to, self.words[place + NUMBER]));
        Some(())
    }

    /// Sheets or rights change alike in a grant and its entry.
    fn change_grant_and_entry(&mut self, entry: usize) {
        let own = name(&self.words, entry + NAME);
        let field = entry + [ENTRY_FIRST, ENTRY_COUNT, ENTRY_RIGHTS, ENTRY_RIGHTS][self.rng.below(4)];
        self.change(field, field);
        if field == entry + ENTRY_RIGHTS && !self.rng.once_in(3) {
            self.words[field] = 1 + self.rng.below(7) as u16;
        }
        if let Some(at) = self.ticket(own) {
            self.words.copy_within(entry + ENTRY_FIRST..entry + ENTRY_FIRST + 3, at + FIRST);
        }
    }

    /// A lender and a borrower lose the right to pass on.
    fn lend_without_pass_on(&mut self, lender: Name, borrower: Name) {
        for own in [lender, borrower] {
            let rights =
                [self.ticket(own).map(|at| at + RIGHTS), self.entry(own).map(|at| at + ENTRY_RIGHTS)];
            for at in rights.into_iter().flatten() {
                self.words[at] &= !PASS_ON;
            }
        }
    }

    /// A grant that something was lent from gets fewer sheets or other rights: mostly a child that lent to
    /// another pad.
    fn narrow_a_lender(&mut self) -> Option<()> {
        let all = self.rng.once_in(4);
        let recalls = self.tickets(&[RECALL], |host, seat, at| {
            let own = host.ticket(Name::new(seat, host.words[at + OWN]));
            let child = own.is_some_and(|own| host.words[own + KIND] == CHILD);
            all || child && host.entry(name(&host.words, at + OTHER)).is_some()
        });
        let (seat, recall) = self.rng.pick(&recalls)?;
        let at = self.ticket(Name::new(seat, self.words[recall + OWN]))?;
        match self.rng.below(4) {
            0 => self.words[at + RIGHTS] = 1 + self.rng.below(7) as u16,
            1 => self.words[at + RIGHTS] = PASS_ON,
            end => {
                self.words[at + FIRST] = self.words[at + FIRST].wrapping_add(end as u16 - 2);
                self.words[at + COUNT] = self.words[at + COUNT].wrapping_sub(1);
            }
        }
        Some(())
    }

    /// A recall gets another target.
    fn retarget(&mut self) -> Option<()> {
        let (_, at) = self.pick(&[RECALL])?;
        let (seat, other) = self.pick(&ANY)?;
        let mut target = name(&self.words, at + OTHER);
        match self.rng.below(7) {
            0 => target.number = 0,
            1 => target.number = self.words[last_at(target.seat()?)].wrapping_add(1),
            2 => target.pad = 4 + self.rng.below(2) as u16,
            3 => target.program = 8 + self.rng.below(2) as u16,
            4 | 5 => {
                // The target of another recall, that is dead.
                let dead = |host: &Self, _, at| host.ticket(name(&host.words, at + OTHER)).is_none();
                let (_, other) = self.rng.pick(&self.tickets(&[RECALL], dead))?;
                target = name(&self.words, other + OTHER);
            }
            _ => target = Name::new(seat, self.words[other + NUMBER]),
        }
        set_name(&mut self.words, at + OTHER, target);
        Some(())
    }

    /// A child gets another grant of its pad as its parent, and its recall goes there.
    fn adopt(&mut self) -> Option<()> {
        let (seat, child) = self.pick(&[CHILD])?;
        let own = Name::new(seat, self.words[child + NUMBER]);
        let grants = self.tickets(&GRANTS, |_, other, at| other / 8 == seat / 8 && at != child);
        let (to, parent) = self.rng.pick(&grants)?;
        let parent = Name::new(to, self.words[parent + NUMBER]);
        set_name(&mut self.words, child + OTHER, parent);
        self.move_recall(own, to, parent.number)
    }

    /// The dock has an entry for a child.
    fn entry_of_a_child(&mut self) -> Option<()> {
        let (seat, child) = self.pick(&[CHILD])?;
        let entry = self.rng.pick(&self.entries(0))?;
        let own = Name::new(seat, self.words[child + NUMBER]);
        self.words[entry + LIVE] = 1;
        set_name(&mut self.words, entry + NAME, own);
        self.words.copy_within(child + DOCK..child + DOCK + 3, entry + PARENT);
        self.words.copy_within(child + FIRST..child + FIRST + 3, entry + ENTRY_FIRST);
        Some(())
    }

    /// The number 0 of a parent is the store's, with a pad or a program beside it nobody's.
    fn name_beside_0(&mut self) -> Option<()> {
        let under_store: Vec<usize> =
            self.entries(1).into_iter().filter(|at| self.words[at + PARENT + 2] == 0).collect();
        let parent = self.rng.pick(&under_store)? + PARENT;
        self.words[parent + self.rng.below(2)] = [1, 2, 3, 4, 7, 8, 65_535][self.rng.below(7)];
        Some(())
    }

    /// A child gets a descendant as its parent, and its recall goes there.
    fn ring_of_children(&mut self) -> Option<()> {
        let (seat, low) = self.pick(&[CHILD])?;
        let bottom = Name::new(seat, self.words[low + NUMBER]);
        let (mut at, mut top) = (low, bottom);
        for _ in 0..1 + self.rng.below(6) {
            let above = name(&self.words, at + OTHER);
            match self.ticket(above) {
                Some(next) if self.words[next + KIND] == CHILD => (at, top) = (next, above),
                _ => break,
            }
        }
        set_name(&mut self.words, at + OTHER, bottom);
        self.move_recall(top, seat, bottom.number)
    }

    /// An entry gets one below it as its parent, and its recall goes there.
    fn ring_of_entries(&mut self, low: usize) -> Option<()> {
        let bottom = name(&self.words, low + NAME);
        let (mut at, mut top) = (low, bottom);
        for _ in 0..1 + self.rng.below(6) {
            let above = name(&self.words, at + PARENT);
            match self.entry(above) {
                Some(next) if self.words[next + PARENT + 2] != 0 => (at, top) = (next, above),
                _ => break,
            }
        }
        set_name(&mut self.words, at + PARENT, bottom);
        self.move_recall(top, bottom.seat()?, bottom.number)
    }

    fn swap(&mut self, one: usize, two: usize, length: usize) {
        for word in 0..length {
            self.words.swap(one + word, two + word);
        }
    }

    /// Seat and first word of each live ticket of these kinds that is also `wanted`.
    fn tickets(&self, kinds: &[u16], wanted: impl Fn(&Self, usize, usize) -> bool) -> Vec<(usize, usize)> {
        (0..SEATS)
            .flat_map(|seat| (0..8).map(move |place| (seat, ticket_at(seat, place))))
            .filter(|&(seat, at)| kinds.contains(&self.words[at + KIND]) && wanted(self, seat, at))
            .collect()
    }

    fn pick(&mut self, kinds: &[u16]) -> Option<(usize, usize)> {
        self.rng.pick(&self.tickets(kinds, |_, _, _| true))
    }

    fn recalls_of(&self, target: Name) -> Vec<(usize, usize)> {
        self.tickets(&[RECALL], |host, _, at| name(&host.words, at + OTHER) == target)
    }

    fn of_program(&self, seat: usize) -> Vec<usize> {
        (0..8).map(|place| ticket_at(seat, place)).filter(|at| self.words[at + KIND] != FREE).collect()
    }

    fn ticket(&self, name: Name) -> Option<usize> {
        self.of_program(name.seat()?).into_iter().find(|at| self.words[at + NUMBER] == name.number)
    }

    /// The first words of the entries that are live, or that are not.
    fn entries(&self, live: u16) -> Vec<usize> {
        (0..ENTRY_PLACES).map(entry_at).filter(|at| self.words[at + LIVE] == live).collect()
    }

    fn entry(&self, own: Name) -> Option<usize> {
        self.entries(1).into_iter().find(|at| name(&self.words, at + NAME) == own)
    }

    fn free_place(&mut self, seat: usize) -> Option<usize> {
        let places = (0..8).map(|place| ticket_at(seat, place));
        let free: Vec<usize> = places.filter(|at| self.words[at + KIND] == FREE).collect();
        self.rng.pick(&free)
    }

    /// Some program of another pad.
    fn off_pad(&mut self, seat: usize) -> usize {
        (seat / 8 * 8 + 8 + self.rng.below(SEATS - 8)) % SEATS
    }

    /// A new number of the program, where one is left.
    fn fresh(&mut self, seat: usize) -> Option<u16> {
        let last = &mut self.words[last_at(seat)];
        *last = last.checked_add(1)?;
        Some(*last)
    }
}
