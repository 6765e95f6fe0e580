//! Random requests of some of the programs among themselves, which lean towards what is rare: deep chains,
//! loans on a pad that go on to other pads, stale grants, full places, holes of several sizes in the store,
//! several faults in one request.

use image::random::Rng;
use model::{Answer, Grant, Name, Request, Source, State, Ticket, PASS_ON, SEATS};
use std::collections::VecDeque;

/// A set of programs, by their seats.
#[derive(Clone, Debug)]
pub struct Seats {
    list: Vec<usize>,
    has: [bool; SEATS],
}

impl Seats {
    pub fn all() -> Self {
        Seats::of(|_| true)
    }

    pub fn of(wanted: impl FnMut(&usize) -> bool) -> Self {
        let list: Vec<usize> = (0..SEATS).filter(wanted).collect();
        let mut has = [false; SEATS];
        list.iter().for_each(|&seat| has[seat] = true);
        Seats { list, has }
    }

    /// The other programs.
    pub fn rest(&self) -> Self {
        Seats::of(|&seat| !self.has[seat])
    }

    pub fn is_empty(&self) -> bool {
        self.list.is_empty()
    }

    pub fn has(&self, seat: usize) -> bool {
        self.has[seat]
    }

    /// Some seat of a set that is not empty.
    pub fn pick(&self, rng: &mut Rng) -> usize {
        self.list[rng.below(self.list.len())]
    }

    /// The first that fits from this seat on, all round.
    fn from(&self, seat: usize, fits: impl Fn(usize) -> bool) -> Option<usize> {
        (seat..seat + SEATS).map(|seat| seat % SEATS).find(|&seat| self.has[seat] && fits(seat))
    }
}

/// What the requests of a round tend to.
pub struct Asker {
    /// The programs that ask and are lent to; one at least.
    seats: Seats,
    /// How often take, pass, recall, give back, read, write.
    weights: [usize; 6],
    /// Passes to another pad, of a hundred.
    far: usize,
    sizes: Sizes,
    /// Rights and sheets are mostly passed whole.
    whole: bool,
    /// One request in so many gets wrong numbers.
    ill: usize,
    chain: Option<Chain>,
    /// Requests that follow an earlier one.
    after: VecDeque<Request>,
}

/// How many sheets are taken.
#[derive(Clone, Copy)]
enum Sizes {
    Short,
    Long,
    /// Short and long ones in turn: what is given back leaves holes of several sizes.
    Mixed,
}

/// A taken grant that is lent once, and what was lent is lent on and on.
struct Chain {
    way: Way,
    /// Does the first loan go to another pad?
    first_far: bool,
    /// Requests still to be made.
    left: usize,
    /// The grants so far, the newest last, and the recalls of the loans.
    grants: Vec<Name>,
    recalls: Vec<Name>,
}

/// Where the loans go, behind the first.
#[derive(Clone, Copy)]
enum Way {
    /// To the next program of the pad.
    OnPad,
    /// To the next pad.
    Around,
    /// From any borrower so far to any program: no chain but a tree.
    Anywhere,
}

impl Chain {
    fn new(rng: &mut Rng, way: Way) -> Self {
        let left = match way {
            Way::Anywhere => 3 + rng.below(24),
            _ => [4, 12, SEATS * 8, SEATS * 8][rng.below(4)],
        };
        Chain { way, first_far: rng.once_in(2), left, grants: Vec::new(), recalls: Vec::new() }
    }
}

const WEIGHTS: [[usize; 6]; 6] = [
    [3, 6, 3, 1, 4, 4],
    [5, 12, 1, 0, 1, 1],
    [2, 8, 5, 0, 3, 1],
    [1, 2, 6, 2, 2, 2],
    [8, 2, 1, 4, 3, 3],
    [2, 6, 2, 1, 12, 12],
];
/// What is taken is soon given back.
const COME_AND_GO: [usize; 6] = [8, 1, 0, 7, 1, 1];

impl Asker {
    pub fn new(rng: &mut Rng, seats: Seats) -> Self {
        let sizes = [Sizes::Short, Sizes::Short, Sizes::Short, Sizes::Long, Sizes::Mixed][rng.below(5)];
        let weights = match sizes {
            Sizes::Mixed if !rng.once_in(3) => COME_AND_GO,
            _ => WEIGHTS[rng.below(WEIGHTS.len())],
        };
        Asker {
            seats,
            weights,
            far: [0, 15, 50, 50, 90][rng.below(5)],
            sizes,
            whole: rng.once_in(2),
            ill: [8, 16, 200][rng.below(3)],
            chain: rng.once_in(4).then(|| {
                let way = [Way::OnPad, Way::Around][rng.below(2)];
                Chain::new(rng, way)
            }),
            after: VecDeque::new(),
        }
    }

    pub fn next(&mut self, rng: &mut Rng, state: &State) -> Request {
        if self.chain.is_none() && rng.once_in(40) {
            self.chain = Some(Chain::new(rng, Way::Anywhere));
        }
        if let Some(link) = self.link(rng) {
            return link;
        }
        let mut request = match self.after.pop_front() {
            Some(request) => request,
            None => self.usual(rng, state),
        };
        if rng.once_in(self.ill) {
            let mut numbers = request.numbers();
            for _ in 0..1 + rng.below(2) {
                numbers[rng.below(9)] = rng.edge();
            }
            request = Request::from(numbers);
        }
        request
    }

    /// The chain's next request.
    fn link(&mut self, rng: &mut Rng) -> Option<Request> {
        let chain = self.chain.as_ref()?;
        let Some(&newest) = chain.grants.last() else {
            let (by, count) = (Name::new(self.seats.pick(rng), 0), 1 + rng.below(3) as u16);
            return Some(Request { count, rights: 7, ..Request::by(by, 1) });
        };
        let (at, abroad) = match chain.way {
            _ if chain.recalls.is_empty() => (newest, chain.first_far),
            Way::OnPad => (newest, false),
            Way::Around => (newest, true),
            Way::Anywhere => (chain.grants[1 + rng.below(chain.grants.len() - 1)], rng.once_in(2)),
        };
        let seat = at.seat()?;
        let to = match (chain.way, abroad) {
            (Way::Anywhere, true) => rng.below(SEATS),
            (Way::Anywhere, false) => seat / 8 * 8 + rng.below(8),
            (_, false) => seat / 8 * 8 + (seat + 1) % 8,
            // Each time round goes to the next program.
            (_, true) if seat >= 24 => (seat + 1) % 8,
            (_, true) => seat + 8,
        };
        // Where nobody is left to lend to, the pass to oneself that ends the chain.
        let to = self.seats.from(to, |to| to != seat && (to / 8 != seat / 8) == abroad).unwrap_or(seat);
        Some(Request { count: 1, rights: 7, ..to_seat(Request::by(at, 2), to) })
    }

    /// Takes note of an answer.
    pub fn heard(&mut self, rng: &mut Rng, request: &Request, answer: &Answer) {
        let Some(mut chain) = self.chain.take() else { return };
        let seat = (request.pad * 8 + request.program) as usize;
        let begun = !chain.grants.is_empty();
        if answer.result == 0 {
            let own = Name::new(seat, answer.ticket);
            if begun {
                let to = (request.topad * 8 + request.toprogram) as usize;
                chain.recalls.push(own);
                chain.grants.push(Name::new(to, answer.recipient));
            } else {
                chain.grants.push(own);
            }
        }
        chain.left -= 1;
        // A tree can go on from another borrower.
        let goes_on = answer.result == 0 || begun && matches!(chain.way, Way::Anywhere);
        if goes_on && chain.left > 0 {
            self.chain = Some(chain);
        } else {
            self.end(rng, &chain);
        }
    }

    /// Loans of the chain are recalled, the first or some other, and a grant of it is used before and after.
    fn end(&mut self, rng: &mut Rng, chain: &Chain) {
        let (Some(&first), Some(&last)) = (chain.recalls.first(), chain.grants.last()) else { return };
        for _ in 0..1 + rng.below(3) {
            let recall = if rng.once_in(2) { first } else { rng.pick(&chain.recalls).unwrap_or(first) };
            let used = if rng.once_in(2) { last } else { rng.pick(&chain.grants).unwrap_or(last) };
            self.after.extend([Request::by(used, 5), Request::by(recall, 3), Request::by(used, 5)]);
        }
    }

    fn usual(&mut self, rng: &mut Rng, state: &State) -> Request {
        let mut draw = rng.below(self.weights.iter().sum());
        let mut op = 0;
        while draw >= self.weights[op] {
            draw -= self.weights[op];
            op += 1;
        }
        let op = op as u16 + 1;
        let own = |name: &Name| name.seat().is_some_and(|seat| self.seats.has(seat));
        let live: Vec<(Name, Ticket)> =
            state.tickets().filter(|(name, _)| own(name)).map(|(name, ticket)| (name, *ticket)).collect();
        if op == 1 || live.is_empty() {
            return self.take(rng, &live);
        }
        // Mostly a ticket that the operation is for.
        let fitting = fitting(rng, state, &live, op);
        let chosen = if rng.once_in(24) { rng.pick(&live) } else { rng.pick(&fitting).or(rng.pick(&live)) };
        let (mut name, ticket) = chosen.expect("there is a live ticket");
        if rng.once_in(30) {
            name.number = rng.below(state.last(name.seat().unwrap_or(0)) as usize + 2) as u16;
        }
        if rng.once_in(30) {
            name = Name::new(self.seats.pick(rng), name.number);
        }
        let request = Request::by(name, op);
        match (op, ticket) {
            (2, Ticket::Grant(grant)) => self.pass(rng, &live, request, &grant),
            (2, _) => {
                let to = self.seats.pick(rng);
                Request { count: 1, rights: 1 + rng.below(7) as u16, ..to_seat(request, to) }
            }
            (3, Ticket::Recall { target, .. }) if rng.once_in(2) => {
                let ended =
                    if target.pad == name.pad { loan_under(rng, state, target) } else { Some(target) };
                if let Some(loan) = ended {
                    self.use_after_recall(rng, state, loan);
                }
                request
            }
            (5 | 6, Ticket::Grant(grant)) => {
                let beyond = usize::from(rng.once_in(8) || grant.sheets.count == 0);
                let first = rng.below(grant.sheets.count as usize + beyond);
                Request { first: first as u16, ..request }
            }
            _ => request,
        }
    }

    fn take(&self, rng: &mut Rng, live: &[(Name, Ticket)]) -> Request {
        let count = match self.sizes {
            Sizes::Short => 1 + rng.below(4),
            Sizes::Long => [256, 255, 128, 100, 64, 1 + rng.below(256), 1 + rng.below(256)][rng.below(7)],
            Sizes::Mixed => 1 + [rng.below(3), rng.below(12), rng.below(48)][rng.below(3)],
        };
        let rights = if rng.once_in(4) { 1 + rng.below(7) as u16 } else { 7 };
        let seat = if rng.once_in(3) { self.busy(rng, live) } else { self.seats.pick(rng) };
        Request { count: count as u16, rights, ..Request::by(Name::new(seat, 0), 1) }
    }

    /// A pass of a part of a grant, with each fault now and then, so that some requests have several.
    fn pass(&self, rng: &mut Rng, live: &[(Name, Ticket)], request: Request, grant: &Grant) -> Request {
        let seat = (request.pad as usize * 8 + request.program as usize) % SEATS;
        let to = match rng.below(24) {
            0 => seat,
            1..6 => self.busy(rng, live),
            _ if rng.below(100) < self.far => self.seats.pick(rng),
            _ => {
                let beside = seat / 8 * 8 + (seat + 1 + rng.below(7)) % 8;
                self.seats.from(beside, |to| to != seat && to / 8 == seat / 8).unwrap_or(seat)
            }
        };
        let all = grant.sheets.count as usize;
        let whole = self.whole && !rng.once_in(4) || all == 0;
        let first = if whole { 0 } else { rng.below(all) };
        let count = if whole { all } else { 1 + rng.below(all - first) };
        let count = count + usize::from(rng.once_in(16));
        let mut rights =
            if self.whole { grant.rights } else { grant.rights & (rng.below(8) as u16 | PASS_ON) };
        if rights == 0 || rng.once_in(8) {
            rights = 1 + rng.below(7) as u16;
        }
        Request { first: first as u16, count: count as u16, rights, ..to_seat(request, to) }
    }

    /// After a recall the other pad uses the grant, or something under it, once or twice.
    fn use_after_recall(&mut self, rng: &mut Rng, state: &State, target: Name) {
        let under: Vec<Name> = state
            .tickets()
            .filter(|(_, ticket)| matches!(ticket, Ticket::Grant(g) if g.dock == target))
            .map(|(name, _)| name)
            .collect();
        let name = rng.pick(&under).unwrap_or(target);
        let (to, rights) = (self.seats.pick(rng), 1 + rng.below(7) as u16);
        let first_use = match rng.below(3) {
            0 => Request { count: 1, rights, ..to_seat(Request::by(name, 2), to) },
            kind => Request::by(name, 4 + kind as u16),
        };
        self.after.extend([first_use, Request::by(name, 5)]);
    }

    /// Some program with tickets; the more it has, the more often it is met.
    fn busy(&self, rng: &mut Rng, live: &[(Name, Ticket)]) -> usize {
        rng.pick(live).and_then(|(name, _)| name.seat()).unwrap_or(self.seats.list[0])
    }
}

/// The tickets that an operation other than take is for; of grants, now and then only the stale ones, of recalls,
/// often only those of loans that went on to other pads.
fn fitting(rng: &mut Rng, state: &State, live: &[(Name, Ticket)], op: u16) -> Vec<(Name, Ticket)> {
    let (stale, off) = (rng.once_in(8), op == 3 && rng.once_in(2));
    let lent_off = if off { lent_off(state) } else { Vec::new() };
    let fits = |(name, ticket): &(Name, Ticket), off: bool| match (ticket, op) {
        (Ticket::Recall { target, .. }, op) => {
            op == 3 && (!off || lent_off.iter().any(|(child, _)| child == target))
        }
        (Ticket::Grant(g), 4) => g.source == Source::Taken && g.dock == *name,
        (Ticket::Grant(g), op) => op != 3 && (!stale || state.entry(g.dock).is_none()),
    };
    let those = |off| live.iter().filter(|ticket| fits(ticket, off)).copied().collect::<Vec<_>>();
    let some = those(off);
    if off && some.is_empty() {
        those(false)
    } else {
        some
    }
}

/// Each child with each loan to another pad that its pad made from it, at any depth.
fn lent_off(state: &State) -> Vec<(Name, Name)> {
    let mut found = Vec::new();
    for (name, ticket) in state.tickets() {
        let Ticket::Recall { own, target } = *ticket else { continue };
        if target.pad == name.pad {
            continue;
        }
        let mut at = Name { number: own, ..name };
        // A chain has fewer links than its pad has places; damaged tables can have rings.
        for _ in 0..64 {
            let Some(Ticket::Grant(Grant { source: Source::Child { parent }, .. })) = state.ticket(at) else {
                break;
            };
            found.push((at, target));
            at = *parent;
        }
    }
    found
}

/// One of the loans to other pads from this child, or one that was lent on from there.
fn loan_under(rng: &mut Rng, state: &State, child: Name) -> Option<Name> {
    let loans: Vec<Name> =
        lent_off(state).into_iter().filter(|(from, _)| *from == child).map(|(_, to)| to).collect();
    let mut loan = rng.pick(&loans)?;
    while rng.once_in(2) {
        let below: Vec<Name> =
            state.entries().filter(|(_, entry)| entry.parent == Some(loan)).map(|(name, _)| name).collect();
        loan = rng.pick(&below).unwrap_or(loan);
    }
    Some(loan)
}

/// The request with another recipient.
pub fn to_seat(request: Request, to: usize) -> Request {
    Request { topad: to as u16 / 8, toprogram: to as u16 % 8, ..request }
}
