//! One run: requests of a group and of the others, mixed, through a dock of its own.
//!
//! The words are those of crates/machine/specs/Sequence.antt. The model goes along, so that requests can be
//! chosen that mean something; only what the library answers is kept.

use dock::{raw, Dock, ANSWER, SAVED_ROOM};
use image::random::Rng;
use model::{Answer, Name, Request, State, SHEET};
use requests::{to_seat, Asker, Seats};

/// A request with the bytes of its own sheet buffer.
#[derive(Clone, Copy)]
pub struct Sent {
    pub request: Request,
    pub sheet: [u8; SHEET],
}

/// A request of the group's, with its answer and the sheet buffer that it left.
#[derive(Clone)]
pub struct Exchange {
    pub sent: Sent,
    pub answer: [u16; ANSWER],
    pub left: [u8; SHEET],
}

/// "A request with an impossible sender is the others'".
fn from_group(group: &Seats, request: &Request) -> bool {
    seat(request.pad, request.program).is_some_and(|seat| group.has(seat))
}

/// "A pass crosses the edge when sender and recipient are among the 32 and only one is in the group".
fn crosses(group: &Seats, request: &Request) -> bool {
    let ends = (seat(request.pad, request.program), seat(request.topad, request.toprogram));
    request.op == 2 && matches!(ends, (Some(from), Some(to)) if group.has(from) != group.has(to))
}

fn seat(pad: u16, program: u16) -> Option<usize> {
    Name { pad, program, number: 0 }.seat()
}

/// Where the requests of the group, or of the others, come from.
pub enum Source<'a> {
    /// New ones, of these programs.
    Asked(Box<Asker>),
    /// There are no such programs: only impossible senders are left.
    Nobody,
    /// Those of another run, in their order.
    Repeated(std::slice::Iter<'a, Exchange>),
}

impl Source<'_> {
    pub fn new(rng: &mut Rng, seats: Seats) -> Self {
        if seats.is_empty() {
            return Source::Nobody;
        }
        Source::Asked(Box::new(Asker::new(rng, seats)))
    }
}

/// What both runs begin with.
pub struct Start {
    dock: Dock,
    /// The model's tables.
    state: State,
}

impl Start {
    pub fn emptied() -> Self {
        Start { dock: Dock::new(), state: State::empty() }
    }

    /// Tables that were saved and loaded, with any store. No link joins the group to the others, because they are
    /// what a run left in which no pass crossed the edge.
    pub fn loaded(rng: &mut Rng, group: &Seats) -> Self {
        let (asked, length) = (Source::new(rng, group.clone()), 10 + rng.below(90));
        let old = Run::new(rng, group, asked, &Start::emptied(), false).leave(length);
        let (mut dock, mut text) = (Dock::new(), [0; SAVED_ROOM]);
        let length = old.save(&mut text).expect("a run leaves tables in order");
        dock.load(&text[..length]).expect("what was saved loads");
        for sheet in dock.store.chunks_exact_mut(SHEET) {
            sheet.copy_from_slice(&rng.sheet());
        }
        let state = image::to_model(&dock.tables[..]).expect("what was loaded are tables");
        Start { dock, state }
    }
}

pub struct Run<'a> {
    rng: &'a mut Rng,
    group: &'a Seats,
    group_source: Source<'a>,
    others_source: Source<'a>,
    /// Of four requests, so many are the others'.
    others_share: usize,
    /// Now and then the others pass something to the group, to show that this is noticed.
    leaky: bool,
    dock: Dock,
    /// The model's tables and store.
    state: State,
    store: Vec<u8>,
    exchanges: Vec<Exchange>,
    others_accepted: usize,
}

impl<'a> Run<'a> {
    pub fn new(
        rng: &'a mut Rng,
        group: &'a Seats,
        group_source: Source<'a>,
        start: &Start,
        leaky: bool,
    ) -> Self {
        Run {
            others_source: Source::new(rng, group.rest()),
            others_share: rng.below(4),
            rng,
            group,
            group_source,
            leaky,
            dock: start.dock.clone(),
            state: start.state.clone(),
            store: start.dock.store.to_vec(),
            exchanges: Vec::new(),
            others_accepted: 0,
        }
    }

    /// Plays until the group has had so many answers. Returns them, and how many of the others' requests
    /// were accepted.
    pub fn play(mut self, answers: usize) -> (Vec<Exchange>, usize) {
        self.serve_until(answers);
        (self.exchanges, self.others_accepted)
    }

    /// Plays likewise. Returns the dock that is left.
    pub fn leave(mut self, answers: usize) -> Dock {
        self.serve_until(answers);
        self.dock
    }

    fn serve_until(&mut self, answers: usize) {
        while self.exchanges.len() < answers {
            self.serve_some();
            if self.rng.once_in(8) {
                self.serve_none();
            }
        }
    }

    /// One request by dock_step, or some by dock_serve.
    fn serve_some(&mut self) {
        let batch = self.rng.once_in(3);
        let length = if batch { self.rng.below(24) } else { 1 };
        let sent: Vec<Sent> = (0..length).map_while(|_| self.next()).collect();
        let requests: Vec<u16> = sent.iter().flat_map(|sent| sent.request.numbers()).collect();
        let mut sheets: Vec<[u8; SHEET]> = sent.iter().map(|sent| sent.sheet).collect();
        let mut answers = vec![[0; ANSWER]; sent.len()];
        let call = if batch || sent.is_empty() { raw::serve } else { raw::step };
        let (tables, store) = (&mut self.dock.tables[..], &mut self.dock.store[..]);
        let result = call(tables, store, sheets.as_flattened_mut(), &requests, answers.as_flattened_mut());
        assert!(result != 13 && result != 14, "result {result} from tables in order");
        for ((sent, answer), left) in sent.into_iter().zip(answers).zip(sheets) {
            if from_group(self.group, &sent.request) {
                self.exchanges.push(Exchange { sent, answer, left });
            } else {
                self.others_accepted += usize::from(answer[0] == 0);
            }
        }
    }

    /// A call that serves nothing: the order test, the dock's check, or one with a wrong length.
    fn serve_none(&mut self) {
        let rng = &mut *self.rng;
        let (tables, store) = (&mut self.dock.tables[..], &mut self.dock.store[..]);
        let (mut sheet, mut answer) = ([1; SHEET], [0; ANSWER]);
        let take = Request { count: 1, rights: 7, ..Request::by(Name::new(rng.below(32), 0), 1) }.numbers();
        let result = match rng.below(6) {
            0 => 13 + raw::in_order(tables),
            1 => {
                let name = (rng.below(4) as u16, rng.below(8) as u16, 1 + rng.below(9) as u16);
                raw::check(tables, name, rng.below(256) as u16, 1 + rng.below(2) as u16);
                13
            }
            2 => raw::step(&mut tables[1..], store, &mut sheet, &take, &mut answer),
            3 => raw::step(tables, store, &mut sheet, &take, &mut answer[1..]),
            4 => raw::serve(tables, &mut store[1..], &mut sheet, &take, &mut answer),
            _ => raw::serve(tables, store, &mut sheet[1..], &take, &mut answer),
        };
        assert_eq!(result, 13, "a wrong length, or the order of tables that were in order");
    }

    /// The next request of either side; nothing where the group has no more to repeat.
    fn next(&mut self) -> Option<Sent> {
        let others = self.rng.below(4) < self.others_share;
        let sheet = self.rng.sheet();
        if let (false, Source::Repeated(exchanges)) = (others, &mut self.group_source) {
            let again = exchanges.next()?.sent;
            // Only a write's bytes have to be those of the other run.
            let sent = if again.request.op == 6 { again } else { Sent { sheet, ..again } };
            self.follow(&sent);
            return Some(sent);
        }
        let sent = Sent { request: self.ask(others), sheet };
        if self.leaky && others && sent.request.op == 2 && self.rng.once_in(8) {
            let leak = Sent { request: to_seat(sent.request, self.group.pick(self.rng)), sheet };
            self.follow(&leak);
            return Some(leak);
        }
        let answer = self.follow(&sent);
        if let Source::Asked(asker) = if others { &mut self.others_source } else { &mut self.group_source } {
            asker.heard(self.rng, &sent.request, &answer);
        }
        Some(sent)
    }

    /// A new request of one side that does not cross the edge.
    fn ask(&mut self, others: bool) -> Request {
        let source = if others { &mut self.others_source } else { &mut self.group_source };
        loop {
            let request = match source {
                Source::Asked(asker) => asker.next(self.rng, &self.state),
                _ => Request::from([(); 9].map(|_| self.rng.edge())),
            };
            if from_group(self.group, &request) != others && !crosses(self.group, &request) {
                return request;
            }
        }
    }

    fn follow(&mut self, sent: &Sent) -> Answer {
        let mut sheet = sent.sheet;
        self.state.step_in_order(&mut self.store, &mut sheet, &sent.request)
    }
}
