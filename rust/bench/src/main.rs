//! Times the proved library against the model on one machine, with the same requests from the same tables.
//! `sh bench/run` builds and runs it.
//!
//! usage: bench [REQUESTS] [SEED] [FILL]     REQUESTS for each trace, usually 4000; FILL: only empty, light, mixed or full, the takes, the reports or the saved texts
//!
//! Each figure is the best of several runs, in nanoseconds for one request. Every run begins with the same
//! tables and store; they are put back before the clock starts, and all buffers are used again, so that no
//! run pays for fresh memory. A trace is made once, from the model, and its mix keeps the tables about as
//! full as they were: mostly reads and writes, some passes, recalls, takes and give backs, some refused.

mod reports;
mod saved;
mod takes;

use dock::{raw, ANSWER, REQUEST};
use image::random::Rng;
use model::{Answer, Name, Request, Source, State, Ticket, PASS_ON, SEATS, SHEET, STORE};
use std::{env, process::ExitCode, time::Instant};

const RUNS: usize = 7;
/// Requests in one call of `dock_serve`.
const BATCH: usize = 1000;

/// What a trace starts with and asks.
struct Trace {
    fill: &'static str,
    start: State,
    store: Vec<u8>,
    requests: Vec<Request>,
    answers: Vec<Answer>,
    /// Tickets at the end.
    left: usize,
}

/// The state while a trace is made.
struct Maker {
    rng: Rng,
    state: State,
    store: Vec<u8>,
    /// About so many tickets are kept.
    level: usize,
    requests: Vec<Request>,
    answers: Vec<Answer>,
}

impl Maker {
    fn ask(&mut self, request: Request) -> u16 {
        let mut sheet = fill(self.requests.len());
        let answer = self.state.step(&mut self.store, &mut sheet, &request);
        self.requests.push(request);
        self.answers.push(answer);
        answer.result
    }

    /// A live ticket of those wanted.
    fn ticket(&mut self, wanted: impl Fn(&Ticket) -> bool) -> Option<(Name, Ticket)> {
        let found: Vec<(Name, Ticket)> =
            self.state.tickets().filter(|(_, ticket)| wanted(ticket)).map(|(n, t)| (n, *t)).collect();
        self.rng.pick(&found)
    }

    fn take(&mut self) -> u16 {
        let by = Name::new(self.rng.below(SEATS), 0);
        let count = 1 + self.rng.below(if self.level > 200 { 1 } else { 4 }) as u16;
        self.ask(Request { count, rights: 7, ..Request::by(by, 1) })
    }

    /// A pass of a whole grant, to its own pad or another.
    fn pass(&mut self) -> Option<u16> {
        let (name, ticket) =
            self.ticket(|ticket| matches!(ticket, Ticket::Grant(g) if g.rights & PASS_ON != 0))?;
        let Ticket::Grant(grant) = ticket else { return None };
        let (abroad, to) = (self.rng.below(2), self.rng.below(SEATS) as u16);
        let topad = if abroad == 0 { name.pad } else { to / 8 };
        let rights = if self.rng.once_in(3) { grant.rights & 3 | 1 } else { grant.rights };
        let request =
            Request { topad, toprogram: to % 8, count: grant.sheets.count, rights, ..Request::by(name, 2) };
        Some(self.ask(request))
    }

    fn recall(&mut self) -> Option<u16> {
        let (name, _) = self.ticket(|ticket| matches!(ticket, Ticket::Recall { .. }))?;
        Some(self.ask(Request::by(name, 3)))
    }

    fn give_back(&mut self) -> Option<u16> {
        let (name, _) =
            self.ticket(|ticket| matches!(ticket, Ticket::Grant(g) if g.source == Source::Taken))?;
        Some(self.ask(Request::by(name, 4)))
    }

    fn read_or_write(&mut self) -> Option<u16> {
        let (name, ticket) = self.ticket(|ticket| matches!(ticket, Ticket::Grant(_)))?;
        let Ticket::Grant(grant) = ticket else { return None };
        let first = self.rng.below(grant.sheets.count as usize) as u16;
        let op = 5 + self.rng.below(2) as u16;
        Some(self.ask(Request { first, ..Request::by(name, op) }))
    }

    /// Takes and passes until the level is reached, or nothing more fits.
    fn fill_up(&mut self) {
        let mut misses = 0;
        while self.state.tickets().count() < self.level && misses < 5000 {
            let pass = self.rng.below(5) < 2;
            let accepted = if pass { self.pass() } else { Some(self.take()) } == Some(0);
            misses = if accepted { 0 } else { misses + 1 };
        }
    }

    /// One request of the mix; below the level tables grow, above it they shrink.
    fn mix(&mut self) {
        let grow = self.state.tickets().count() < self.level;
        let asked = match self.rng.below(20) {
            0..16 => self.read_or_write(),
            16 | 17 if grow => self.pass(),
            18 if grow => Some(self.take()),
            16..19 if self.rng.once_in(4) => self.give_back(),
            16..19 => self.recall(),
            _ => {
                // Some program tries a number that may not be its own.
                let (seat, number) = (self.rng.below(SEATS), 1 + self.rng.below(12) as u16);
                Some(self.ask(Request::by(Name::new(seat, number), 5)))
            }
        };
        // Where there is no such ticket:
        if asked.is_none() && (grow || self.give_back().is_none()) {
            self.take();
        }
    }
}

/// The sheet buffer that a trace's request comes with.
fn fill(at: usize) -> [u8; SHEET] {
    [at as u8 | 1; SHEET]
}

fn trace(fill: &'static str, level: usize, length: usize, seed: u64) -> Trace {
    let (state, store) = (State::empty(), vec![0; STORE]);
    let (requests, answers) = (Vec::new(), Vec::new());
    let mut maker = Maker { rng: Rng::new(seed), state, store, level, requests, answers };
    maker.fill_up();
    maker.requests.clear();
    maker.answers.clear();
    let (start, store) = (maker.state.clone(), maker.store.clone());
    while maker.requests.len() < length {
        if level == 0 {
            // An empty dock: a take, and what was taken goes back.
            maker.take();
            maker.give_back();
        } else {
            maker.mix();
        }
    }
    maker.requests.truncate(length);
    maker.answers.truncate(length);
    let left = maker.state.tickets().count();
    Trace { fill, start, store, requests: maker.requests, answers: maker.answers, left }
}

/// The best of several runs of `run`, each after `reset`, in nanoseconds for one of `turns`.
fn best<T>(turns: usize, on: &mut T, reset: impl Fn(&mut T), run: impl Fn(&mut T)) -> f64 {
    let times = (0..RUNS).map(|_| {
        reset(on);
        let clock = Instant::now();
        run(on);
        clock.elapsed().as_nanos() as f64 / turns as f64
    });
    times.fold(f64::INFINITY, f64::min)
}

/// The buffers of both sides.
struct Buffers {
    tables: Vec<u8>,
    store: Vec<u8>,
    sheets: Vec<u8>,
    numbers: Vec<u16>,
    answers: Vec<u16>,
    state: State,
}

/// Nanoseconds for one request, or one test of the order, on both sides.
struct Figures {
    single: f64,
    batch: f64,
    order: f64,
    model_tested: f64,
    model_untested: f64,
    model_order: f64,
    /// Are the library's answers the model's?
    agree: bool,
}

fn time(trace: &Trace) -> Figures {
    let n = trace.requests.len();
    let image = image::encode(&trace.start);
    let mut buffers = Buffers {
        tables: image.clone(),
        store: trace.store.clone(),
        sheets: (0..n).flat_map(fill).collect(),
        numbers: trace.requests.iter().flat_map(Request::numbers).collect(),
        answers: vec![0; 3 * n],
        state: trace.start.clone(),
    };
    let reset = |b: &mut Buffers| {
        b.tables.copy_from_slice(&image);
        b.store.copy_from_slice(&trace.store);
        b.state.clone_from(&trace.start);
        b.answers.fill(0);
    };
    let wanted: Vec<u16> = trace.answers.iter().flat_map(|a| [a.result, a.ticket, a.recipient]).collect();

    let single = best(n, &mut buffers, reset, |b| {
        for at in 0..n {
            let sheet = &mut b.sheets[SHEET * at..SHEET * (at + 1)];
            let (request, answer) =
                (&b.numbers[REQUEST * at..][..REQUEST], &mut b.answers[ANSWER * at..][..ANSWER]);
            raw::step(&mut b.tables, &mut b.store, sheet, request, answer);
        }
    });
    let mut agree = buffers.answers == wanted;
    let batch = best(n, &mut buffers, reset, |b| {
        for from in (0..n).step_by(BATCH) {
            let to = n.min(from + BATCH);
            let sheets = &mut b.sheets[SHEET * from..SHEET * to];
            let (requests, answers) =
                (&b.numbers[REQUEST * from..REQUEST * to], &mut b.answers[ANSWER * from..ANSWER * to]);
            raw::serve(&mut b.tables, &mut b.store, sheets, requests, answers);
        }
    });
    agree &= buffers.answers == wanted;
    // Both of the model's steps write their answers into the same buffer.
    let model_run = |b: &mut Buffers, step: fn(&mut State, &mut [u8], &mut [u8], &Request) -> Answer| {
        for (at, request) in trace.requests.iter().enumerate() {
            let sheet = &mut b.sheets[SHEET * at..SHEET * (at + 1)];
            let answer = step(&mut b.state, &mut b.store, sheet, request);
            b.answers[3 * at..3 * at + 3].copy_from_slice(&[answer.result, answer.ticket, answer.recipient]);
        }
    };
    let tested = best(n, &mut buffers, reset, |b| model_run(b, State::step));
    let untested = best(n, &mut buffers, reset, |b| model_run(b, State::step_in_order));
    agree &= buffers.answers == wanted;

    reset(&mut buffers);
    let turns = 500;
    let repeat = |b: &mut Buffers, test: fn(&Buffers) -> bool| {
        for _ in 0..turns {
            assert!(test(std::hint::black_box(b)));
        }
    };
    let order = best(turns, &mut buffers, |_| (), |b| repeat(b, |b| raw::in_order(&b.tables) == 0));
    let model_order = best(turns, &mut buffers, |_| (), |b| repeat(b, |b| b.state.in_order()));

    let (model_tested, model_untested) = (tested, untested);
    Figures { single, batch, order, model_tested, model_untested, model_order, agree }
}

fn row(label: &str, library: f64, model: f64) {
    println!("  {label:<44}{library:>10.0}{model:>10.0}{:>8.1}", library / model);
}

/// The figures of one trace, with what it is; false where the answers differ.
fn show(trace: &Trace) -> bool {
    let Trace { fill, left, requests, answers, .. } = trace;
    let (tickets, entries) = (trace.start.tickets().count(), trace.start.entries().count());
    let refused = answers.iter().filter(|answer| answer.result != 0).count();
    println!(
        "{fill}: {tickets} tickets ({left} at the end), {entries} entries, {} requests, {refused} refused",
        requests.len()
    );
    let f = time(trace);
    row("single call; the model tests the order too", f.single, f.model_tested);
    row(&format!("inner step, by batches of {BATCH}; no order test"), f.batch, f.model_untested);
    row("order test", f.order, f.model_order);
    if !f.agree {
        println!("  the answers differ");
    }
    f.agree
}

/// How the cost grows: a row for each of some levels; false where answers differ.
fn growth(length: usize, seed: u64) -> bool {
    println!("tickets entries   single    inner    order   model, single and order");
    let levels = [0, 16, 32, 64, 96, 128, 160, 192, 224, 256];
    let agree = levels.map(|level| {
        let trace = trace("", level, length, seed);
        let (tickets, entries) = (trace.start.tickets().count(), trace.start.entries().count());
        let f = time(&trace);
        println!(
            "{tickets:>7} {entries:>7} {:>8.0} {:>8.0} {:>8.0} {:>14.0} {:>9.0}",
            f.single, f.batch, f.order, f.model_tested, f.model_order
        );
        f.agree
    });
    !agree.contains(&false)
}

/// Shows texts of tables as full as those of the traces, of the deepest loans and of the most grants; false where texts differ.
fn show_texts(show: fn(&str, &State) -> bool, fills: &[(&'static str, usize)], seed: u64) -> bool {
    let mut agree = true;
    for &(fill, level) in fills {
        agree &= show(fill, &trace(fill, level, 0, seed).start);
    }
    agree &= show("127 loans in a row", &reports::deepest());
    agree & show("256 taken grants", &reports::every_place())
}

fn main() -> ExitCode {
    let argument = |at, usual| env::args().nth(at).map_or(Some(usual), |text| text.parse::<u64>().ok());
    let (Some(length), Some(seed)) = (argument(1, 4000), argument(2, 1)) else {
        eprintln!("usage: bench [REQUESTS] [SEED] [FILL]");
        return ExitCode::from(2);
    };
    let only = env::args().nth(3);
    println!("  {:<44}{:>10}{:>10}{:>8}", "nanoseconds for one", "library", "model", "ratio");
    let fills = [("empty", 0), ("light", 45), ("mixed", 150), ("full", 256)];
    let mut agree = fills
        .iter()
        .filter(|(fill, _)| only.as_ref().is_none_or(|name| name == fill))
        .all(|&(fill, level)| show(&trace(fill, level, length as usize, seed)));
    if only.is_none() {
        agree &= growth(length as usize, seed);
    }
    if only.as_ref().is_none_or(|name| name == "takes") {
        agree &= takes::show_both();
    }
    for (texts, show) in [("reports", reports::show as fn(&str, &State) -> bool), ("saved", saved::show)] {
        if only.as_ref().is_none_or(|name| name == texts) {
            agree &= show_texts(show, &fills, seed);
        }
    }
    if !agree {
        return ExitCode::FAILURE;
    }
    ExitCode::SUCCESS
}
