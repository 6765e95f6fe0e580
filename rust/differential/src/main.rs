//! Drives the proved library and the model side by side with random requests and compares them after each.
//!
//! usage: differential [REQUESTS] [SEED]

mod damage;
mod damaged_texts;
mod follow;
mod holes;
mod reports;
mod saved;
mod texts;

use dock::{raw, ANSWER, RECALL, REQUEST, TAKE};
use follow::Followed;
use holes::Holes;
use image::random::Rng;
use image::View;
use model::{Answer, Name, Request, State, SEATS, SHEET, STORE};
use reports::Reports;
use requests::{Asker, Seats};
use saved::Saved;
use std::{env, process::ExitCode};

/// What the answer buffer holds before a call, to see that 13 and 14 write nothing.
const UNWRITTEN: [u16; ANSWER] = [0xa5a5; ANSWER];

/// Both sides: the library's tables and store, the model's (no tables where the bytes are none).
struct Sides {
    tables: Vec<u8>,
    store: Vec<u8>,
    state: Option<State>,
    kept: Vec<u8>,
}

#[derive(Default)]
struct Counts {
    requests: usize,
    results: [usize; 15],
    in_order: usize,
    not_in_order: usize,
    /// Those that break one clause alone.
    one_clause: [usize; damage::ONE_CLAUSE.len()],
    followed: Followed,
    holes: Holes,
    batches: usize,
    traces: usize,
    checks: usize,
    reports: Reports,
    saved: Saved,
}

impl Counts {
    /// All that was counted, in words. Nothing of it may be rare.
    fn rows(&self) -> Vec<(String, usize)> {
        let mut rows = vec![("requests compared".to_string(), self.requests)];
        rows.extend(self.results.iter().enumerate().map(|(result, &count)| match result {
            0 => ("  accepted".to_string(), count),
            _ => (format!("  refused {result}"), count),
        }));
        let images = [("images in order", self.in_order), ("images not in order", self.not_in_order)];
        let one_clause = damage::ONE_CLAUSE.iter().map(|(what, _)| *what).zip(self.one_clause);
        let others =
            [("batches", self.batches), ("checks of the dock", self.checks), ("traces", self.traces)];
        let noted = self.followed.rows().into_iter().chain(self.holes.rows());
        let all = noted.chain(images).chain(one_clause).chain(others);
        rows.extend(all.map(|(what, count)| (what.to_string(), count)));
        rows.extend(self.reports.rows());
        rows.extend(self.saved.rows());
        rows
    }
}

/// A request that was served, for the batch that plays it again.
struct Served {
    request: [u16; REQUEST],
    before: [u8; SHEET],
    after: [u8; SHEET],
    answer: [u16; ANSWER],
}

fn differ<T: PartialEq + std::fmt::Debug>(what: &str, library: &[T], wanted: &[T]) -> Result<(), String> {
    if library == wanted {
        return Ok(());
    }
    let at = (0..library.len().max(wanted.len())).find(|&at| library.get(at) != wanted.get(at)).unwrap_or(0);
    Err(format!("{what} at {at}: library {:?}, wanted {:?}", library.get(at), wanted.get(at)))
}

impl Sides {
    fn from_image(tables: Vec<u8>, store: Vec<u8>) -> Self {
        let state = image::to_model(&tables);
        Sides { kept: store.clone(), tables, store, state }
    }

    fn verdict(&self) -> u16 {
        if self.state.as_ref().is_some_and(State::in_order) {
            0
        } else {
            14
        }
    }

    /// Serves a request on both sides and compares all that it can have changed.
    fn step(&mut self, request: &Request, before: [u8; SHEET]) -> Result<Served, String> {
        let (old_tables, request_numbers) = (self.tables.clone(), request.numbers());
        let (mut sheet, mut answer, mut kept_sheet) = (before, UNWRITTEN, before);
        let result = raw::step(&mut self.tables, &mut self.store, &mut sheet, &request_numbers, &mut answer);
        let wanted = match &mut self.state {
            Some(state) => state.step(&mut self.kept, &mut kept_sheet, request),
            None => Answer { result: 14, ..Answer::default() },
        };
        let wanted = [wanted.result, wanted.ticket, wanted.recipient];
        let told = if result == 14 { [14, 0, 0] } else { answer };
        let report = |what| format!("answers: library {result}, {answer:?}, model {wanted:?}\n{what}");
        if result != wanted[0] || told != wanted {
            return Err(report("the answers differ".to_string()));
        }
        if result == 14 {
            differ("answer buffer after 14", &answer, &UNWRITTEN).map_err(report)?;
            differ("tables after 14, byte", &self.tables, &old_tables).map_err(report)?;
        } else if let Some(state) = &self.state {
            let library = image::to_model(&self.tables).ok_or("the library's bytes are no tables")?;
            if let Some(difference) = View::of(&library).difference(&View::of(state)) {
                return Err(report(format!("tables of library and model: {difference}")));
            }
            if !state.in_order() {
                return Err(report("the tables fell out of order".to_string()));
            }
        }
        differ("store, byte", &self.store, &self.kept).map_err(report)?;
        differ("sheet buffer, byte", &sheet, &kept_sheet).map_err(report)?;
        Ok(Served { request: request_numbers, before, after: sheet, answer: told })
    }

    /// Compares the test of the order, and some of the dock's checks.
    fn compare_order(&self, rng: &mut Rng, counts: &mut Counts) -> Result<(), String> {
        let wanted = self.verdict();
        let library = raw::in_order(&self.tables);
        if library != wanted {
            return Err(format!("before the next request, in order: library {library}, model {wanted}"));
        }
        *(if wanted == 0 { &mut counts.in_order } else { &mut counts.not_in_order }) += 1;
        match rng.below(8) {
            0 => differ("in order, another length", &[raw::in_order(&resized(rng, &self.tables))], &[13]),
            1 | 2 => self.compare_checks(rng, counts),
            _ => Ok(()),
        }
    }

    /// Both sides find these tables out of order.
    fn both_refuse(&self, rng: &mut Rng, counts: &mut Counts) -> Result<(), String> {
        self.compare_order(rng, counts)?;
        differ("in order, one clause of T5 or T6 broken", &[self.verdict()], &[14])
    }

    fn compare_checks(&self, rng: &mut Rng, counts: &mut Counts) -> Result<(), String> {
        let entries: Vec<_> = self.state.iter().flat_map(State::entries).map(|(n, e)| (n, *e)).collect();
        for _ in 0..2 {
            let (mut name, sheet) = match rng.pick(&entries) {
                Some((name, entry)) if !rng.once_in(8) => {
                    let around = entry.sheets.first as usize + rng.below(entry.sheets.count as usize + 2);
                    (name, around.wrapping_sub(1) as u16)
                }
                _ => (Name::new(rng.below(SEATS), rng.below(6) as u16), rng.below(256) as u16),
            };
            match rng.below(16) {
                0 => name.pad = rng.edge(),
                1 => name.program = rng.edge(),
                2 => name.number = rng.edge(),
                3 => (name.pad, name.program) = (name.pad.wrapping_add(1), name.program.wrapping_sub(8)),
                _ => {}
            }
            let sheet = if rng.once_in(16) { rng.edge() } else { sheet };
            let right = if rng.once_in(8) { rng.edge() } else { 1 + rng.below(2) as u16 };
            let short = rng.once_in(64);
            let wanted = match &self.state {
                _ if short => 13,
                Some(state) => state.check(name, sheet, right),
                None => 14,
            };
            let tables = if short { resized(rng, &self.tables) } else { self.tables.clone() };
            let library = raw::check(&tables, (name.pad, name.program, name.number), sheet, right);
            if library != wanted {
                let asked = format!("check {name:?} sheet {sheet} right {right}");
                return Err(format!("{asked}: library {library}, model {wanted}"));
            }
            counts.checks += 1;
        }
        Ok(())
    }

    /// A call in which one buffer, or two, have another length: 13, and nothing changes.
    fn wrong_length(&self, rng: &mut Rng, request: &Request) -> Result<(), String> {
        let batch = rng.once_in(2);
        let n = if batch { rng.below(4) } else { 1 };
        let mut bytes = [self.tables.clone(), self.store.clone(), vec![7; SHEET * n]];
        let mut words = [request.numbers().repeat(n), UNWRITTEN.repeat(n)];
        for _ in 0..1 + rng.below(2) {
            match rng.below(5) {
                at if at < 3 => bytes[at] = resized(rng, &bytes[at]),
                at => words[at - 3] = resized(rng, &words[at - 3]),
            }
        }
        let lengths = [bytes[0].len(), bytes[1].len(), bytes[2].len(), words[0].len(), words[1].len()];
        let n = if batch { words[1].len() / 3 } else { 1 };
        if lengths == [self.tables.len(), STORE, SHEET * n, REQUEST * n, ANSWER * n] {
            bytes[0].pop();
        }
        let (old_bytes, old_words) = (bytes.clone(), words.clone());
        let call = if batch { raw::serve } else { raw::step };
        let ([tables, store, sheet], [request, answer]) = (&mut bytes, &mut words);
        let result = call(tables, store, sheet, request, answer);
        differ(&format!("result with lengths {lengths:?}, batch {batch}"), &[result], &[13])?;
        differ("buffer after 13", &bytes, &old_bytes)?;
        differ("numbers after 13", &words, &old_words)
    }

    /// Plays requests again as one batch from the tables and store that they began with.
    fn batch(&self, start: (&[u8], &[u8]), begun: u16, served: &[Served]) -> Result<(), String> {
        let (mut tables, mut store) = (start.0.to_vec(), start.1.to_vec());
        let requests: Vec<u16> = served.iter().flat_map(|one| one.request).collect();
        let mut sheets: Vec<u8> = served.iter().flat_map(|one| one.before).collect();
        let mut answers: Vec<u16> = served.iter().flat_map(|_| UNWRITTEN).collect();
        let (old_sheets, old_answers) = (sheets.clone(), answers.clone());
        let result = raw::serve(&mut tables, &mut store, &mut sheets, &requests, &mut answers);
        differ("batch: result", &[result], &[begun])?;
        if begun == 0 {
            let wanted: Vec<u16> = served.iter().flat_map(|one| one.answer).collect();
            differ("batch: answers", &answers, &wanted)?;
            let wanted: Vec<u8> = served.iter().flat_map(|one| one.after).collect();
            differ("batch: sheets", &sheets, &wanted)?;
        } else {
            differ("batch: answers after 14", &answers, &old_answers)?;
            differ("batch: sheets after 14", &sheets, &old_sheets)?;
        }
        differ("batch: tables, byte", &tables, &self.tables)?;
        differ("batch: store, byte", &store, &self.store)
    }
}

/// The same, longer or shorter.
fn resized<T: Copy + Default>(rng: &mut Rng, buffer: &[T]) -> Vec<T> {
    let length = buffer.len();
    let other = match rng.below(6) {
        0 => 0,
        1 => length / 2,
        2 => 2 * length + 1,
        3 | 4 => length + 1,
        _ => length.checked_sub(1).unwrap_or(1),
    };
    let mut buffer = buffer.to_vec();
    buffer.resize(if other == length { length + 1 } else { other }, T::default());
    buffer
}

/// So many bytes, any.
fn bytes(rng: &mut Rng, length: usize) -> Vec<u8> {
    let mut bytes: Vec<u8> = (0..length.div_ceil(SHEET)).flat_map(|_| rng.sheet()).collect();
    bytes.truncate(length);
    bytes
}

/// Emptying, from whatever the buffers held, now and then with a wrong length.
fn emptied(rng: &mut Rng, sides: &Sides) -> Result<Sides, String> {
    let empty = View::of(&State::empty());
    let (mut tables, mut store) = (sides.tables.clone(), sides.store.clone());
    if rng.once_in(3) {
        let mut short = resized(rng, &tables);
        let old = short.clone();
        differ("empty: result with other tables", &[raw::empty(&mut short, &mut store)], &[13])?;
        differ("empty: other tables, byte", &short, &old)?;
        differ("empty: store beside other tables, byte", &store, &sides.store)?;
        let mut other = resized(rng, &store);
        let old = other.clone();
        differ("empty: result with another store", &[raw::empty(&mut tables, &mut other)], &[13])?;
        differ("empty: another store, byte", &other, &old)?;
        let got = image::to_model(&tables).map(|state| View::of(&state));
        if got.is_none_or(|view| view != empty) {
            return Err("empty: with another store the tables are not empty".into());
        }
        tables.clone_from(&sides.tables);
    }
    differ("empty: result", &[raw::empty(&mut tables, &mut store)], &[0])?;
    differ("empty: store, byte", &store, &[0; STORE])?;
    let sides = Sides::from_image(tables, store);
    match sides.state.as_ref().map(View::of) {
        Some(view) if view == empty => Ok(sides),
        _ => Err("empty: the tables are not empty".into()),
    }
}

struct Driver {
    rng: Rng,
    counts: Counts,
    /// The latest request, for the report.
    latest: Request,
    /// Tables and stores that rounds ended with.
    reached: Vec<(Vec<u8>, Vec<u8>)>,
}

impl Driver {
    fn run(&mut self, requests: usize) -> Result<(), String> {
        let mut sides = Sides::from_image(vec![0; image::LENGTH], vec![0; STORE]);
        while self.counts.requests < requests {
            let fresh = self.rng.below(10) < 3 || self.reached.is_empty();
            sides = if fresh { emptied(&mut self.rng, &sides)? } else { self.changed()? };
            sides.compare_order(&mut self.rng, &mut self.counts)?;
            let length = if fresh { 60 + self.rng.below(250) } else { 12 + self.rng.below(40) };
            let mut asker = Asker::new(&mut self.rng, Seats::all());
            let stop = requests.min(self.counts.requests + length);
            while self.counts.requests < stop {
                if self.rng.once_in(30) {
                    self.batch(&mut sides, &mut asker)?;
                } else if self.rng.once_in(100) {
                    self.trace(&sides)?;
                } else if self.rng.once_in(50) {
                    self.counts.reports.compare(&mut self.rng, &sides)?;
                } else if self.rng.once_in(100) {
                    self.counts.saved.compare(&mut self.rng, &sides)?;
                } else if self.rng.once_in(100) {
                    sides = self.counts.saved.swapped(&mut self.rng, &sides)?.unwrap_or(sides);
                } else {
                    self.one(&mut sides, &mut asker)?;
                }
            }
            if sides.verdict() == 0 {
                if self.reached.len() == 40 {
                    self.reached.swap_remove(self.rng.below(40));
                }
                self.reached.push((sides.tables.clone(), sides.store.clone()));
            }
        }
        Ok(())
    }

    /// Tables that a round ended with, changed as a host could. Of many such images only the order is
    /// compared; the last one is played with.
    fn changed(&mut self) -> Result<Sides, String> {
        let (tables, store) = &self.reached[self.rng.below(self.reached.len())];
        // Sheets outside all entries may hold anything, too.
        let store: Vec<u8> = match self.rng.below(3) {
            0 => (0..STORE / SHEET).flat_map(|_| self.rng.sheet()).collect(),
            _ => store.clone(),
        };
        for _ in 0..30 {
            let harm = [0, 1, 1, 1, 2, 3][self.rng.below(6)];
            let image = damage::damage(tables, self.rng.below(4), harm, &mut self.rng);
            let sides = Sides::from_image(image, store.clone());
            sides.compare_order(&mut self.rng, &mut self.counts)?;
            if self.rng.once_in(15) {
                self.counts.reports.compare(&mut self.rng, &sides)?;
            }
            if self.rng.once_in(60) {
                self.counts.saved.compare(&mut self.rng, &sides)?;
            }
        }
        for (at, (_, broken)) in damage::ONE_CLAUSE.iter().enumerate() {
            if let Some(image) = broken(tables, &mut self.rng) {
                Sides::from_image(image, store.clone()).both_refuse(&mut self.rng, &mut self.counts)?;
                self.counts.one_clause[at] += 1;
            }
        }
        let image = match self.rng.below(8) {
            0 => damage::rearrange(tables, &mut self.rng),
            1 | 2 => damage::spend_numbers(tables, &mut self.rng),
            3..6 => damage::damage(tables, 8, 0, &mut self.rng),
            _ => damage::damage(tables, 2, 1, &mut self.rng),
        };
        Ok(Sides::from_image(image, store))
    }

    fn one(&mut self, sides: &mut Sides, asker: &mut Asker) -> Result<Served, String> {
        let nothing = State::empty();
        let request = asker.next(&mut self.rng, sides.state.as_ref().unwrap_or(&nothing));
        self.latest = request;
        if self.rng.once_in(40) {
            sides.wrong_length(&mut self.rng, &request)?;
            self.counts.requests += 1;
            self.counts.results[13] += 1;
        }
        self.counts.requests += 1;
        let before = if matches!(request.op, RECALL | TAKE) { sides.state.clone() } else { None };
        let served = sides.step(&request, self.rng.sheet())?;
        let [result, ticket, recipient] = served.answer;
        self.counts.results[result as usize] += 1;
        if let (0, Some(before), Some(after)) = (result, &before, &sides.state) {
            match request.op {
                TAKE => self.counts.holes.note(&request, before),
                _ => self.counts.followed.note(&request, before, after),
            }
        }
        asker.heard(&mut self.rng, &request, &Answer { result, ticket, recipient });
        if self.rng.once_in(8) {
            sides.compare_checks(&mut self.rng, &mut self.counts)?;
        }
        Ok(served)
    }

    fn batch(&mut self, sides: &mut Sides, asker: &mut Asker) -> Result<(), String> {
        let (tables, store, begun) = (sides.tables.clone(), sides.store.clone(), sides.verdict());
        let mut served = Vec::new();
        for _ in 0..self.rng.below(41) {
            served.push(self.one(sides, asker)?);
        }
        self.counts.batches += 1;
        sides.batch((&tables, &store), begun, &served)
    }

    fn trace(&mut self, sides: &Sides) -> Result<(), String> {
        let mut asker = Asker::new(&mut self.rng, Seats::all());
        let text = texts::random(&mut self.rng, sides, &mut asker);
        self.counts.traces += 1;
        texts::compare(&mut self.rng, sides, &text)
    }
}

fn main() -> ExitCode {
    let argument = |at, usual| env::args().nth(at).map_or(Some(usual), |text| text.parse::<u64>().ok());
    let (Some(requests), Some(seed)) = (argument(1, 100_000), argument(2, 1)) else {
        eprintln!("usage: differential [REQUESTS] [SEED]");
        return ExitCode::from(2);
    };
    let (rng, reached) = (Rng::new(seed), Vec::new());
    let mut driver = Driver { rng, counts: Counts::default(), latest: Request::default(), reached };
    if let Err(difference) = driver.run(requests as usize) {
        println!("difference with seed {seed}, at request {}", driver.counts.requests);
        println!("request {:?}", driver.latest.numbers());
        println!("{difference}");
        return ExitCode::FAILURE;
    }
    let counts = &driver.counts;
    let rows = counts.rows();
    for (what, count) in &rows {
        println!("{what:<24}{count:>9}");
    }
    let idle: Vec<&str> =
        rows.iter().filter(|row| 1000 * row.1 < counts.requests).map(|row| row.0.trim()).collect();
    if !idle.is_empty() {
        println!("hardly reached: {}", idle.join(", "));
        return ExitCode::FAILURE;
    }
    let images = counts.in_order + counts.not_in_order;
    let (requests, batches, traces) = (counts.requests, counts.batches, counts.traces);
    let (reports, texts) = (counts.reports.compared(), counts.saved.compared());
    println!(
        "differential: {requests} requests, {images} images, {batches} batches, {traces} traces, {reports} reports, {texts} saved texts, no difference"
    );
    ExitCode::SUCCESS
}
