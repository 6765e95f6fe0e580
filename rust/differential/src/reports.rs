//! Ward reports: the library's `dock_report` against the model's, from the same tables, and what must hold of every report.

use crate::{bytes, differ, resized, Sides};
use dock::{raw, READ, REPORT_ROOM, REPORT_SCRATCH, WRITE};
use image::random::Rng;
use model::{Name, Refusal, Request, State, Ticket, SHEET, SHEETS};
use std::collections::BTreeMap;

/// A report is deep where this many loans lie in a row.
const DEEP: usize = 6;

/// Scratches: none, the right length between its neighbours, and the length that was right up to version 4.
const SCRATCHES: [usize; 5] = [0, REPORT_SCRATCH - 1, REPORT_SCRATCH, REPORT_SCRATCH + 1, 256];

/// How many reports ..
#[derive(Default)]
pub struct Reports {
    /// .. had each result,
    results: BTreeMap<u16, usize>,
    /// .. had a deep line,
    deep: usize,
    /// .. left out a grant that a pad still has,
    left_out: usize,
    /// .. were held against reads and writes of all tickets.
    held: usize,
}

impl Reports {
    /// Both sides report these tables, with scratches and outputs of several lengths; the dock itself stays as it is.
    pub fn compare(&mut self, rng: &mut Rng, sides: &Sides) -> Result<(), String> {
        let wanted = |(scratch, output)| match &sides.state {
            Some(state) => state.report(scratch, output),
            None => Err(Refusal::NotInOrder),
        };
        let whole = wanted((REPORT_SCRATCH, REPORT_ROOM));
        let length = whole.as_ref().map_or(100, String::len);
        let outputs = [0, length - 1, length, length + 1, REPORT_ROOM];
        let any = (vec![255; SCRATCHES[rng.below(5)]], outputs[rng.below(5)]);
        let tables = resized(rng, &sides.tables);
        self.call(rng, &tables, any, Err(Refusal::Length))?;
        for scratch in SCRATCHES {
            let output = outputs[rng.below(5)];
            self.call(rng, &sides.tables, (vec![255; scratch], output), wanted((scratch, output)))?;
        }
        for output in outputs {
            let scratch = bytes(rng, REPORT_SCRATCH);
            self.call(rng, &sides.tables, (scratch, output), wanted((REPORT_SCRATCH, output)))?;
        }
        match (&sides.state, whole) {
            (Some(state), Ok(whole)) => self.check(rng, state, &whole),
            _ => Ok(()),
        }
    }

    /// One call, with this scratch and any bytes in an output of this length. Afterwards the scratch is zeros, and the output what it was
    /// behind the report.
    fn call(
        &mut self,
        rng: &mut Rng,
        tables: &[u8],
        (mut scratch, output): (Vec<u8>, usize),
        wanted: Result<String, Refusal>,
    ) -> Result<(), String> {
        let (number, text) = wanted.map_or_else(|refusal| (refusal as u16, String::new()), |text| (0, text));
        let (mut output, mut length) = (bytes(rng, output), usize::MAX);
        let mut left = output.clone();
        left[..text.len()].copy_from_slice(text.as_bytes());
        let result = raw::report(tables, &mut scratch, &mut output, &mut length);
        differ("report: result", &[result], &[number])?;
        differ("report: length", &[length], &[text.len()])?;
        differ("report: scratch, byte", &scratch, &vec![0; scratch.len()])?;
        differ("report: output, byte", &output, &left)?;
        *self.results.entry(result).or_default() += 1;
        Ok(())
    }

    /// What must hold of every report.
    fn check(&mut self, rng: &mut Rng, state: &State, text: &str) -> Result<(), String> {
        let lines = numbers(text);
        let [rows @ .., totals] = lines.as_slice() else { return Err("report: no last line".into()) };
        differ("report: sheets", &[totals.iter().sum::<usize>()], &[SHEETS])?;
        let mut rights = BTreeMap::new();
        for row in rows {
            let name = Name { pad: row[1] as u16, program: row[2] as u16, number: row[3] as u16 };
            if rights.insert(name, row[6]).is_some() {
                return Err(format!("report: {name:?} twice"));
            }
        }
        let grants = state.tickets().filter(|(_, ticket)| matches!(ticket, Ticket::Grant(_))).count();
        self.left_out += usize::from(rows.len() < grants);
        self.deep += usize::from(rows.iter().any(|row| row[0] >= DEEP));
        if rng.once_in(4) {
            self.held += 1;
            held(state, &rights)?;
        }
        Ok(())
    }

    /// What was counted, in words.
    pub fn rows(&self) -> Vec<(String, usize)> {
        let count = |result| self.results.get(&result).copied().unwrap_or(0);
        let mut rows =
            vec![("reports compared".to_string(), self.compared()), ("  written".to_string(), count(0))];
        rows.extend([13, 14, 16, 17].map(|result| (format!("  refused {result}"), count(result))));
        let others =
            [("  deep", self.deep), ("  a grant left out", self.left_out), ("  against requests", self.held)];
        rows.extend(others.map(|(what, count)| (what.to_string(), count)));
        rows
    }

    pub fn compared(&self) -> usize {
        self.results.values().sum()
    }
}

/// A read or a write of any ticket's first sheet is accepted exactly where the ticket has a line with that right.
fn held(state: &State, rights: &BTreeMap<Name, usize>) -> Result<(), String> {
    let (mut asked, mut store) = (state.clone(), vec![0; model::STORE]);
    for (name, _) in state.tickets() {
        let shown = rights.get(&name).copied().unwrap_or(0);
        for (op, right) in [(READ, model::READ), (WRITE, model::WRITE)] {
            let answer = asked.step_in_order(&mut store, &mut [0; SHEET], &Request::by(name, op));
            if (answer.result == 0) != (shown & usize::from(right) != 0) {
                return Err(format!("report: rights {shown} of {name:?}, but op {op} has {}", answer.result));
            }
            // 12 drops tickets, and the next one is asked of the same tables.
            if answer.result == 12 {
                asked.clone_from(state);
            }
        }
    }
    Ok(())
}

/// The numbers of each line below the names.
fn numbers(text: &str) -> Vec<Vec<usize>> {
    let lines = text.lines().skip(1);
    lines.map(|line| line.split(' ').map(|word| word.parse().expect("a number")).collect()).collect()
}
