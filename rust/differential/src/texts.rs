//! Traces over a lent dock: the library's `dock_trace` against the model's trace, from the same tables and store.

use crate::{differ, resized, Sides};
use dock::{raw, TRACE_ROOM};
use image::{random::Rng, View};
use model::{
    trace::{trace, NAMES_IN},
    Request, State, SHEET,
};
use requests::Asker;

/// What an output holds before a call, to see which bytes are written.
const UNWRITTEN: u8 = 0xa5;

/// A text of some requests that suit these tables, now and then with lines of another form, and once in a while with wrong names.
pub fn random(rng: &mut Rng, sides: &Sides, asker: &mut Asker) -> Vec<u8> {
    let (mut state, mut store) = (sides.state.clone().unwrap_or_else(State::empty), sides.store.clone());
    let mut text = if rng.once_in(20) { "pad\n".to_string() } else { format!("{NAMES_IN}\n") };
    for _ in 0..rng.below(41) {
        let request = asker.next(rng, &state);
        let fill = if request.op == 6 { rng.below(256) } else { 0 };
        text += &line(rng, &request, fill);
        let answer = state.step(&mut store, &mut [fill as u8; SHEET], &request);
        asker.heard(rng, &request, &answer);
    }
    if rng.once_in(4) {
        text.pop();
    }
    text.into_bytes()
}

fn line(rng: &mut Rng, request: &Request, fill: usize) -> String {
    let numbers = request.numbers().map(|number| number.to_string()).join(" ");
    match rng.below(40) {
        0 => format!("{numbers} {}\n", fill + 256),
        1 => format!("{numbers} 0{fill}\n"),
        2 => format!("{numbers}  {fill}\n"),
        3 => format!("{numbers}\n"),
        4 => "\n".to_string(),
        5 => format!("{numbers} {fill} \n"),
        6 => format!("{numbers} 65536\n"),
        _ => format!("{numbers} {fill}\n"),
    }
}

/// Both sides answer the text, the library into outputs of several lengths; the dock itself stays as it is.
pub fn compare(rng: &mut Rng, sides: &Sides, text: &[u8]) -> Result<(), String> {
    let short_tables = Call::of(&resized(rng, &sides.tables), &sides.store, text, TRACE_ROOM);
    short_tables.changed_nothing(13)?;
    Call::of(&sides.tables, &resized(rng, &sides.store), text, TRACE_ROOM).changed_nothing(13)?;
    let begun = sides.verdict();
    let Some(mut state) = sides.state.clone().filter(|_| begun == 0) else {
        return Call::of(&sides.tables, &sides.store, text, rng.below(100)).changed_nothing(begun);
    };
    let mut store = sides.store.clone();
    let wanted = trace(&mut state, &mut store, text).into_bytes();
    for length in [0, rng.below(wanted.len()), wanted.len() - 1] {
        Call::of(&sides.tables, &sides.store, text, length).changed_nothing(17)?;
    }
    for length in [wanted.len(), wanted.len() + rng.below(100), TRACE_ROOM] {
        Call::of(&sides.tables, &sides.store, text, length).served(&wanted, &state, &store)?;
    }
    Ok(())
}

/// A call, with what its buffers held before.
struct Call {
    before: [Vec<u8>; 3],
    after: [Vec<u8>; 3],
    result: u16,
    length: usize,
}

impl Call {
    fn of(tables: &[u8], store: &[u8], text: &[u8], output: usize) -> Self {
        let before = [tables.to_vec(), store.to_vec(), vec![UNWRITTEN; output]];
        let (mut after, mut length) = (before.clone(), usize::MAX);
        let [tables, store, output] = &mut after;
        let result = raw::trace(tables, store, text, output, &mut length);
        Call { before, after, result, length }
    }

    fn changed_nothing(&self, refusal: u16) -> Result<(), String> {
        differ("trace: result", &[self.result], &[refusal])?;
        differ("trace: length after a refusal", &[self.length], &[0])?;
        differ("trace: buffers after a refusal", &self.after, &self.before)
    }

    fn served(&self, wanted: &[u8], state: &State, kept: &[u8]) -> Result<(), String> {
        let [tables, store, output] = &self.after;
        differ("trace: result", &[self.result], &[0])?;
        differ("trace: length", &[self.length], &[wanted.len()])?;
        differ("trace: output, byte", &output[..wanted.len()], wanted)?;
        differ("trace: output behind it, byte", &output[wanted.len()..], &self.before[2][wanted.len()..])?;
        differ("trace: store, byte", store, kept)?;
        let library = image::to_model(tables).ok_or("trace: the library's bytes are no tables")?;
        match View::of(&library).difference(&View::of(state)) {
            Some(difference) => Err(format!("trace: tables of library and model: {difference}")),
            None => Ok(()),
        }
    }
}
