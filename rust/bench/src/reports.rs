//! Times the ward report, with an output that every report fits into, which saves the measuring walk, and with one as long as the report.

use crate::{best, row};
use dock::{raw, REPORT_ROOM, REPORT_SCRATCH};
use model::{Name, Request, State, SEATS, SHEET, STORE};

const TURNS: usize = 500;

/// The figures of some tables, with what they are; false where the reports differ.
pub fn show(what: &str, state: &State) -> bool {
    let (image, mut length) = (image::encode(state), 0);
    let mut buffers = ([0; REPORT_SCRATCH], [0; REPORT_ROOM]);
    raw::report(&image, &mut buffers.0, &mut buffers.1, &mut length);
    let wanted = state.report(REPORT_SCRATCH, REPORT_ROOM).unwrap_or_default();
    let agree = buffers.1[..length] == *wanted.as_bytes();
    let mut library = |room: usize| {
        repeat(&mut buffers, |(scratch, output)| {
            raw::report(&image, scratch, &mut output[..room], &mut 0) == 0
        })
    };
    let (roomy, tight) = (library(REPORT_ROOM), library(length));
    let model = repeat(&mut (), |()| state.report(REPORT_SCRATCH, REPORT_ROOM).is_ok());
    row(&format!("report, {what}: {} lines", wanted.lines().count()), roomy, model);
    row("  into an output as long as it is", tight, model);
    let order = repeat(&mut (), |()| raw::in_order(&image) == 0);
    row("  the order test in it", order, repeat(&mut (), |()| state.in_order()));
    if !agree {
        println!("  the reports differ");
    }
    agree
}

/// Nanoseconds for one call, which must be accepted.
pub fn repeat<T>(on: &mut T, call: impl Fn(&mut T) -> bool) -> f64 {
    best(TURNS, on, |_| (), |on| (0..TURNS).for_each(|_| assert!(call(std::hint::black_box(on)))))
}

/// One sheet, lent on and on over the pads as long as there are places: 127 loans.
pub fn deepest() -> State {
    let holder = |loan: usize| Name::new(loan % 4 * 8 + loan / 4 % 8, 0);
    let mut state = State::empty();
    let mut number = ask(&mut state, Request { count: 1, rights: 7, ..Request::by(holder(0), 1) }).0;
    for loan in 1..SEATS * 4 {
        let (from, to) = (Name { number, ..holder(loan - 1) }, holder(loan));
        let pass =
            Request { topad: to.pad, toprogram: to.program, count: 1, rights: 7, ..Request::by(from, 2) };
        number = ask(&mut state, pass).1;
    }
    state
}

/// A taken grant of one sheet in every place.
pub fn every_place() -> State {
    let mut state = State::empty();
    for place in 0..SEATS * 8 {
        ask(&mut state, Request { count: 1, rights: 7, ..Request::by(Name::new(place / 8, 0), 1) });
    }
    state
}

/// The new numbers of an accepted request.
pub fn ask(state: &mut State, request: Request) -> (u16, u16) {
    let answer = state.step(&mut vec![0; STORE], &mut [0; SHEET], &request);
    assert_eq!(answer.result, 0);
    (answer.ticket, answer.recipient)
}
