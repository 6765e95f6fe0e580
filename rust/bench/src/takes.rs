//! Times a take by itself, from a store that is all free and from one with holes. Each call has a dock of its own, since the take before
//! would leave it other holes; all docks are put back before the clock starts.

use crate::reports::{ask, every_place};
use crate::{best, row};
use dock::{raw, ANSWER};
use image::View;
use model::{Name, Request, State, SEATS, SHEET, STORE};

/// So few that they stay in the cache.
const DOCKS: usize = 16;

/// A take that finds three sheets in every store here.
fn take() -> Request {
    Request { count: 3, rights: 7, ..Request::by(Name::new(SEATS - 1, 0), 1) }
}

/// The docks of both sides.
struct Docks {
    tables: Vec<Vec<u8>>,
    states: Vec<State>,
    store: Vec<u8>,
    sheet: [u8; SHEET],
}

/// The figures of an emptied dock and of one with holes; false where a take leaves different tables.
pub fn show_both() -> bool {
    show("emptied dock", &State::empty()) & show("fragmented dock", &fragmented())
}

fn show(what: &str, state: &State) -> bool {
    let (image, take) = (image::encode(state), take());
    let mut docks = Docks {
        tables: vec![image.clone(); DOCKS],
        states: vec![state.clone(); DOCKS],
        store: vec![0; STORE],
        sheet: [0; SHEET],
    };
    let put_back = |docks: &mut Docks| {
        docks.tables.iter_mut().for_each(|tables| tables.copy_from_slice(&image));
        docks.states.iter_mut().for_each(|kept| kept.clone_from(state));
    };
    let library = best(DOCKS, &mut docks, put_back, |Docks { tables, store, sheet, .. }| {
        for tables in tables {
            assert_eq!(raw::step(tables, store, sheet, &take.numbers(), &mut [0; ANSWER]), 0);
        }
    });
    let model = best(DOCKS, &mut docks, put_back, |Docks { states, store, sheet, .. }| {
        for state in states {
            assert_eq!(state.step(store, sheet, &take).result, 0);
        }
    });
    row(&format!("take, {what}"), library, model);
    put_back(&mut docks);
    let library = best(
        DOCKS,
        &mut docks,
        |_| (),
        |docks| {
            assert!(docks.tables.iter().all(|tables| raw::in_order(tables) == 0));
        },
    );
    let model = best(DOCKS, &mut docks, |_| (), |docks| assert!(docks.states.iter().all(State::in_order)));
    row("  the order test in it", library, model);
    agree(&mut docks, &take)
}

/// Do both sides take the same sheets?
fn agree(docks: &mut Docks, take: &Request) -> bool {
    let Docks { tables, states, store, sheet } = docks;
    raw::step(&mut tables[0], store, sheet, &take.numbers(), &mut [0; ANSWER]);
    states[0].step(store, sheet, take);
    let agree = image::to_model(&tables[0]).is_some_and(|state| View::of(&state) == View::of(&states[0]));
    if !agree {
        println!("  the tables differ");
    }
    agree
}

/// A third of the sheets taken, one by one, with holes of one, two and three sheets between them in turn.
fn fragmented() -> State {
    let mut state = every_place();
    for sheet in (0..SEATS * 8).filter(|sheet| ![1, 4, 8].contains(&(sheet % 9))) {
        ask(&mut state, Request::by(Name::new(sheet / 8, sheet as u16 % 8 + 1), 4));
    }
    state
}
