//! The tables as text, as document 02's fourth request has them, by hand: the model is compared with nothing else here.

mod texts;

use model::{saved::load, trace::trace, Name, Refusal, State, Ticket, STORE};
use texts::{edges, longest_chain, ward_text, LOADS, NAMES};

/// Bytes that every text fits into.
const ROOM: usize = 18_309;

/// The tables that these requests leave.
fn after(requests: &str) -> State {
    let names = "pad program op ticket topad toprogram first count rights fill\n";
    let mut state = State::empty();
    trace(&mut state, &mut vec![0; STORE], (names.to_string() + requests).as_bytes());
    state
}

/// Four sheets are taken; two go to a program of the pad, and one of these on to another pad.
const LOANS: &str = "\
0 0 1 0 0 0 0 4 7 0
0 0 2 1 0 1 0 2 5 0
0 1 2 1 1 0 0 1 1 0
";

#[test]
fn every_edge() {
    for edge in edges() {
        let loaded = load(edge.text.as_bytes());
        let result = loaded.as_ref().map_or_else(|refusal| *refusal as u16, |_| LOADS);
        assert_eq!(result, edge.result, "{}", edge.what);
        if let Ok(state) = loaded {
            assert_eq!(state.save(ROOM), Ok(edge.text), "{}", edge.what);
        }
    }
}

#[test]
fn saved_by_hand() {
    let state = after(LOANS);
    let text = ward_text();
    assert_eq!(state.save(text.len()), Ok(text.clone()));
    assert_eq!(state.save(text.len() - 1), Err(Refusal::TooShort));
    let lines = "\
1 0 0 1 0 0 0 0 0 4 7
2 1 0 1 0 0 0 0 0 1 1
3 0 1 1 0 0 0 1 0 2 5
4 0 0 2 1 0 1 1 0 0 0
4 0 1 2 1 1 0 1 0 0 0
5 0 0 1 0 0 0 0 0 4 7
5 1 0 1 0 0 0 1 0 1 1
";
    assert!(text.starts_with(NAMES) && text.ends_with(lines));
}

#[test]
fn an_emptied_dock() {
    let text = State::empty().save(ROOM).expect("tables in order");
    assert_eq!(text.lines().count(), 33);
    assert!(
        text.lines().nth(1) == Some("0 0 0 0 0 0 0 0 0 0 0") && text.ends_with("\n0 3 7 0 0 0 0 0 0 0 0\n")
    );
}

#[test]
fn tables_out_of_order_come_before_a_short_output() {
    let mut state = after(LOANS);
    state.set_last(0, 1);
    assert_eq!(state.save(0), Err(Refusal::NotInOrder));
    assert_eq!(after(LOANS).save(0), Err(Refusal::TooShort));
}

#[test]
fn a_childs_dock_name_is_its_heads() {
    let state = load(longest_chain().as_bytes()).expect("a text that loads");
    let dock_names = state.tickets().filter_map(|(_, ticket)| match ticket {
        Ticket::Grant(grant) => Some(grant.dock),
        Ticket::Recall { .. } => None,
    });
    assert!(dock_names.eq([Name::new(0, 1); 32]));
}
