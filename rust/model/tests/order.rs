//! The two clauses that document 02's first request adds to T6, and its fourth's word that zeros mean the store, each
//! broken by itself.

use model::{Entry, Grant, Name, Sheets, Source, State, Ticket};

const CAPTURE: usize = 0;
const VIEWER: usize = 1;
const NURSE: usize = 8;

/// Capture's ticket 1 was taken, the viewer's is its child, the nurse's was lent by the viewer. The recalls are
/// ticket 2 of these programs, each under ticket 1.
fn tables(recalls: &[(usize, Name)]) -> State {
    let sheets = Sheets { first: 0, count: 1 };
    let (taken, received) = (Name::new(CAPTURE, 1), Name::new(NURSE, 1));
    let grant = |source, dock| Ticket::Grant(Grant { source, sheets, rights: 7, dock });
    let mut state = State::empty();
    for seat in [CAPTURE, VIEWER, NURSE] {
        state.set_last(seat, 2);
    }
    state.put_ticket(CAPTURE, 1, grant(Source::Taken, taken));
    state.put_ticket(VIEWER, 1, grant(Source::Child { parent: taken }, taken));
    state.put_ticket(NURSE, 1, grant(Source::Received, received));
    state.put_entry(taken, Entry { parent: None, sheets, rights: 7 });
    state.put_entry(received, Entry { parent: Some(taken), sheets, rights: 7 });
    for &(seat, target) in recalls {
        state.put_ticket(seat, 2, Ticket::Recall { own: 1, target });
    }
    state
}

#[test]
fn no_recall_names_a_child_of_another_pad() {
    let (child, received) = (Name::new(VIEWER, 1), Name::new(NURSE, 1));
    assert!(tables(&[(CAPTURE, child), (VIEWER, received)]).in_order());
    assert!(!tables(&[(NURSE, child), (VIEWER, received)]).in_order());
}

#[test]
fn an_entry_below_another_has_its_recall() {
    let child = Name::new(VIEWER, 1);
    assert!(!tables(&[(CAPTURE, child)]).in_order());
}

#[test]
fn only_zeros_are_the_store() {
    let sheets = Sheets { first: 0, count: 1 };
    let taken = Name::new(CAPTURE, 1);
    let under = |parent| {
        let mut state = State::empty();
        state.set_last(CAPTURE, 1);
        let grant = Grant { source: Source::Taken, sheets, rights: 7, dock: taken };
        state.put_ticket(CAPTURE, 1, Ticket::Grant(grant));
        state.put_entry(taken, Entry { parent, sheets, rights: 7 });
        state
    };
    assert!(under(None).in_order());
    for seat in [VIEWER, NURSE, 31] {
        assert!(!under(Some(Name::new(seat, 0))).in_order());
    }
}
