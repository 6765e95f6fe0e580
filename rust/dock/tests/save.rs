//! Document 02's fourth request, through the library: the tables saved as text and loaded.

#[path = "../../model/tests/texts/mod.rs"]
mod texts;

use dock::{layout, raw, rights, Answer, Dock, Refusal, Request, SAVED_ROOM, SHEET, TABLES};
use texts::{edges, every_place, longest_chain, ward_text, LOADS, NAMES};

const LENGTH: u16 = Refusal::Length as u16;
const NOT_IN_ORDER: u16 = Refusal::NotInOrder as u16;
const TOO_SHORT: u16 = Refusal::TooShort as u16;
const BAD_TEXT: u16 = Refusal::BadText as u16;

fn ask(dock: &mut Dock, request: Request) -> Answer {
    dock.ask(&request, &mut [65; SHEET])
}

/// A call with an output full of 7. Whatever the answer, the output is unchanged behind the length.
fn save(tables: &[u8], output: usize) -> (u16, String) {
    let (mut output, mut length) = (vec![7; output], usize::MAX);
    let result = raw::save(tables, &mut output, &mut length);
    assert!(output[length..].iter().all(|&byte| byte == 7), "the output after {result}");
    output.truncate(length);
    (result, String::from_utf8(output).expect("a saved text is text"))
}

fn saved(tables: &[u8]) -> String {
    let (result, text) = save(tables, SAVED_ROOM);
    assert_eq!(result, 0);
    text
}

/// A call with tables full of 255. A text that loads is what saving writes; any other leaves empty tables.
fn load(text: &[u8]) -> (u16, Vec<u8>) {
    let mut tables = vec![255; TABLES];
    let result = raw::load(&mut tables, text);
    if result == LOADS {
        assert_eq!(raw::in_order(&tables), 0);
        assert_eq!(saved(&tables).as_bytes(), text);
    } else {
        assert!(tables.iter().all(|&byte| byte == 0), "the tables after {result}");
    }
    (result, tables)
}

/// The dock of the ward's text: capture's four sheets, two with the viewer, one of these with the nurse.
fn ward() -> Dock {
    let mut dock = Dock::new();
    ask(&mut dock, Request::take(0, 0, 4, rights::ALL));
    ask(&mut dock, Request::write(0, 0, 1, 0));
    ask(&mut dock, Request::pass(0, 0, 1, (0, 1), (0, 2), rights::READ | rights::PASS_ON));
    let lent = ask(&mut dock, Request::pass(0, 1, 1, (1, 0), (0, 1), rights::READ));
    assert_eq!(lent, Answer { result: 0, ticket: 2, recipient: 1 });
    dock
}

#[test]
fn every_edge() {
    for edge in edges() {
        assert_eq!(load(edge.text.as_bytes()).0, edge.result, "{}", edge.what);
    }
}

#[test]
fn the_ward() {
    let dock = ward();
    let mut output = [0; SAVED_ROOM];
    let length = dock.save(&mut output).expect("tables in order");
    assert_eq!(&output[..length], ward_text().as_bytes());
}

#[test]
fn an_emptied_dock_is_its_zeros() {
    let text = saved(&Dock::new().tables[..]);
    assert_eq!(text.lines().count(), 33);
    assert!(text.starts_with(NAMES) && text.ends_with("\n0 3 7 0 0 0 0 0 0 0 0\n"));
    assert_eq!(load(text.as_bytes()), (0, vec![0; TABLES]));
}

#[test]
fn an_output_as_long_as_the_text_and_shorter() {
    for text in [ward_text(), longest_chain(), every_place()] {
        let (_, tables) = load(text.as_bytes());
        let before = tables.clone();
        for length in [0, 1, NAMES.len(), text.len() - 1] {
            assert_eq!(save(&tables, length), (TOO_SHORT, String::new()));
        }
        for length in [text.len(), text.len() + 1, SAVED_ROOM - 1, SAVED_ROOM, SAVED_ROOM + 1] {
            assert_eq!(save(&tables, length), (0, text.clone()));
        }
        assert!(tables == before);
    }
}

#[test]
fn tables_of_another_length_or_out_of_order_come_first() {
    let mut dock = ward();
    // No ticket has the kind 5.
    dock.tables[layout::TICKET_KIND_AT] = 5;
    for output in [0, SAVED_ROOM] {
        assert_eq!(save(&dock.tables[..], output), (NOT_IN_ORDER, String::new()));
        for length in [0, TABLES - 1, TABLES + 1] {
            assert_eq!(save(&vec![5; length], output), (LENGTH, String::new()));
        }
    }
}

#[test]
fn loading_into_another_length() {
    for length in [0, 1, TABLES - 1, TABLES + 1, 2 * TABLES] {
        for text in [ward_text().as_bytes(), b"", b"kind"] {
            let mut tables = vec![255; length];
            assert_eq!(raw::load(&mut tables, text), LENGTH);
            assert!(tables.iter().all(|&byte| byte == 255));
        }
    }
}

/// The store is the host's to carry over: with it every ticket is as it was.
#[test]
fn a_dock_that_was_swapped_goes_on() {
    let (mut old, mut new) = (ward(), Dock::new());
    // Places are used again: what stands first in the text need not stand first in the old tables.
    ask(&mut old, Request::take(0, 0, 1, rights::ALL));
    ask(&mut old, Request::recall(0, 0, 2));
    ask(&mut old, Request::pass(0, 0, 1, (1, 0), (0, 1), rights::READ));
    let text = saved(&old.tables[..]);
    new.store.clone_from(&old.store);
    assert_eq!(new.load(text.as_bytes()), Ok(()));
    assert!(new.store == old.store && new.in_order().is_ok());
    let (mut one, mut two) = ([0; SHEET], [1; SHEET]);
    for request in [
        Request::read(1, 0, 2, 0),
        Request::read(1, 0, 1, 0),
        Request::take(0, 0, 1, rights::ALL),
        Request::pass(0, 0, 3, (2, 7), (0, 1), rights::ALL),
        Request::write(2, 7, 1, 0),
        Request::recall(0, 0, 4),
        Request::read(1, 0, 2, 0),
        Request::give_back(0, 0, 1),
    ] {
        assert_eq!(old.ask(&request, &mut one), new.ask(&request, &mut two), "{request:?}");
        assert!(old.store == new.store && (request.op != dock::READ || one == two));
    }
    assert_eq!(saved(&old.tables[..]), saved(&new.tables[..]));
}

#[test]
fn a_refused_load_empties_the_tables_alone() {
    let text = ward_text();
    let not_in_order = text.replace("\n0 0 0 2 ", "\n0 0 0 1 ");
    let bad_text = text.trim_end();
    for (text, refusal) in [(&not_in_order[..], Refusal::NotInOrder), (bad_text, Refusal::BadText)] {
        let mut dock = ward();
        let store = dock.store.clone();
        assert_eq!(dock.load(text.as_bytes()), Err(refusal));
        assert!(dock.tables == Dock::new().tables && dock.store == store);
    }
}

/// What says nothing is not in the text, and is zeros after loading.
#[test]
fn fields_that_say_nothing() {
    let (taken, recall, free) = (0, layout::TICKET_SIZE, 2 * layout::TICKET_SIZE);
    let no_entry = layout::ENTRIES_AT + 2 * layout::ENTRY_SIZE;
    let mut dock = ward();
    dock.tables[taken + layout::TICKET_OWN_AT..taken + layout::TICKET_FIRST_AT].fill(255);
    dock.tables[recall + layout::TICKET_FIRST_AT..free].fill(255);
    dock.tables[free + layout::TICKET_NUMBER_AT..free + layout::TICKET_SIZE].fill(255);
    dock.tables[no_entry + layout::ENTRY_NAME_AT..no_entry + layout::ENTRY_SIZE].fill(255);
    assert_eq!(saved(&dock.tables[..]), ward_text());

    let (_, loaded) = load(ward_text().as_bytes());
    let zeros = [
        taken + layout::TICKET_OWN_AT..taken + layout::TICKET_FIRST_AT,
        recall + layout::TICKET_FIRST_AT..layout::LAST_AT,
        no_entry..TABLES,
    ];
    assert!(zeros.into_iter().all(|part| loaded[part].iter().all(|&byte| byte == 0)));
}

/// Only zeros are the store: a pad or a program beside the number 0 is 14, in the tables as in the text.
#[test]
fn a_parent_beside_0() {
    let mut dock = Dock::new();
    ask(&mut dock, Request::take(0, 0, 1, rights::ALL));
    for at in [0, 2] {
        let parent = layout::ENTRIES_AT + layout::ENTRY_PARENT_AT + at;
        dock.tables[parent] = 1;
        assert_eq!(dock.in_order(), Err(Refusal::NotInOrder));
        assert_eq!(save(&dock.tables[..], SAVED_ROOM), (NOT_IN_ORDER, String::new()));
        dock.tables[parent] = 0;
        assert_eq!(dock.in_order(), Ok(()));
    }
}

/// In every place of a text some bytes, and all bytes in some places: what loads is what saving writes.
#[test]
fn texts_with_any_bytes() {
    let ward = ward_text().into_bytes();
    let try_bytes = |at: usize, bytes: &mut dyn Iterator<Item = u8>| {
        for byte in bytes {
            let mut text = ward.clone();
            text[at] = byte;
            let (result, _) = load(&text);
            assert!([LOADS, NOT_IN_ORDER, BAD_TEXT].contains(&result));
            assert!(result != LOADS || text == ward || text[at].is_ascii_digit());
        }
    };
    for at in 0..ward.len() {
        try_bytes(at, &mut [0, 9, 10, 13, 32, 47, 48, 50, 57, 58, 128, 255].into_iter());
    }
    for at in [0, NAMES.len() - 1, NAMES.len(), NAMES.len() + 1, ward.len() - 2, ward.len() - 1] {
        try_bytes(at, &mut (0..=255));
    }
    for byte in 0..=255 {
        for length in [1, 69, 1000, 70_000] {
            assert_eq!(load(&vec![byte; length]).0, BAD_TEXT);
        }
    }
}

#[test]
fn texts_cut_at_any_byte() {
    let ward = ward_text();
    let whole_lines = ward.match_indices('\n').map(|(at, _)| at + 1).skip(32);
    for length in 0..ward.len() {
        let (result, _) = load(&ward.as_bytes()[..length]);
        if !whole_lines.clone().any(|end| end == length) {
            assert_eq!(result, BAD_TEXT, "cut at {length}");
        }
    }
}
