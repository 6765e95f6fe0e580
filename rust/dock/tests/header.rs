//! The binding's numbers and words are those of include/dock.h, which tests/signatures holds to the library's
//! source and tests/constants.c to what the library does.

use dock::{layout, rights, Refusal};
use std::{collections::BTreeMap, fs, path::Path};

fn header() -> String {
    let path = Path::new(env!("CARGO_MANIFEST_DIR")).join("../../include/dock.h");
    fs::read_to_string(path).expect("the header is there")
}

/// Every number of these lines, by name: `#define DOCK_NAME N` and the enumerators `DOCK_NAME = N`.
fn numbers_of(text: &str) -> BTreeMap<String, usize> {
    let mut found = BTreeMap::new();
    for line in text.lines().map(str::trim) {
        let line = line.strip_prefix("#define ").unwrap_or(line).replace(['=', ','], " ");
        let mut words = line.split_whitespace();
        if let (Some(name), Some(Ok(number))) = (words.next(), words.next().map(str::parse)) {
            if let Some(name) = name.strip_prefix("DOCK_") {
                found.insert(name.to_owned(), number);
            }
        }
    }
    found
}

/// The words of `dock_result_name`, by the result's name.
fn words_of(text: &str) -> BTreeMap<String, String> {
    let cases = text.lines().filter_map(|line| {
        let (name, words) = line.trim().strip_prefix("case DOCK_")?.split_once(": return \"")?;
        Some((name.to_owned(), words.strip_suffix("\";")?.to_owned()))
    });
    cases.collect()
}

/// A refusal's name as the header has it: `NoProgram` is `NO_PROGRAM`.
fn name_in_c(refusal: Refusal) -> String {
    let mut name = String::new();
    for letter in format!("{refusal:?}").chars() {
        if letter.is_uppercase() && !name.is_empty() {
            name.push('_');
        }
        name.push(letter.to_ascii_uppercase());
    }
    name
}

#[test]
fn every_number_is_the_headers() {
    macro_rules! numbers {
        ($($path:path => $name:literal),* $(,)?) => { vec![$(($name, usize::try_from($path).expect("a number that fits"))),*] };
    }
    let lengths = numbers![
        dock::TABLES => "TABLES", dock::STORE => "STORE", dock::SHEET => "SHEET", dock::REQUEST => "REQUEST",
        dock::ANSWER => "ANSWER", dock::STACK => "STACK", dock::TRACE_STACK => "TRACE_STACK",
        dock::REPORT_STACK => "REPORT_STACK",
        dock::VERSION => "VERSION", dock::TRACE_ROOM => "TRACE_ROOM", dock::TRACE_INPUT => "TRACE_INPUT",
        dock::REPORT_ROOM => "REPORT_ROOM", dock::REPORT_SCRATCH => "REPORT_SCRATCH", dock::SAVED_ROOM => "SAVED_ROOM",
        layout::PROGRAM_SIZE => "PROGRAM_SIZE", layout::TICKET_SIZE => "TICKET_SIZE", layout::LAST_AT => "LAST_AT",
        layout::ENTRIES_AT => "ENTRIES_AT", layout::ENTRY_SIZE => "ENTRY_SIZE",
        layout::TICKET_KIND_AT => "TICKET_KIND_AT", layout::TICKET_NUMBER_AT => "TICKET_NUMBER_AT",
        layout::TICKET_OWN_AT => "TICKET_OWN_AT", layout::TICKET_OTHER_AT => "TICKET_OTHER_AT",
        layout::TICKET_FIRST_AT => "TICKET_FIRST_AT", layout::TICKET_COUNT_AT => "TICKET_COUNT_AT",
        layout::TICKET_RIGHTS_AT => "TICKET_RIGHTS_AT", layout::TICKET_DOCK_AT => "TICKET_DOCK_AT",
        layout::ENTRY_LIVE_AT => "ENTRY_LIVE_AT", layout::ENTRY_NAME_AT => "ENTRY_NAME_AT",
        layout::ENTRY_PARENT_AT => "ENTRY_PARENT_AT", layout::ENTRY_FIRST_AT => "ENTRY_FIRST_AT",
        layout::ENTRY_COUNT_AT => "ENTRY_COUNT_AT", layout::ENTRY_RIGHTS_AT => "ENTRY_RIGHTS_AT",
    ];
    let words = numbers![
        dock::TAKE => "TAKE", dock::PASS => "PASS", dock::RECALL => "RECALL", dock::GIVE_BACK => "GIVE_BACK",
        dock::READ => "READ", dock::WRITE => "WRITE",
        rights::READ => "RIGHT_READ", rights::WRITE => "RIGHT_WRITE", rights::PASS_ON => "RIGHT_PASS_ON",
    ];
    let header = numbers_of(&header());
    for (name, number) in lengths.into_iter().chain(words) {
        assert_eq!(header.get(name), Some(&number), "DOCK_{name}");
    }
}

#[test]
fn the_refusals_are_the_headers_results() {
    let header = header();
    let (_, results) = header.split_once("enum dock_result {").expect("the header has the results");
    let (results, _) = results.split_once("};").expect("and their end");
    let mut binding: BTreeMap<String, usize> =
        Refusal::ALL.iter().map(|&refusal| (name_in_c(refusal), refusal.number().into())).collect();
    binding.insert("ACCEPTED".to_owned(), 0);
    assert_eq!(binding, numbers_of(results));
}

#[test]
fn the_words_are_the_headers() {
    let mut binding: BTreeMap<String, String> =
        Refusal::ALL.iter().map(|&refusal| (name_in_c(refusal), refusal.to_string())).collect();
    binding.insert("ACCEPTED".to_owned(), "accepted".to_owned());
    assert_eq!(binding, words_of(&header()));
}

#[test]
fn numbers_give_their_refusals_and_no_others() {
    let found: Vec<Refusal> = (0..=u16::MAX).filter_map(Refusal::from_number).collect();
    assert_eq!(found, Refusal::ALL);
    assert!(found.iter().all(|&refusal| Refusal::from_number(refusal.number()) == Some(refusal)));
}
