//! The model plays the stored traces: every NAME.in of the folder must give NAME.out, byte for byte.
//! CASES names another folder.

use model::{trace::trace, Request, State, SHEET, STORE};
use std::{env, fs, path::PathBuf};

#[test]
fn stored_traces() {
    let folder = env::var_os("CASES").map_or_else(
        || PathBuf::from(env!("CARGO_MANIFEST_DIR")).join("../../crates/test_cases/data"),
        PathBuf::from,
    );
    let files =
        fs::read_dir(&folder).unwrap_or_else(|error| panic!("no cases in {}: {error}", folder.display()));
    let mut played = 0;
    for file in files {
        let path = file.expect("a file of the folder").path();
        if path.extension().is_some_and(|extension| extension == "in") {
            let got = trace(&mut State::empty(), &mut vec![0; STORE], &fs::read(&path).expect("the input"));
            let wanted = fs::read_to_string(path.with_extension("out")).expect("the output");
            let differs = got.lines().zip(wanted.lines()).find(|(got, wanted)| got != wanted);
            // One stored trace is wrong, so that whoever compares is seen to compare.
            let as_stored = !path.ends_with("must-differ.in");
            assert_eq!(got == wanted, as_stored, "{}: first (got, wanted): {differs:?}", path.display());
            played += 1;
        }
    }
    assert!(played > 0, "no cases in {}", folder.display());
    println!("{played} traces");
}

/// After 65,535 rounds of take and give back the next take is 10.
#[test]
fn numbers_are_spent() {
    let (mut state, mut store, mut sheet) = (State::empty(), vec![0; STORE], [0; SHEET]);
    let take = Request { op: 1, count: 1, rights: 7, ..Request::default() };
    for number in 1..=u16::MAX {
        assert_eq!(state.step(&mut store, &mut sheet, &take).ticket, number);
        let give_back = Request { op: 4, ticket: number, ..Request::default() };
        assert_eq!(state.step(&mut store, &mut sheet, &give_back).result, 0);
    }
    assert_eq!(state.step(&mut store, &mut sheet, &take).result, 10);
}
