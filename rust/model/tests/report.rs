//! The report as document 02's second request has it, by hand: the model is compared with nothing else here.

use model::{report::SCRATCH, trace::trace, Refusal, State, STORE};

/// The tables that these requests leave.
fn after(requests: &str) -> State {
    let names = "pad program op ticket topad toprogram first count rights fill\n";
    let mut state = State::empty();
    trace(&mut state, &mut vec![0; STORE], (names.to_string() + requests).as_bytes());
    state
}

/// Four sheets are taken; two go to a program of the pad, two to another pad, one of these to a third and back.
const LOANS: &str = "\
0 0 1 0 0 0 0 4 7 0
0 0 2 1 0 1 0 2 3 0
0 0 2 1 1 0 2 2 7 0
1 0 2 1 2 0 1 1 5 0
2 0 2 1 0 0 0 1 1 0
3 7 1 0 0 0 0 2 2 0
";

#[test]
fn loans_behind_their_lender() {
    let wanted = "\
depth pad program ticket first count rights
0 0 0 1 0 4 7
1 0 1 1 0 2 3
1 1 0 1 2 2 7
2 2 0 1 3 1 5
3 0 0 4 3 1 1
0 3 7 1 4 2 2
6 250
";
    assert_eq!(after(LOANS).report(SCRATCH, wanted.len()), Ok(wanted.to_string()));
    assert_eq!(after(LOANS).report(SCRATCH, wanted.len() - 1), Err(Refusal::TooShort));
    for scratch in [0, SCRATCH - 1, SCRATCH + 1, 256] {
        assert_eq!(after(LOANS).report(scratch, 0), Err(Refusal::Scratch));
    }
}

#[test]
fn a_recalled_loan_and_what_hangs_on_it() {
    let recalled = LOANS.to_string() + "0 0 3 3 0 0 0 0 0 0\n";
    let wanted = "\
depth pad program ticket first count rights
0 0 0 1 0 4 7
1 0 1 1 0 2 3
0 3 7 1 4 2 2
6 250
";
    assert_eq!(after(&recalled).report(SCRATCH, 6196), Ok(wanted.to_string()));
    let used = recalled + "1 0 5 1 0 0 0 0 0 0\n";
    assert_eq!(after(&used).report(SCRATCH, 6196), Ok(wanted.to_string()));
}

#[test]
fn an_emptied_dock() {
    let wanted = "depth pad program ticket first count rights\n0 256\n";
    assert_eq!(State::empty().report(SCRATCH, 6196), Ok(wanted.to_string()));
}
