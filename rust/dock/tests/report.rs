//! Document 02's second and sixth requests, through the library: the ward report, its scratch and its output.

use dock::{layout, raw, rights, Answer, Dock, Refusal, Request, REPORT_ROOM, REPORT_SCRATCH, SHEET};

/// A program: pad, program.
type Program = (u16, u16);

const CAPTURE: Program = (0, 0);
const VIEWER: Program = (0, 1);
const PRINTER: Program = (0, 2);
const NURSE: Program = (1, 0);
const THEATRE: Program = (2, 0);

const NAMES: &str = "depth pad program ticket first count rights\n";

fn ask(dock: &mut Dock, request: Request) -> Answer {
    dock.ask(&request, &mut [0; SHEET])
}

/// Takes sheets with all rights; the ticket's number.
fn take(dock: &mut Dock, by: Program, count: u16) -> u16 {
    let answer = ask(dock, Request::take(by.0, by.1, count, rights::ALL));
    assert_eq!(answer.refusal(), None);
    answer.ticket
}

/// Lends a ticket's first sheet with all rights; the numbers of the recall and of the borrower's grant.
fn lend(dock: &mut Dock, by: Program, ticket: u16, to: Program) -> (u16, u16) {
    let answer = ask(dock, Request::pass(by.0, by.1, ticket, to, (0, 1), rights::ALL));
    assert_eq!(answer.refusal(), None);
    (answer.ticket, answer.recipient)
}

fn recall(dock: &mut Dock, by: Program, ticket: u16) {
    assert_eq!(ask(dock, Request::recall(by.0, by.1, ticket)).refusal(), None);
}

fn word(dock: &Dock, at: usize) -> u16 {
    u16::from_le_bytes([dock.tables[at], dock.tables[at + 1]])
}

fn put(dock: &mut Dock, at: usize, words: &[u16]) {
    for (word, bytes) in words.iter().zip(dock.tables[at..].chunks_exact_mut(2)) {
        bytes.copy_from_slice(&word.to_le_bytes());
    }
}

/// Where a program's ticket of this number is in the image; 0 is the number of a place that was never used.
fn place(dock: &Dock, of: Program, number: u16) -> usize {
    let program = layout::PROGRAM_SIZE * (8 * of.0 + of.1) as usize;
    let mut places = (0..8).map(|place| program + layout::TICKET_SIZE * place);
    places.find(|at| word(dock, at + layout::TICKET_NUMBER_AT) == number).expect("the program has the ticket")
}

/// A host ends an entry, which no request does without the loan's recall.
fn end_entry(dock: &mut Dock, of: Program, number: u16) {
    let mut places = (layout::ENTRIES_AT..dock.tables.len()).step_by(layout::ENTRY_SIZE);
    let name = [1, of.0, of.1, number];
    let entry = places.find(|at| (0..4).all(|field| word(dock, at + 2 * field) == name[field]));
    put(dock, entry.expect("the dock has the entry") + layout::ENTRY_LIVE_AT, &[0]);
}

/// A call with a scratch full of 255 and an output full of 7. Whatever the answer, the scratch is zeros
/// afterwards and the output unchanged behind the length.
fn call(tables: &[u8], scratch: usize, output: usize) -> (u16, String) {
    let (mut scratch, mut output, mut length) = (vec![255; scratch], vec![7; output], usize::MAX);
    let result = raw::report(tables, &mut scratch, &mut output, &mut length);
    assert!(scratch.iter().all(|&byte| byte == 0), "the scratch after {result}");
    assert!(output[length..].iter().all(|&byte| byte == 7), "the output after {result}");
    output.truncate(length);
    (result, String::from_utf8(output).expect("a report is text"))
}

fn report(dock: &Dock) -> String {
    let (result, text) = call(&dock.tables[..], REPORT_SCRATCH, REPORT_ROOM);
    assert_eq!(result, 0);
    text
}

/// The text of these lines, the last one with the sheets taken and free.
fn text(lines: &[&str]) -> String {
    NAMES.to_string() + &lines.iter().map(|line| format!("{line}\n")).collect::<String>()
}

/// The tables behind the third line of M1.
fn two_loans() -> Dock {
    let mut dock = Dock::new();
    let taken = take(&mut dock, CAPTURE, 4);
    ask(&mut dock, Request::pass(0, 0, taken, VIEWER, (0, 2), rights::READ | rights::WRITE));
    ask(&mut dock, Request::pass(0, 0, taken, NURSE, (2, 2), rights::READ));
    dock
}

const TWO_LOANS: [&str; 4] = ["0 0 0 1 0 4 7", "1 0 1 1 0 2 3", "1 1 0 1 2 2 1", "4 252"];

#[test]
fn a_taken_grant_and_its_loans() {
    let dock = two_loans();
    assert_eq!(report(&dock), text(&TWO_LOANS));
    let mut output = [0; REPORT_ROOM];
    let length = dock.report(&mut [0; REPORT_SCRATCH], &mut output).expect("tables in order");
    assert_eq!(&output[..length], text(&TWO_LOANS).as_bytes());
}

#[test]
fn an_emptied_dock() {
    assert_eq!(report(&Dock::new()), text(&["0 256"]));
}

#[test]
fn a_scratch_of_another_length() {
    let dock = two_loans();
    // 256 was the length up to version 4.
    for length in [0, 1, 31, 33, 64, 255, 256, 257] {
        let refused = (Refusal::Scratch.number(), String::new());
        assert_eq!(call(&dock.tables[..], length, REPORT_ROOM), refused);
        // 16 comes before 17.
        assert_eq!(call(&dock.tables[..], length, 0), refused);
    }
}

#[test]
fn an_output_as_long_as_the_report_and_shorter() {
    let (dock, wanted) = (two_loans(), text(&TWO_LOANS));
    for length in [0, 1, NAMES.len(), wanted.len() - 1] {
        let refused = (Refusal::TooShort.number(), String::new());
        assert_eq!(call(&dock.tables[..], REPORT_SCRATCH, length), refused);
    }
    for length in [wanted.len(), wanted.len() + 1, REPORT_ROOM - 1, REPORT_ROOM, REPORT_ROOM + 1] {
        assert_eq!(call(&dock.tables[..], REPORT_SCRATCH, length), (0, wanted.clone()));
    }
}

#[test]
fn tables_of_another_length_or_out_of_order_come_first() {
    let mut dock = two_loans();
    let length = (Refusal::Length.number(), String::new());
    assert_eq!(call(&dock.tables[1..], REPORT_SCRATCH, REPORT_ROOM), length);
    // No ticket has the kind 5.
    dock.tables[layout::TICKET_KIND_AT] = 5;
    let not_in_order = (Refusal::NotInOrder.number(), String::new());
    for scratch in [0, 31, 32, 33, 256] {
        for output in [0, REPORT_ROOM] {
            assert_eq!(call(&dock.tables[..], scratch, output), not_in_order);
            assert_eq!(call(&dock.tables[1..], scratch, output), length);
        }
    }
}

#[test]
fn a_grant_in_every_place() {
    let mut dock = Dock::new();
    let mut lines = Vec::new();
    // Taken from the last program to the first, so that sheets fall where names rise.
    for program in (0..32).rev() {
        for ticket in 1..=8 {
            let first = 8 * (31 - program) + ticket - 1;
            assert_eq!(take(&mut dock, (program / 8, program % 8), 1), ticket);
            lines.push(format!("0 {} {} {ticket} {first} 1 7", program / 8, program % 8));
        }
    }
    lines.sort_unstable();
    lines.push("256 0".to_string());
    let lines: Vec<&str> = lines.iter().map(String::as_str).collect();
    assert_eq!(report(&dock), text(&lines));
}

/// The eight places of one program share a byte of marks: they are printed in another order than they lie in.
#[test]
fn eight_loans_to_one_program() {
    let mut dock = Dock::new();
    let mut lines = Vec::new();
    for place in 0..8 {
        let lender = (1, 7 - place);
        let taken = take(&mut dock, lender, 1);
        assert_eq!(lend(&mut dock, lender, taken, THEATRE), (2, place + 1));
        lines.extend([format!("1 2 0 {} {place} 1 7", place + 1), format!("0 1 {} 1 {place} 1 7", lender.1)]);
    }
    lines.reverse();
    lines.push("8 248".to_string());
    let lines: Vec<&str> = lines.iter().map(String::as_str).collect();
    assert_eq!(report(&dock), text(&lines));
}

#[test]
fn one_grant_of_all_sheets() {
    let mut dock = Dock::new();
    take(&mut dock, (3, 7), 256);
    assert_eq!(report(&dock), text(&["0 3 7 1 0 256 7", "256 0"]));
}

/// Every program has four grants and four recalls, the last one a recall less: there is no room for a loan more.
#[test]
fn the_longest_chain() {
    let mut dock = Dock::new();
    let holder = |loan: u16| (loan % 4, loan / 4 % 8);
    let mut ticket = take(&mut dock, CAPTURE, 1);
    let mut lines = vec![format!("0 0 0 {ticket} 0 1 7")];
    for loan in 1..128 {
        (_, ticket) = lend(&mut dock, holder(loan - 1), ticket, holder(loan));
        let (pad, program) = holder(loan);
        lines.push(format!("{loan} {pad} {program} {ticket} 0 1 7"));
    }
    lines.push("1 255".to_string());
    let lines: Vec<&str> = lines.iter().map(String::as_str).collect();
    assert_eq!(report(&dock), text(&lines));
}

/// A grant has room for seven loans. Places are used again, so that a later recall stands before an earlier one.
#[test]
fn loans_by_recall_number() {
    let mut dock = Dock::new();
    let taken = take(&mut dock, CAPTURE, 1);
    for to in [(3, 7), VIEWER, NURSE, (0, 7), (3, 0), PRINTER, THEATRE] {
        lend(&mut dock, CAPTURE, taken, to);
    }
    for number in [2, 3, 6] {
        recall(&mut dock, CAPTURE, number);
    }
    for to in [(1, 1), (0, 6), VIEWER] {
        lend(&mut dock, CAPTURE, taken, to);
    }
    let wanted = text(&[
        "0 0 0 1 0 1 7",
        "1 1 0 1 0 1 7",
        "1 0 7 1 0 1 7",
        "1 0 2 1 0 1 7",
        "1 2 0 1 0 1 7",
        "1 1 1 1 0 1 7",
        "1 0 6 1 0 1 7",
        "1 0 1 2 0 1 7",
        "1 255",
    ]);
    assert_eq!(report(&dock), wanted);
}

#[test]
fn taken_grants_by_number() {
    let mut dock = Dock::new();
    for _ in 0..3 {
        take(&mut dock, NURSE, 2);
    }
    ask(&mut dock, Request::give_back(NURSE.0, NURSE.1, 1));
    take(&mut dock, NURSE, 1);
    take(&mut dock, VIEWER, 1);
    let wanted = ["0 0 1 1 1 1 7", "0 1 0 2 2 2 7", "0 1 0 3 4 2 7", "0 1 0 4 0 1 7", "6 250"];
    assert_eq!(report(&dock), text(&wanted));
}

/// What the nurse got, and what she lent on to her pad and back to the first one, is out of the report with her
/// entry, before her pad and after it has heard of the recall.
#[test]
fn a_recalled_loan_is_left_out_with_what_hangs_on_it() {
    let mut dock = Dock::new();
    let taken = take(&mut dock, CAPTURE, 2);
    let (_, viewers) = lend(&mut dock, CAPTURE, taken, VIEWER);
    let (recalled, nurses) = lend(&mut dock, VIEWER, viewers, NURSE);
    lend(&mut dock, NURSE, nurses, (1, 1));
    let (_, printers) = lend(&mut dock, NURSE, nurses, PRINTER);
    lend(&mut dock, CAPTURE, taken, THEATRE);
    let wanted = [
        "0 0 0 1 0 2 7",
        "1 0 1 1 0 1 7",
        "2 1 0 1 0 1 7",
        "3 1 1 1 0 1 7",
        "3 0 2 1 0 1 7",
        "1 2 0 1 0 1 7",
        "2 254",
    ];
    assert_eq!(report(&dock), text(&wanted));
    recall(&mut dock, VIEWER, recalled);
    let wanted = text(&["0 0 0 1 0 2 7", "1 0 1 1 0 1 7", "1 2 0 1 0 1 7", "2 254"]);
    assert_eq!(report(&dock), wanted);
    for (by, ticket) in [(PRINTER, printers), (NURSE, nurses)] {
        assert_eq!(ask(&mut dock, Request::read(by.0, by.1, ticket, 0)).refusal(), Some(Refusal::NoEntry));
        assert_eq!(report(&dock), wanted);
    }
}

#[test]
fn each_grant_of_a_program_has_its_own_loans() {
    let mut dock = Dock::new();
    let (one, two) = (take(&mut dock, CAPTURE, 1), take(&mut dock, CAPTURE, 1));
    lend(&mut dock, CAPTURE, two, VIEWER);
    lend(&mut dock, CAPTURE, one, NURSE);
    lend(&mut dock, CAPTURE, two, NURSE);
    let wanted =
        ["0 0 0 1 0 1 7", "1 1 0 1 0 1 7", "0 0 0 2 1 1 7", "1 0 1 1 1 1 7", "1 1 0 2 1 1 7", "2 254"];
    assert_eq!(report(&dock), text(&wanted));
}

/// With the recall still there, the loan is left out by the dock alone.
#[test]
fn a_loan_whose_entry_has_gone() {
    let mut dock = Dock::new();
    let taken = take(&mut dock, CAPTURE, 1);
    let (_, nurses) = lend(&mut dock, CAPTURE, taken, NURSE);
    lend(&mut dock, NURSE, nurses, (1, 1));
    let (_, printers) = lend(&mut dock, NURSE, nurses, PRINTER);
    lend(&mut dock, CAPTURE, taken, THEATRE);
    end_entry(&mut dock, PRINTER, printers);
    let wanted = ["0 0 0 1 0 1 7", "1 1 0 1 0 1 7", "2 1 1 1 0 1 7", "1 2 0 1 0 1 7", "1 255"];
    assert_eq!(report(&dock), text(&wanted));
    end_entry(&mut dock, NURSE, nurses);
    assert_eq!(report(&dock), text(&["0 0 0 1 0 1 7", "1 2 0 1 0 1 7", "1 255"]));
}

/// A recall of another pad's recall is in order, and what that holds in the fields of a grant says nothing.
#[test]
fn a_recall_is_no_loan() {
    let mut dock = Dock::new();
    take(&mut dock, CAPTURE, 1);
    let nurses = take(&mut dock, NURSE, 1);
    let (recall, _) = lend(&mut dock, NURSE, nurses, (1, 1));
    let (theirs, free) = (place(&dock, NURSE, recall), place(&dock, CAPTURE, 0));
    put(&mut dock, theirs + layout::TICKET_FIRST_AT, &[1, 1, rights::ALL, NURSE.0, NURSE.1, nurses]);
    // Kind 4, number 2, under ticket 1, its target.
    put(&mut dock, free, &[4, 2, 1, NURSE.0, NURSE.1, recall]);
    put(&mut dock, layout::LAST_AT, &[2]);
    assert_eq!(dock.in_order(), Ok(()));
    assert_eq!(report(&dock), text(&["0 0 0 1 0 1 7", "0 1 0 1 1 1 7", "1 1 1 1 1 1 7", "2 254"]));
}
