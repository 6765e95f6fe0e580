//! Document 02's first request, through the library: a recall on the pad also ends, at the dock, the loans that
//! went off the pad from what it removes. And the two clauses that T6 gains.

use dock::{layout, rights, Answer, Dock, Refusal, Request, REPORT_SCRATCH, SHEET};

/// A program: pad, program.
type Program = (u16, u16);

const CAPTURE: Program = (0, 0);
const VIEWER: Program = (0, 1);
const PRINTER: Program = (0, 2);
const NURSE: Program = (1, 0);
const THEATRE: Program = (2, 0);

fn ask(dock: &mut Dock, request: Request) -> Answer {
    dock.ask(&request, &mut [0; SHEET])
}

/// Takes a sheet; the ticket's number.
fn take(dock: &mut Dock, by: Program) -> u16 {
    let answer = ask(dock, Request::take(by.0, by.1, 1, rights::ALL));
    assert_eq!(answer.refusal(), None);
    answer.ticket
}

/// Lends a sheet; the numbers of the recall and of the borrower's grant.
fn lend(dock: &mut Dock, by: Program, ticket: u16, to: Program) -> (u16, u16) {
    let answer = ask(dock, Request::pass(by.0, by.1, ticket, to, (0, 1), rights::ALL));
    assert_eq!(answer.refusal(), None);
    (answer.ticket, answer.recipient)
}

fn recall(dock: &mut Dock, by: Program, ticket: u16) {
    assert_eq!(ask(dock, Request::recall(by.0, by.1, ticket)).refusal(), None);
}

/// Why a read is refused, if it is.
fn read(dock: &mut Dock, by: Program, ticket: u16) -> Option<Refusal> {
    ask(dock, Request::read(by.0, by.1, ticket, 0)).refusal()
}

/// A loan that ended at the dock: the pad learns it at the next use, and drops the grant.
fn ended(dock: &mut Dock, by: Program, ticket: u16) -> bool {
    read(dock, by, ticket) == Some(Refusal::NoEntry) && read(dock, by, ticket) == Some(Refusal::NoTicket)
}

/// A dock in which capture has a grant and has lent it to the viewer: the grant, the recall, the viewer's.
fn lent_to_viewer() -> (Dock, u16, u16, u16) {
    let mut dock = Dock::new();
    let taken = take(&mut dock, CAPTURE);
    let (recall, lent) = lend(&mut dock, CAPTURE, taken, VIEWER);
    (dock, taken, recall, lent)
}

fn word(dock: &Dock, at: usize) -> u16 {
    u16::from_le_bytes([dock.tables[at], dock.tables[at + 1]])
}

fn put(dock: &mut Dock, at: usize, word: u16) {
    dock.tables[at..at + 2].copy_from_slice(&word.to_le_bytes());
}

/// The dock's entries, byte by byte.
fn entries(dock: &Dock) -> &[u8] {
    &dock.tables[layout::ENTRIES_AT..]
}

/// Where the live entries are in the image.
fn live_entries(dock: &Dock) -> Vec<usize> {
    let places = (layout::ENTRIES_AT..dock.tables.len()).step_by(layout::ENTRY_SIZE);
    places.filter(|at| word(dock, at + layout::ENTRY_LIVE_AT) == 1).collect()
}

/// Where a program's ticket of this number is in the image.
fn place(dock: &Dock, of: Program, number: u16) -> usize {
    let program = layout::PROGRAM_SIZE * (8 * of.0 + of.1) as usize;
    let mut places = (0..8).map(|place| program + layout::TICKET_SIZE * place);
    places.find(|at| word(dock, at + layout::TICKET_NUMBER_AT) == number).expect("the program has the ticket")
}

#[test]
fn a_loan_that_stayed_on_the_pad_leaves_the_dock_as_it_is() {
    let (mut dock, taken, recalled, lent) = lent_to_viewer();
    lend(&mut dock, VIEWER, lent, PRINTER);
    let (_, nurses) = lend(&mut dock, CAPTURE, taken, NURSE);
    let before = dock.clone();
    recall(&mut dock, CAPTURE, recalled);
    assert!(entries(&dock) == entries(&before) && dock.store == before.store);
    assert_eq!(read(&mut dock, NURSE, nurses), None);
    assert_eq!(read(&mut dock, PRINTER, 1), Some(Refusal::NoTicket));
}

#[test]
fn entries_that_are_gone_are_passed_over() {
    let mut dock = Dock::new();
    let taken = take(&mut dock, NURSE);
    let (far, received) = lend(&mut dock, NURSE, taken, CAPTURE);
    let (near, lent) = lend(&mut dock, CAPTURE, received, VIEWER);
    let (_, theatres) = lend(&mut dock, VIEWER, lent, THEATRE);
    recall(&mut dock, NURSE, far);
    let before = dock.clone();
    recall(&mut dock, CAPTURE, near);
    assert!(entries(&dock) == entries(&before));
    assert!(ended(&mut dock, THEATRE, theatres) && ended(&mut dock, CAPTURE, received));
    assert_eq!(read(&mut dock, NURSE, taken), None);
}

/// Requests leave no such tables, since a loan loses its entry with its recall or with its lender's entry.
#[test]
fn one_entry_gone_and_one_there() {
    let (mut dock, taken, recalled, lent) = lent_to_viewer();
    let (_, nurses) = lend(&mut dock, VIEWER, lent, NURSE);
    let gone = *live_entries(&dock).last().expect("the nurse's entry");
    let (_, theatres) = lend(&mut dock, VIEWER, lent, THEATRE);
    put(&mut dock, gone + layout::ENTRY_LIVE_AT, 0);
    assert_eq!(dock.in_order(), Ok(()));
    recall(&mut dock, CAPTURE, recalled);
    assert_eq!(live_entries(&dock).len(), 1);
    assert!(ended(&mut dock, NURSE, nurses) && ended(&mut dock, THEATRE, theatres));
    assert_eq!(read(&mut dock, CAPTURE, taken), None);
}

#[test]
fn a_pad_that_was_reached_two_ways() {
    let (mut dock, taken, recalled, lent) = lent_to_viewer();
    let (_, nurses) = lend(&mut dock, VIEWER, lent, NURSE);
    let (_, by_nurse) = lend(&mut dock, NURSE, nurses, THEATRE);
    let (_, by_viewer) = lend(&mut dock, VIEWER, lent, THEATRE);
    let (_, by_capture) = lend(&mut dock, CAPTURE, taken, THEATRE);
    recall(&mut dock, CAPTURE, recalled);
    assert_eq!(live_entries(&dock).len(), 2);
    assert!(ended(&mut dock, THEATRE, by_nurse) && ended(&mut dock, THEATRE, by_viewer));
    assert!(ended(&mut dock, NURSE, nurses));
    assert_eq!(read(&mut dock, THEATRE, by_capture), None);
}

#[test]
fn a_loan_that_came_back_to_the_pad() {
    let (mut dock, taken, recalled, lent) = lent_to_viewer();
    let (_, nurses) = lend(&mut dock, VIEWER, lent, NURSE);
    let (_, printers) = lend(&mut dock, NURSE, nurses, PRINTER);
    recall(&mut dock, CAPTURE, recalled);
    assert_eq!(live_entries(&dock).len(), 1);
    assert_eq!(dock.check((PRINTER.0, PRINTER.1, printers), 0, rights::READ), Err(Refusal::NoEntry));
    // The ticket is there until it is used.
    place(&dock, PRINTER, printers);
    assert!(ended(&mut dock, PRINTER, printers));
    assert_eq!(read(&mut dock, VIEWER, lent), Some(Refusal::NoTicket));
    assert_eq!(read(&mut dock, CAPTURE, taken), None);
}

/// A loan goes round the eight programs of the pad, which leaves 47 places there, each for a loan to another pad.
#[test]
fn all_the_loans_that_a_pad_has_room_for() {
    let (mut dock, taken, recalled, lent) = lent_to_viewer();
    let mut lenders = vec![(VIEWER, lent)];
    for program in [2, 3, 4, 5, 6, 7, 0] {
        let (by, ticket) = lenders[lenders.len() - 1];
        let (_, lent) = lend(&mut dock, by, ticket, (0, program));
        lenders.push(((0, program), lent));
    }
    let mut loans = Vec::new();
    for (by, ticket) in lenders {
        // A borrower has its grant and the recall of what it lent on the pad; capture, the last, has three tickets.
        for loan in 0..if by == CAPTURE { 5 } else { 6 } {
            let to = (1 + loan % 3, by.1);
            loans.push((to, lend(&mut dock, by, ticket, to).1));
        }
    }
    assert_eq!(loans.len(), 47);
    assert_eq!(live_entries(&dock).len(), 48);
    recall(&mut dock, CAPTURE, recalled);
    assert_eq!(live_entries(&dock).len(), 1);
    assert!(loans.into_iter().all(|(by, ticket)| ended(&mut dock, by, ticket)));
    assert_eq!(read(&mut dock, CAPTURE, taken), None);
}

/// Every call refuses these tables and leaves them as they are.
fn refused(mut dock: Dock) {
    let (before, read) = (dock.clone(), Request::read(CAPTURE.0, CAPTURE.1, 1, 0));
    assert_eq!(dock.in_order(), Err(Refusal::NotInOrder));
    assert_eq!(dock.check((CAPTURE.0, CAPTURE.1, 1), 0, rights::READ), Err(Refusal::NotInOrder));
    assert_eq!(ask(&mut dock, read).refusal(), Some(Refusal::NotInOrder));
    let (mut sheets, mut answers) = ([[0; SHEET]], [Answer::default()]);
    assert_eq!(dock.ask_all(&[read], &mut sheets, &mut answers), Err(Refusal::NotInOrder));
    assert_eq!(dock.trace(b"", &mut [0; 100]), Err(Refusal::NotInOrder));
    assert_eq!(dock.report(&mut [0; REPORT_SCRATCH], &mut [0; 100]), Err(Refusal::NotInOrder));
    assert!(dock.tables == before.tables && dock.store == before.store);
}

#[test]
fn an_entry_below_another_without_its_recall() {
    let (mut dock, _, _, lent) = lent_to_viewer();
    let (recall, _) = lend(&mut dock, VIEWER, lent, NURSE);
    let recall = place(&dock, VIEWER, recall);
    put(&mut dock, recall + layout::TICKET_KIND_AT, 0);
    refused(dock);
}

/// The recall of the viewer's grant stands under a grant of the nurse's.
#[test]
fn a_recall_that_names_another_pads_child() {
    let (mut dock, _, recalled, _) = lent_to_viewer();
    take(&mut dock, NURSE);
    // A place that was never used has the number 0.
    let (here, free) = (place(&dock, CAPTURE, recalled), place(&dock, NURSE, 0));
    dock.tables.copy_within(here..here + layout::TICKET_SIZE, free);
    put(&mut dock, here + layout::TICKET_KIND_AT, 0);
    put(&mut dock, layout::PROGRAM_SIZE * 8 + layout::LAST_AT, 2);
    refused(dock);
}
