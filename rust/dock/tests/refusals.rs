//! Each refusal that a call can give, provoked through the library: its name stands for the library's number.

use dock::{
    layout, raw, rights, Answer, Dock, Refusal, Request, ANSWER, REPORT_ROOM, REPORT_SCRATCH, REQUEST,
    SAVED_ROOM, SHEET,
};

/// A dock in which program 0 of pad 0 has four sheets under ticket 1.
fn one_grant() -> Dock {
    let mut dock = Dock::new();
    assert!(ask(&mut dock, Request::take(0, 0, 4, rights::ALL)).accepted());
    dock
}

fn ask(dock: &mut Dock, request: Request) -> Answer {
    dock.ask(&request, &mut [0; SHEET])
}

/// What the library refuses this request with, by itself and in a batch, which must agree.
fn refused(dock: &mut Dock, request: Request) -> Option<Refusal> {
    let mut answers = [Answer::default()];
    dock.clone().ask_all(&[request], &mut [[0; SHEET]], &mut answers).expect("tables in order");
    let answer = ask(dock, request);
    assert_eq!(answers, [answer]);
    answer.refusal()
}

/// The place in the image of the last number of a program of pad 0.
fn last_at(program: usize) -> usize {
    layout::PROGRAM_SIZE * program + layout::LAST_AT
}

#[test]
fn of_the_request() {
    let mut dock = Dock::new();
    assert_eq!(refused(&mut dock, Request::take(4, 0, 1, rights::ALL)), Some(Refusal::NoProgram));
    let no_operation = Request { op: 7, ..Request::default() };
    assert_eq!(refused(&mut dock, no_operation), Some(Refusal::NoOperation));
    assert_eq!(refused(&mut dock, Request::take(0, 0, 257, rights::ALL)), Some(Refusal::Field));
}

#[test]
fn of_the_ticket() {
    let mut dock = one_grant();
    assert_eq!(refused(&mut dock, Request::read(0, 1, 1, 0)), Some(Refusal::NoTicket));
    assert_eq!(refused(&mut dock, Request::recall(0, 0, 1)), Some(Refusal::WrongKind));
    assert_eq!(refused(&mut dock, Request::read(0, 0, 1, 4)), Some(Refusal::Beyond));
    let to_oneself = Request::pass(0, 0, 1, (0, 0), (0, 1), rights::READ);
    assert_eq!(refused(&mut dock, to_oneself), Some(Refusal::ToOneself));
    let lent = ask(&mut dock, Request::pass(0, 0, 1, (0, 1), (0, 1), rights::READ));
    assert_eq!(refused(&mut dock, Request::write(0, 1, lent.recipient, 0)), Some(Refusal::RightLacking));
}

#[test]
fn for_want_of_places_numbers_and_sheets() {
    let mut dock = Dock::new();
    for _ in 0..8 {
        assert!(ask(&mut dock, Request::take(0, 0, 1, rights::ALL)).accepted());
    }
    assert_eq!(refused(&mut dock, Request::take(0, 0, 1, rights::ALL)), Some(Refusal::NoPlace));

    // Tables in which a program's numbers are spent are in order.
    dock.tables[last_at(1)..last_at(1) + 2].copy_from_slice(&u16::MAX.to_le_bytes());
    assert_eq!(dock.in_order(), Ok(()));
    assert_eq!(refused(&mut dock, Request::take(0, 1, 1, rights::ALL)), Some(Refusal::NoNumber));

    // Eight sheets of 256 are taken.
    assert_eq!(refused(&mut dock, Request::take(0, 2, 249, rights::ALL)), Some(Refusal::NoRun));
}

#[test]
fn of_a_recalled_loan() {
    let mut dock = one_grant();
    let lent = ask(&mut dock, Request::pass(0, 0, 1, (1, 0), (0, 1), rights::READ));
    assert!(ask(&mut dock, Request::recall(0, 0, lent.ticket)).accepted());
    assert_eq!(refused(&mut dock, Request::read(1, 0, lent.recipient, 0)), Some(Refusal::NoEntry));
}

#[test]
fn of_the_docks_own_check() {
    let dock = one_grant();
    assert_eq!(dock.check((0, 0, 1), 3, rights::READ), Ok(()));
    assert_eq!(dock.check((0, 0, 1), 256, rights::READ), Err(Refusal::Field));
    assert_eq!(dock.check((0, 0, 2), 0, rights::READ), Err(Refusal::NoEntry));
    assert_eq!(dock.check((0, 0, 1), 4, rights::READ), Err(Refusal::Beyond));
    let mut dock = Dock::new();
    assert!(ask(&mut dock, Request::take(0, 0, 1, rights::READ)).accepted());
    assert_eq!(dock.check((0, 0, 1), 0, rights::WRITE), Err(Refusal::RightLacking));
}

#[test]
fn of_lengths() {
    let mut dock = Dock::new();
    let (mut sheet, mut answer) = ([0; SHEET], [0; ANSWER]);
    let short = Some(Refusal::Length);
    let emptied = raw::empty(&mut dock.tables[1..], &mut dock.store[..]);
    assert_eq!(Refusal::from_number(emptied), short);
    let (tables, store) = (&mut dock.tables[..], &mut dock.store[..]);
    let stepped = raw::step(tables, store, &mut sheet[1..], &[0; REQUEST], &mut answer);
    assert_eq!(Refusal::from_number(stepped), short);
    let served = raw::serve(tables, store, &mut sheet, &[0; REQUEST - 1], &mut answer);
    assert_eq!(Refusal::from_number(served), short);
    assert_eq!(Refusal::from_number(raw::check(&tables[1..], (0, 0, 1), 0, rights::READ)), short);
    assert_eq!(Refusal::from_number(raw::in_order(&tables[1..])), short);
    assert_eq!(dock.ask_all(&[Request::default()], &mut [], &mut []), Err(Refusal::Length));
}

#[test]
fn of_tables_not_in_order() {
    let mut dock = one_grant();
    // No ticket has the kind 5.
    dock.tables[layout::TICKET_KIND_AT] = 5;
    let before = dock.clone();
    assert_eq!(dock.in_order(), Err(Refusal::NotInOrder));
    assert_eq!(dock.check((0, 0, 1), 0, rights::READ), Err(Refusal::NotInOrder));
    assert_eq!(ask(&mut dock, Request::read(0, 0, 1, 0)).refusal(), Some(Refusal::NotInOrder));
    let (requests, mut answers) = ([Request::read(0, 0, 1, 0)], [Answer::default()]);
    assert_eq!(dock.ask_all(&requests, &mut [[0; SHEET]], &mut answers), Err(Refusal::NotInOrder));
    assert!(dock.tables == before.tables && dock.store == before.store);
}

#[test]
fn of_traces() {
    const NAMES: &[u8] = b"pad program op ticket topad toprogram first count rights fill\n";
    let text = [NAMES, b"0 0 1 0 0 0 0 4 7 0\n0 0\n"].concat();
    let other_form = Refusal::OtherForm.number();
    let wanted = format!("line result ticket recipient byte\n1 0 1 0 0\n2 {other_form} 0 0 0\n");

    let (mut dock, empty) = (Dock::new(), Dock::new());
    let mut output = vec![0; wanted.len()];
    assert_eq!(dock.trace(&text, &mut output[1..]), Err(Refusal::TooShort));
    assert!(output.iter().all(|&byte| byte == 0) && dock.tables == empty.tables);
    assert_eq!(dock.trace(&text, &mut output), Ok(wanted.len()));
    assert_eq!(output, wanted.as_bytes());
    assert!(dock.tables == one_grant().tables && dock.store == one_grant().store);

    dock.tables[layout::TICKET_KIND_AT] = 5;
    assert_eq!(dock.trace(&text, &mut output), Err(Refusal::NotInOrder));
    let mut length = 1;
    let result = raw::trace(&mut dock.tables[1..], &mut dock.store[..], &text, &mut output, &mut length);
    assert_eq!((Refusal::from_number(result), length), (Some(Refusal::Length), 0));
}

#[test]
fn of_reports() {
    let mut dock = one_grant();
    let (mut scratch, mut output) = ([0; REPORT_SCRATCH], [0; REPORT_ROOM]);
    assert_eq!(dock.report(&mut scratch[1..], &mut output), Err(Refusal::Scratch));
    assert_eq!(dock.report(&mut scratch, &mut output[..1]), Err(Refusal::TooShort));
    assert!(dock.report(&mut scratch, &mut output).is_ok());
    let mut length = 1;
    let result = raw::report(&dock.tables[1..], &mut scratch, &mut output, &mut length);
    assert_eq!((Refusal::from_number(result), length), (Some(Refusal::Length), 0));
    dock.tables[layout::TICKET_KIND_AT] = 5;
    assert_eq!(dock.report(&mut scratch, &mut output), Err(Refusal::NotInOrder));
}

#[test]
fn of_saved_tables() {
    let mut dock = one_grant();
    let mut output = [0; SAVED_ROOM];
    assert_eq!(dock.save(&mut output[..1]), Err(Refusal::TooShort));
    let length = dock.save(&mut output).expect("tables in order");
    let mut number = 1;
    let result = raw::save(&dock.tables[1..], &mut output, &mut number);
    assert_eq!((Refusal::from_number(result), number), (Some(Refusal::Length), 0));
    let short = raw::load(&mut dock.tables[1..], &output[..length]);
    assert_eq!(Refusal::from_number(short), Some(Refusal::Length));
    assert_eq!(dock.clone().load(&output[..length - 1]), Err(Refusal::BadText));
    // Without its last line, which is the entry of the taken grant.
    let entry = output[..length - 1].iter().rposition(|&byte| byte == b'\n').expect("lines");
    assert_eq!(dock.clone().load(&output[..=entry]), Err(Refusal::NotInOrder));
    assert_eq!(dock.load(&output[..length]), Ok(()));
    dock.tables[layout::TICKET_KIND_AT] = 5;
    assert_eq!(dock.save(&mut output), Err(Refusal::NotInOrder));
}
