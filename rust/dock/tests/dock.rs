//! The binding's own parts: batches through structs, and results that write no answer.

use dock::{rights, Answer, Dock, Refusal, Request, SHEET};

#[test]
fn a_batch_is_its_requests_one_by_one() {
    let requests = [
        Request::take(1, 2, 3, rights::ALL),
        Request::write(1, 2, 1, 2),
        Request::pass(1, 2, 1, (3, 4), (2, 1), rights::READ),
        Request::read(3, 4, 1, 0),
        Request::write(3, 4, 1, 0),
        Request::recall(1, 2, 2),
        Request::read(3, 4, 1, 0),
        Request::give_back(1, 2, 1),
    ];
    let (mut one_by_one, mut batch) = (Dock::new(), Dock::new());
    let mut single_sheets = [[9; SHEET]; 8];
    let single: Vec<Answer> = requests
        .iter()
        .zip(&mut single_sheets)
        .map(|(request, sheet)| one_by_one.ask(request, sheet))
        .collect();
    let refused: Vec<(usize, Refusal)> =
        single.iter().enumerate().filter_map(|(at, answer)| Some((at, answer.refusal()?))).collect();
    assert_eq!(refused, [(4, Refusal::RightLacking), (6, Refusal::NoEntry)]);
    assert_eq!(single[2], Answer { result: 0, ticket: 2, recipient: 1 });

    let (mut sheets, mut answers) = ([[9; SHEET]; 8], [Answer::default(); 8]);
    assert_eq!(batch.ask_all(&requests, &mut sheets, &mut answers), Ok(()));
    assert_eq!((answers.to_vec(), sheets), (single, single_sheets));
    assert!(batch.tables == one_by_one.tables && batch.store == one_by_one.store);
    assert!(answers.iter().all(|answer| answer.accepted() == answer.refusal().is_none()));
    assert_eq!(batch.ask_all(&requests, &mut sheets[1..], &mut answers), Err(Refusal::Length));
}

#[test]
fn checks_and_tables_out_of_order() {
    let (mut dock, mut sheet) = (Dock::new(), [0; SHEET]);
    assert_eq!(dock.ask(&Request::take(0, 0, 2, rights::READ), &mut sheet).ticket, 1);
    assert_eq!(dock.check((0, 0, 1), 1, rights::READ), Ok(()));
    assert_eq!(dock.check((0, 0, 1), 2, rights::READ), Err(Refusal::Beyond));
    assert_eq!(dock.check((0, 0, 1), 1, rights::WRITE), Err(Refusal::RightLacking));
    assert_eq!(dock.check((0, 0, 2), 1, rights::READ), Err(Refusal::NoEntry));
    assert_eq!(dock.in_order(), Ok(()));
    // No kind of ticket is 255.
    dock.tables[0] = 255;
    assert_eq!(dock.in_order(), Err(Refusal::NotInOrder));
    let answer = dock.ask(&Request::read(0, 0, 1, 0), &mut sheet);
    assert_eq!(answer, Answer { result: Refusal::NotInOrder.number(), ticket: 0, recipient: 0 });
    dock.start();
    assert_eq!(dock.in_order(), Ok(()));
    assert!(dock.tables == Dock::new().tables);
}
