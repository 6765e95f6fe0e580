//! The ward's story: a sheet is lent from program to program and from pad to pad, until it is recalled.
//! Prints what the trace program prints for the same requests.

use dock::{rights, Answer, Dock, Refusal, Request, READ, SHEET};

/// A dock, and the lines printed so far.
struct Ward {
    dock: Dock,
    line: u32,
}

impl Ward {
    /// Serves a request whose sheet buffer holds `fill`, and prints its line.
    fn ask(&mut self, request: Request, fill: u8) -> Answer {
        let mut sheet = [fill; SHEET];
        let answer = self.dock.ask(&request, &mut sheet);
        let byte = if request.op == READ && answer.accepted() {
            sheet[0]
        } else {
            0
        };
        self.line += 1;
        println!(
            "{} {} {} {} {byte}",
            self.line, answer.result, answer.ticket, answer.recipient
        );
        answer
    }
}

fn main() {
    let mut ward = Ward {
        dock: Dock::new(),
        line: 0,
    };
    println!("line result ticket recipient byte");

    // Program 0 of pad 0 takes four sheets and writes the first one.
    let own = ward.ask(Request::take(0, 0, 4, rights::ALL), 0).ticket;
    ward.ask(Request::write(0, 0, own, 0), b'A');

    // It lends two of them to program 1 beside it, to read and to pass on: the dock isn't told.
    let near = ward.ask(
        Request::pass(0, 0, own, (0, 1), (0, 2), rights::READ + rights::PASS_ON),
        0,
    );
    ward.ask(Request::read(0, 1, near.recipient, 0), 0);
    let refused = ward.ask(Request::write(0, 1, near.recipient, 0), b'B');
    assert_eq!(refused.refusal(), Some(Refusal::RightLacking));

    // That one lends a sheet on to program 0 of pad 1: the dock makes an entry, and the same limits hold there.
    let on = ward.ask(
        Request::pass(0, 1, near.recipient, (1, 0), (0, 1), rights::READ),
        0,
    );
    ward.ask(Request::read(1, 0, on.recipient, 0), 0);
    ward.ask(Request::write(1, 0, on.recipient, 0), b'B');
    let refused = ward.ask(Request::read(1, 0, on.recipient, 1), 0);
    assert_eq!(refused.refusal(), Some(Refusal::Beyond));

    // Program 0 of pad 0 lends a sheet to pad 2 and recalls it. Pad 2 learns at its next use and drops the grant.
    let far = ward.ask(Request::pass(0, 0, own, (2, 0), (2, 1), rights::READ), 0);
    ward.ask(Request::read(2, 0, far.recipient, 0), 0);
    ward.ask(Request::recall(0, 0, far.ticket), 0);
    let stale = ward.ask(Request::read(2, 0, far.recipient, 0), 0);
    assert_eq!(stale.refusal(), Some(Refusal::NoEntry));
    let dropped = ward.ask(Request::read(2, 0, far.recipient, 0), 0);
    assert_eq!(dropped.refusal(), Some(Refusal::NoTicket));

    // It recalls the loan on its own pad. That goes at once, and what was lent on from it ends with it.
    ward.ask(Request::recall(0, 0, near.ticket), 0);
    let gone = ward.ask(Request::read(0, 1, near.recipient, 0), 0);
    assert_eq!(gone.refusal(), Some(Refusal::NoTicket));
    let ended = ward.ask(Request::read(1, 0, on.recipient, 0), 0);
    assert_eq!(ended.refusal(), Some(Refusal::NoEntry));
    ward.ask(Request::read(1, 0, on.recipient, 0), 0);
    ward.ask(Request::give_back(0, 0, own), 0);

    // The next one to take these sheets finds zeros.
    let next = ward.ask(Request::take(2, 3, 4, rights::ALL), 0).ticket;
    ward.ask(Request::read(2, 3, next, 0), 0);
}
