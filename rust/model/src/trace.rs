//! The trace program: a text of requests in, a text of answers out.

use crate::{text::numbers, Request, State, NUMBERS, SHEET};

pub const NAMES_IN: &str = "pad program op ticket topad toprogram first count rights fill";
const NAMES_OUT: &str = "line result ticket recipient byte";

/// A line's request and fill, or nothing where the line has another form.
fn request(line: &[u8]) -> Option<(Request, u8)> {
    let [request @ .., fill]: [u16; NUMBERS + 1] = numbers(line)?;
    let (request, fill) = (Request::from(request), u8::try_from(fill).ok()?);
    (fill == 0 || request.op == 6).then_some((request, fill))
}

/// The trace from this state and store on, which it changes.
pub fn trace(state: &mut State, store: &mut [u8], input: &[u8]) -> String {
    let mut output = format!("{NAMES_OUT}\n");
    let mut lines = input.split(|&byte| byte == b'\n');
    if input.len() > 65_536 || lines.next() != Some(NAMES_IN.as_bytes()) {
        return output + "0 15 0 0 0\n";
    }
    let mut lines: Vec<&[u8]> = lines.collect();
    // A byte 10 at the very end opens no further line.
    if input.ends_with(b"\n") {
        lines.pop();
    }
    for (index, line) in lines.iter().enumerate() {
        let number = index + 1;
        let Some((request, fill)) = request(line) else {
            output += &format!("{number} 15 0 0 0\n");
            continue;
        };
        let mut sheet = [fill; SHEET];
        let answer = state.step(store, &mut sheet, &request);
        let byte = if request.op == 5 && answer.result == 0 { sheet[0] } else { 0 };
        output += &format!("{number} {} {} {} {byte}\n", answer.result, answer.ticket, answer.recipient);
    }
    output
}
