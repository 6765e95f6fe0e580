//! The dock's proved library, as a Rust host uses it.
//!
//! `Dock` holds the tables and the store and serves requests; `raw` are the library's calls over slices of
//! any length, which are answered with 13 where a length is wrong. include/dock.h, at its top, says what a
//! host guarantees and what a call that does not run to its end leaves behind.

mod refusal;

pub use refusal::Refusal;

/// The version that this binding was written for: major * 10000 + minor * 100 + patch.
pub const VERSION: u32 = 50_000;

/// Bytes of the tables' image.
pub const TABLES: usize = 11_328;
/// Bytes of the store: 256 sheets.
pub const STORE: usize = 256 * SHEET;
/// Bytes of a sheet.
pub const SHEET: usize = 64;
/// Numbers of a request and of an answer.
pub const REQUEST: usize = 9;
pub const ANSWER: usize = 3;
/// Bytes that every trace fits into, and bytes of the longest input that is not refused whole.
pub const TRACE_ROOM: usize = 983_074;
pub const TRACE_INPUT: usize = 65_536;
/// Bytes that every report fits into, and bytes of its scratch: one bit for each ticket place.
pub const REPORT_ROOM: usize = 6_196;
pub const REPORT_SCRATCH: usize = 32;
/// Bytes that every saved text fits into.
pub const SAVED_ROOM: usize = 18_309;
/// Bytes of stack that a call may take, a report and a trace: measured, not proved.
pub const STACK: usize = 32_768;
pub const REPORT_STACK: usize = 49_152;
pub const TRACE_STACK: usize = 65_536;

/// Where everything stands in the tables' image, in bytes; include/dock.h has the table.
pub mod layout {
    pub const PROGRAM_SIZE: usize = 194;
    pub const TICKET_SIZE: usize = 24;
    pub const LAST_AT: usize = 192;
    pub const ENTRIES_AT: usize = 6208;
    pub const ENTRY_SIZE: usize = 20;

    /// In a ticket.
    pub const TICKET_KIND_AT: usize = 0;
    pub const TICKET_NUMBER_AT: usize = 2;
    pub const TICKET_OWN_AT: usize = 4;
    pub const TICKET_OTHER_AT: usize = 6;
    pub const TICKET_FIRST_AT: usize = 12;
    pub const TICKET_COUNT_AT: usize = 14;
    pub const TICKET_RIGHTS_AT: usize = 16;
    pub const TICKET_DOCK_AT: usize = 18;

    /// In an entry.
    pub const ENTRY_LIVE_AT: usize = 0;
    pub const ENTRY_NAME_AT: usize = 2;
    pub const ENTRY_PARENT_AT: usize = 8;
    pub const ENTRY_FIRST_AT: usize = 14;
    pub const ENTRY_COUNT_AT: usize = 16;
    pub const ENTRY_RIGHTS_AT: usize = 18;
}

/// The operations of a request.
pub const TAKE: u16 = 1;
pub const PASS: u16 = 2;
pub const RECALL: u16 = 3;
pub const GIVE_BACK: u16 = 4;
pub const READ: u16 = 5;
pub const WRITE: u16 = 6;

/// Rights are added together. Which of them lie within which is the rights chart, in `dock.h`.
pub mod rights {
    pub const READ: u16 = 1;
    pub const WRITE: u16 = 2;
    pub const PASS_ON: u16 = 4;
    pub const ALL: u16 = READ | WRITE | PASS_ON;
}

/// A request's nine numbers, in the library's order.
#[repr(C)]
#[derive(Clone, Copy, Debug, Default, PartialEq, Eq)]
pub struct Request {
    pub pad: u16,
    pub program: u16,
    pub op: u16,
    pub ticket: u16,
    pub topad: u16,
    pub toprogram: u16,
    pub first: u16,
    pub count: u16,
    pub rights: u16,
}

impl Request {
    /// Takes `count` sheets from the store: of the smallest free run that is long enough, the lowest one among
    /// equals, from its lowest sheet. A free run is one that can't be made longer.
    pub fn take(pad: u16, program: u16, count: u16, rights: u16) -> Self {
        Request { pad, program, op: TAKE, count, rights, ..Request::default() }
    }

    /// Passes a part of the ticket's sheets, a run (first, count) counted from the ticket's first sheet, to
    /// another program (pad, program).
    pub fn pass(pad: u16, program: u16, ticket: u16, to: (u16, u16), run: (u16, u16), rights: u16) -> Self {
        let ((topad, toprogram), (first, count)) = (to, run);
        Request { pad, program, op: PASS, ticket, topad, toprogram, first, count, rights }
    }

    /// Takes back what the recall `ticket` stands for, and all that was lent on from there.
    pub fn recall(pad: u16, program: u16, ticket: u16) -> Self {
        Request { pad, program, op: RECALL, ticket, ..Request::default() }
    }

    /// Gives taken sheets back to the store.
    pub fn give_back(pad: u16, program: u16, ticket: u16) -> Self {
        Request { pad, program, op: GIVE_BACK, ticket, ..Request::default() }
    }

    /// Reads the ticket's sheet `first` into the sheet buffer.
    pub fn read(pad: u16, program: u16, ticket: u16, first: u16) -> Self {
        Request { pad, program, op: READ, ticket, first, ..Request::default() }
    }

    /// Writes the sheet buffer into the ticket's sheet `first`.
    pub fn write(pad: u16, program: u16, ticket: u16, first: u16) -> Self {
        Request { pad, program, op: WRITE, ticket, first, ..Request::default() }
    }
}

/// The result (0 or a refusal), the asker's new number, the recipient's; 0 where there is none.
#[repr(C)]
#[derive(Clone, Copy, Debug, Default, PartialEq, Eq)]
pub struct Answer {
    pub result: u16,
    pub ticket: u16,
    pub recipient: u16,
}

impl Answer {
    pub fn accepted(&self) -> bool {
        self.result == 0
    }

    /// Why the request was refused; nothing where it was accepted.
    pub fn refusal(&self) -> Option<Refusal> {
        Refusal::from_number(self.result)
    }
}

/// Tables and store. A host may keep and restore them; tables that it changed itself may be out of order,
/// and then every request is refused with 14.
#[derive(Clone)]
pub struct Dock {
    pub tables: Box<[u8; TABLES]>,
    pub store: Box<[u8; STORE]>,
}

impl Default for Dock {
    fn default() -> Self {
        Dock::new()
    }
}

impl Dock {
    /// An emptied dock. Panics where the library has another major version than this binding.
    pub fn new() -> Self {
        assert_eq!(raw::version() / 10_000, VERSION / 10_000, "the library has another major version");
        assert_eq!(raw::tables_length(), TABLES, "the library has tables of another length");
        let mut dock = Dock { tables: Box::new([0; TABLES]), store: Box::new([0; STORE]) };
        dock.start();
        dock
    }

    /// Empties the dock.
    pub fn start(&mut self) {
        raw::empty(&mut self.tables[..], &mut self.store[..]);
    }

    /// Serves one request. A read fills the sheet, a write takes its bytes from there.
    pub fn ask(&mut self, request: &Request, sheet: &mut [u8; SHEET]) -> Answer {
        let mut answer = Answer::default();
        // On 13 and 14 the library writes no answer; its result is then the whole of it.
        answer.result = raw::step(
            &mut self.tables[..],
            &mut self.store[..],
            sheet,
            ffi::requests(std::slice::from_ref(request)),
            ffi::answers(std::slice::from_mut(&mut answer)),
        );
        answer
    }

    /// Serves requests one after the other, each with its own sheet and answer. Refused as a whole where the
    /// three lengths differ, or where the tables are not in order: then nothing was served and no answer
    /// written.
    pub fn ask_all(
        &mut self,
        requests: &[Request],
        sheets: &mut [[u8; SHEET]],
        answers: &mut [Answer],
    ) -> Result<(), Refusal> {
        Refusal::of_result(raw::serve(
            &mut self.tables[..],
            &mut self.store[..],
            sheets.as_flattened_mut(),
            ffi::requests(requests),
            ffi::answers(answers),
        ))
    }

    /// The dock's own check: whether the entry named (pad, program, number) has this sheet of the store with
    /// this right, read or write.
    pub fn check(&self, name: (u16, u16, u16), sheet: u16, right: u16) -> Result<(), Refusal> {
        Refusal::of_result(raw::check(&self.tables[..], name, sheet, right))
    }

    /// Answers a text of requests, line by line, from this dock on: the trace program's texts. The length of
    /// what was written comes back. Refused where the output is too short for the whole trace, or the tables
    /// are not in order: then nothing changes.
    pub fn trace(&mut self, input: &[u8], output: &mut [u8]) -> Result<usize, Refusal> {
        let mut length = 0;
        let result = raw::trace(&mut self.tables[..], &mut self.store[..], input, output, &mut length);
        Refusal::of_result(result).map(|()| length)
    }

    /// Writes the ward report: every grant that the dock lets through, each taken one with its loans behind it.
    /// The length of what was written comes back. Refused where the tables are not in order, where the scratch
    /// has not `REPORT_SCRATCH` bytes, or where the output is too short for the whole report: then the output
    /// stays as it was. The scratch may hold anything before and holds zeros afterwards, also where refused.
    pub fn report(&self, scratch: &mut [u8], output: &mut [u8]) -> Result<usize, Refusal> {
        let mut length = 0;
        let result = raw::report(&self.tables[..], scratch, output, &mut length);
        Refusal::of_result(result).map(|()| length)
    }

    /// Saves the tables as text, without the store. The length of what was written comes back. Refused where the
    /// tables are not in order, or where the output is too short for the whole text: then the output stays as it
    /// was.
    pub fn save(&self, output: &mut [u8]) -> Result<usize, Refusal> {
        let mut length = 0;
        let result = raw::save(&self.tables[..], output, &mut length);
        Refusal::of_result(result).map(|()| length)
    }

    /// Loads the tables from a saved text; the store stays as it is, and whoever swaps docks carries it over.
    /// Refused where the text has another form or order, or where its tables are not in order: then the tables
    /// are emptied.
    pub fn load(&mut self, text: &[u8]) -> Result<(), Refusal> {
        Refusal::of_result(raw::load(&mut self.tables[..], text))
    }

    /// Whether the tables are in order: else `Refusal::NotInOrder`.
    pub fn in_order(&self) -> Result<(), Refusal> {
        Refusal::of_result(raw::in_order(&self.tables[..]))
    }
}

/// The library's calls as they are. Slices of any length may be passed.
pub mod raw {
    use super::ffi;

    pub fn tables_length() -> usize {
        // SAFETY: the function reads no memory of the caller's.
        unsafe { ffi::dock_tables_length() }
    }

    pub fn version() -> u32 {
        // SAFETY: the function reads no memory of the caller's.
        unsafe { ffi::dock_version() }
    }

    pub fn empty(tables: &mut [u8], store: &mut [u8]) -> u16 {
        // SAFETY: each pointer is valid for its length, and exclusive borrows don't overlap.
        unsafe { ffi::dock_empty(tables.as_mut_ptr(), tables.len(), store.as_mut_ptr(), store.len()) }
    }

    pub fn step(
        tables: &mut [u8],
        store: &mut [u8],
        sheet: &mut [u8],
        request: &[u16],
        answer: &mut [u16],
    ) -> u16 {
        // SAFETY: each pointer is valid for its length, and exclusive borrows overlap nothing.
        unsafe {
            ffi::dock_step(
                tables.as_mut_ptr(),
                tables.len(),
                store.as_mut_ptr(),
                store.len(),
                sheet.as_mut_ptr(),
                sheet.len(),
                request.as_ptr(),
                request.len(),
                answer.as_mut_ptr(),
                answer.len(),
            )
        }
    }

    pub fn serve(
        tables: &mut [u8],
        store: &mut [u8],
        sheets: &mut [u8],
        requests: &[u16],
        answers: &mut [u16],
    ) -> u16 {
        // SAFETY: each pointer is valid for its length, and exclusive borrows overlap nothing.
        unsafe {
            ffi::dock_serve(
                tables.as_mut_ptr(),
                tables.len(),
                store.as_mut_ptr(),
                store.len(),
                sheets.as_mut_ptr(),
                sheets.len(),
                requests.as_ptr(),
                requests.len(),
                answers.as_mut_ptr(),
                answers.len(),
            )
        }
    }

    pub fn check(tables: &[u8], name: (u16, u16, u16), sheet: u16, right: u16) -> u16 {
        let (pad, program, number) = name;
        // SAFETY: the pointer is valid for its length, and the call only reads.
        unsafe { ffi::dock_check(tables.as_ptr(), tables.len(), pad, program, number, sheet, right) }
    }

    pub fn in_order(tables: &[u8]) -> u16 {
        // SAFETY: the pointer is valid for its length, and the call only reads.
        unsafe { ffi::dock_in_order(tables.as_ptr(), tables.len()) }
    }

    pub fn trace(
        tables: &mut [u8],
        store: &mut [u8],
        input: &[u8],
        output: &mut [u8],
        length: &mut usize,
    ) -> u16 {
        // SAFETY: each pointer is valid for its length, and exclusive borrows overlap nothing.
        unsafe {
            ffi::dock_trace(
                tables.as_mut_ptr(),
                tables.len(),
                store.as_mut_ptr(),
                store.len(),
                input.as_ptr(),
                input.len(),
                output.as_mut_ptr(),
                output.len(),
                length,
            )
        }
    }

    pub fn report(tables: &[u8], scratch: &mut [u8], output: &mut [u8], length: &mut usize) -> u16 {
        // SAFETY: each pointer is valid for its length, and exclusive borrows overlap nothing.
        unsafe {
            ffi::dock_report(
                tables.as_ptr(),
                tables.len(),
                scratch.as_mut_ptr(),
                scratch.len(),
                output.as_mut_ptr(),
                output.len(),
                length,
            )
        }
    }

    pub fn save(tables: &[u8], output: &mut [u8], length: &mut usize) -> u16 {
        // SAFETY: each pointer is valid for its length, and exclusive borrows overlap nothing.
        unsafe { ffi::dock_save(tables.as_ptr(), tables.len(), output.as_mut_ptr(), output.len(), length) }
    }

    pub fn load(tables: &mut [u8], text: &[u8]) -> u16 {
        // SAFETY: each pointer is valid for its length, and the exclusive borrow overlaps nothing.
        unsafe { ffi::dock_load(tables.as_mut_ptr(), tables.len(), text.as_ptr(), text.len()) }
    }
}

mod ffi {
    use super::{Answer, Request};
    use std::slice::{from_raw_parts, from_raw_parts_mut};

    /// The numbers of requests, nine for each.
    pub fn requests(requests: &[Request]) -> &[u16] {
        // SAFETY: a `Request` is nine u16 in C's layout, without padding.
        unsafe { from_raw_parts(requests.as_ptr().cast(), requests.len() * super::REQUEST) }
    }

    /// The numbers of answers, three for each.
    pub fn answers(answers: &mut [Answer]) -> &mut [u16] {
        // SAFETY: an `Answer` is three u16 in C's layout, without padding, and any u16 is one of its numbers.
        unsafe { from_raw_parts_mut(answers.as_mut_ptr().cast(), answers.len() * super::ANSWER) }
    }

    extern "C" {
        pub fn dock_tables_length() -> usize;
        pub fn dock_empty(tables: *mut u8, tables_length: usize, store: *mut u8, store_length: usize) -> u16;
        pub fn dock_step(
            tables: *mut u8,
            tables_length: usize,
            store: *mut u8,
            store_length: usize,
            sheet: *mut u8,
            sheet_length: usize,
            request: *const u16,
            request_length: usize,
            answer: *mut u16,
            answer_length: usize,
        ) -> u16;
        pub fn dock_serve(
            tables: *mut u8,
            tables_length: usize,
            store: *mut u8,
            store_length: usize,
            sheets: *mut u8,
            sheets_length: usize,
            requests: *const u16,
            requests_length: usize,
            answers: *mut u16,
            answers_length: usize,
        ) -> u16;
        pub fn dock_check(
            tables: *const u8,
            tables_length: usize,
            pad: u16,
            program: u16,
            number: u16,
            sheet: u16,
            right: u16,
        ) -> u16;
        pub fn dock_in_order(tables: *const u8, tables_length: usize) -> u16;
        pub fn dock_trace(
            tables: *mut u8,
            tables_length: usize,
            store: *mut u8,
            store_length: usize,
            input: *const u8,
            input_length: usize,
            output: *mut u8,
            output_length: usize,
            length: *mut usize,
        ) -> u16;
        pub fn dock_report(
            tables: *const u8,
            tables_length: usize,
            scratch: *mut u8,
            scratch_length: usize,
            output: *mut u8,
            output_length: usize,
            length: *mut usize,
        ) -> u16;
        pub fn dock_save(
            tables: *const u8,
            tables_length: usize,
            output: *mut u8,
            output_length: usize,
            length: *mut usize,
        ) -> u16;
        pub fn dock_load(tables: *mut u8, tables_length: usize, text: *const u8, text_length: usize) -> u16;
        pub fn dock_version() -> u32;
    }
}
