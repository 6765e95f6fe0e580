//! What the commands say of themselves.

use crate::{failure::Failure, files};
use std::ffi::OsString;

const COMMANDS: &str = "\
dock: tickets between the ward pads and the dock's ink store

  dock trace [FROM] [--save FILE]                          answer a text of requests
  dock check [FROM] PAD PROGRAM NUMBER SHEET RIGHT         the dock's own check of one sheet
  dock report [FROM]                                       who can read what
  dock tree [FROM] [--svg]                                 the same for the eye
  dock save [FROM]                                         the tables as text, for another dock
  dock load [FILE]                                         does a text of tables load?
  dock help [COMMAND]                                      this, or a command's columns and an example
  dock --version

FROM is the dock to start from:
  --trace FILE    the dock that these requests leave, from an emptied one ('-': standard input)
  --tables FILE   a dock with these saved tables, and a store of zeros ('-': standard input)
  (nothing)       an emptied dock

Exit status: 0, or the number of the refusal, which standard error then says in words;
125 for wrong usage and for files that can't be read or written.
";

const TRACE: &str = "\
dock trace [FROM] [--save FILE] <requests >answers

Reads requests, a line for each under the names
  pad program op ticket topad toprogram first count rights fill
and writes answers, a line for each under the names
  line result ticket recipient byte

  op        1 take, 2 pass, 3 recall, 4 give back, 5 read, 6 write; fields that it does not use are 0
  fill      the byte that a write fills its sheet with
  result    0, or the number of the refusal
  ticket, recipient    the new numbers that asker and recipient got
  byte      the first byte of the sheet that an accepted read brought

  --save    the tables that are left go to FILE, as `dock save` writes them

A take uses the smallest free run of sheets that is long enough, the lowest one among equals, from its
lowest sheet; `dock report` and `dock tree` tell where. A text of more than 65536 bytes or with other names
is answered by the line 0 15 0 0 0 alone.

Example, a program that takes four sheets with all rights, and writes on the second:
  { echo 'pad program op ticket topad toprogram first count rights fill'
    echo '0 0 1 0 0 0 0 4 7 0'
    echo '0 0 6 1 0 0 1 0 0 65'; } | dock trace
";

const CHECK: &str = "\
dock check [FROM] PAD PROGRAM NUMBER SHEET RIGHT

May the bearer of the dock name PAD PROGRAM NUMBER use this sheet of the store by this right?
Prints nothing; the exit status is the answer.

  SHEET     0 to 255, counted in the store
  RIGHT     1 read, 2 write
  status    0 yes; 3 no such sheet or right; 12 no entry of that name; 6 a sheet that the entry has not;
            7 a right that it has not

Example, whether the ticket 1 of program 0 on pad 0 may read sheet 3 after the requests of a file:
  dock check --trace requests 0 0 1 3 1
";

const REPORT: &str = "\
dock report [FROM]

Writes a line for each grant that the dock lets through, under the names
  depth pad program ticket first count rights
and a last line with the sheets taken and the sheets free.

  depth     0 for a grant taken from the store, one more for each loan
  pad, program, ticket    who has it, and its number there
  first, count    its sheets, counted in the store
  rights    1 read, 2 write, 4 pass on, added together

Taken grants come by pad, program and number. Behind each stand its loans, by the numbers of their
recalls, and behind each loan its own. A loan that was recalled is left out, with what was lent on from it,
also where its pad has not heard of it yet.

Example, who can read what after the requests of a file:
  dock report --trace requests
";

const TREE: &str = "\
dock tree [FROM] [--svg]

Draws the report: the loans as a tree, and a map of the 256 sheets.

  pad/program/ticket    who has it, and its number there; a taken grant behind its letter
  sheets    a sheet of the store, or the first and the last of several
  rights    r read, w write, p pass on, - for what is missing
  map       16 sheets to a line, the letter of the taken grant or a dot for a free sheet
  --svg     the same as an SVG picture

Letters are A to Z, a to z, 0 to 9, and then from A again.

Example, a picture of the dock after the requests of a file:
  dock tree --svg --trace requests >ward.svg
";

const SAVE: &str = "\
dock save [FROM]

Writes the tables as text, without the store, under the names
  kind pad program number own opad oprogram onumber first count rights

  kind      0 a program: its last number given is number; 1 a taken grant, 2 a received one, 3 a child;
            4 a recall; 5 an entry of the dock
  pad, program, number    its name
  own       of a recall, the number of the grant that it stands under
  opad, oprogram, onumber    a child's parent, a recall's target, an entry's parent; 0 0 0 is the store
  first, count, rights    of a grant or an entry: its sheets, counted in the store, and its rights

Lines stand by kind, pad, program and number. What a kind does not use is 0.

Example, the tables after the requests of a file, and who can read what in a dock that has them:
  dock save --trace requests >tables
  dock report --tables tables
";

const LOAD: &str = "\
dock load [FILE]

Does this text of tables load? Without FILE it is read from standard input. Prints nothing; the exit
status is the answer.

  status    0 yes, and `dock save` would write the same bytes; 18 the text has another form or order;
            14 its tables are not in order

Example:
  dock save --trace requests | dock load
";

fn text(command: &str) -> Option<&'static str> {
    match command {
        "trace" => Some(TRACE),
        "check" => Some(CHECK),
        "report" => Some(REPORT),
        "tree" => Some(TREE),
        "save" => Some(SAVE),
        "load" => Some(LOAD),
        "help" => Some(COMMANDS),
        _ => None,
    }
}

/// A command's usage, columns and example.
pub fn of(command: &str) -> Result<(), Failure> {
    let text = text(command).ok_or_else(|| Failure::usage(format!("no command {command}")))?;
    files::write(text.as_bytes())
}

/// `dock help [COMMAND]`
pub fn show(words: &[OsString]) -> Result<(), Failure> {
    match words {
        [command, ..] if command != "--help" => of(&command.to_string_lossy()),
        _ => files::write(COMMANDS.as_bytes()),
    }
}

/// `dock --version`
pub fn version() -> Result<(), Failure> {
    let number = dock::raw::version();
    let words = format!("dock {}.{}.{}\n", number / 10_000, number / 100 % 100, number % 100);
    files::write(words.as_bytes())
}
