//! The commands, each over one routine of the library.

use crate::{
    arguments::{self, number, saved, traced, Arguments},
    failure::Failure,
    files,
    report::Report,
    svg, tree,
};
use dock::{Dock, REPORT_ROOM, REPORT_SCRATCH, TRACE_INPUT};
use std::{ffi::OsString, path::Path};

/// `dock trace [FROM] [--save FILE]`: requests on standard input, answers on standard output.
pub fn trace(mut words: Vec<OsString>) -> Result<(), Failure> {
    let save = arguments::file(&mut words, "--save")?;
    if save.as_ref().is_some_and(|path| path.as_os_str() == "-") {
        return Err(Failure::usage("--save wants a file: standard output has the answers"));
    }
    let arguments = Arguments::of(words)?;
    if let Some(word) = arguments.rest.first() {
        return Err(Failure::usage(format!("trace reads standard input and takes no {}", word.display())));
    }
    if arguments.reads_standard_input() {
        return Err(Failure::usage("standard input can't be both the start and the requests"));
    }
    let mut dock = arguments.dock()?;
    let requests = files::read(Path::new("-"), TRACE_INPUT)?;
    let answers = traced(&mut dock, &requests)?;
    if let Some(path) = save {
        files::write_to(&path, &saved(&dock)?)?;
    }
    files::write(&answers)
}

/// `dock check [FROM] PAD PROGRAM NUMBER SHEET RIGHT`: the dock's own check.
pub fn check(words: Vec<OsString>) -> Result<(), Failure> {
    let arguments = Arguments::of(words)?;
    let [pad, program, ticket, sheet, right] = arguments.rest.as_slice() else {
        return Err(Failure::usage("check wants PAD PROGRAM NUMBER SHEET RIGHT"));
    };
    let name = (number("PAD", pad)?, number("PROGRAM", program)?, number("NUMBER", ticket)?);
    let (sheet, right) = (number("SHEET", sheet)?, number("RIGHT", right)?);
    Ok(arguments.dock()?.check(name, sheet, right)?)
}

/// `dock report [FROM]`: the ward report.
pub fn report(words: Vec<OsString>) -> Result<(), Failure> {
    files::write(&reported("report", words)?)
}

/// `dock save [FROM]`: the tables as text.
pub fn save(words: Vec<OsString>) -> Result<(), Failure> {
    files::write(&saved(&from("save", words)?)?)
}

/// `dock load [FILE]`: whether a text of tables loads.
pub fn load(words: Vec<OsString>) -> Result<(), Failure> {
    match words.as_slice() {
        [] => arguments::load(&mut Dock::new(), Path::new("-")),
        [file] if !file.as_encoded_bytes().starts_with(b"--") => {
            arguments::load(&mut Dock::new(), Path::new(file))
        }
        _ => Err(Failure::usage("load wants no more than a FILE")),
    }
}

/// `dock tree [FROM] [--svg]`: the ward report, drawn.
pub fn tree(mut words: Vec<OsString>) -> Result<(), Failure> {
    let given = words.len();
    words.retain(|word| word != "--svg");
    let draw = match given - words.len() {
        0 => tree::text,
        1 => svg::picture,
        _ => return Err(Failure::usage("--svg twice")),
    };
    let text = String::from_utf8(reported("tree", words)?).expect("a report is text");
    files::write(draw(&Report::of(&text)).as_bytes())
}

/// The library's report of FROM.
fn reported(command: &str, words: Vec<OsString>) -> Result<Vec<u8>, Failure> {
    let mut output = vec![0; REPORT_ROOM];
    let length = from(command, words)?.report(&mut [0; REPORT_SCRATCH], &mut output)?;
    output.truncate(length);
    Ok(output)
}

/// FROM, for a command that takes nothing else.
fn from(command: &str, words: Vec<OsString>) -> Result<Dock, Failure> {
    let arguments = Arguments::of(words)?;
    match arguments.rest.first() {
        Some(word) => Err(Failure::usage(format!("{command} takes no {}", word.display()))),
        None => arguments.dock(),
    }
}
