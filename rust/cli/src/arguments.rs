//! The words of a command: FROM, the tables that it starts from, and numbers.

use crate::{failure::Failure, files};
use dock::{Dock, Refusal, SAVED_ROOM, TRACE_INPUT, TRACE_ROOM};
use std::{
    ffi::OsString,
    path::{Path, PathBuf},
};

/// No text of tables in form is longer: names, 32 programs, 256 tickets and 256 entries, each line at most as long as the names'.
const TABLES_TEXT: usize = 545 * 69;

/// The words behind a command, FROM taken out.
pub struct Arguments {
    trace: Option<PathBuf>,
    tables: Option<PathBuf>,
    pub rest: Vec<OsString>,
}

impl Arguments {
    pub fn of(mut words: Vec<OsString>) -> Result<Self, Failure> {
        let (trace, tables) = (file(&mut words, "--trace")?, file(&mut words, "--tables")?);
        if trace.is_some() && tables.is_some() {
            return Err(Failure::usage("--trace and --tables are two starts"));
        }
        match words.iter().find(|word| word.as_encoded_bytes().starts_with(b"--")) {
            Some(word) => Err(Failure::usage(format!("no option {}", word.display()))),
            None => Ok(Arguments { trace, tables, rest: words }),
        }
    }

    /// Does FROM read standard input?
    pub fn reads_standard_input(&self) -> bool {
        self.trace.iter().chain(&self.tables).any(|path| path.as_os_str() == "-")
    }

    /// FROM: the dock that the trace of a file leaves, one with a file's tables and a store of zeros, or an emptied one.
    pub fn dock(&self) -> Result<Dock, Failure> {
        let mut dock = Dock::new();
        if let Some(path) = &self.trace {
            let answers = traced(&mut dock, &files::read(path, TRACE_INPUT)?)?;
            if is_refused_whole(&answers) {
                return Err(Refusal::OtherForm.into());
            }
        }
        if let Some(path) = &self.tables {
            load(&mut dock, path)?;
        }
        Ok(dock)
    }
}

/// Takes an option with its file out of the words.
pub fn file(words: &mut Vec<OsString>, option: &str) -> Result<Option<PathBuf>, Failure> {
    let Some(at) = words.iter().position(|word| word == option) else { return Ok(None) };
    words.remove(at);
    if at == words.len() {
        return Err(Failure::usage(format!("{option} wants a file")));
    }
    let file = words.remove(at);
    if words.iter().any(|word| word == option) {
        return Err(Failure::usage(format!("{option} twice")));
    }
    Ok(Some(file.into()))
}

/// The trace of a text from this dock on, which it changes.
pub fn traced(dock: &mut Dock, text: &[u8]) -> Result<Vec<u8>, Failure> {
    let mut output = vec![0; TRACE_ROOM];
    let length = dock.trace(text, &mut output)?;
    output.truncate(length);
    Ok(output)
}

/// Loads a file's tables into this dock.
pub fn load(dock: &mut Dock, path: &Path) -> Result<(), Failure> {
    Ok(dock.load(&files::read(path, TABLES_TEXT)?)?)
}

/// The tables of this dock as text.
pub fn saved(dock: &Dock) -> Result<Vec<u8>, Failure> {
    let mut output = vec![0; SAVED_ROOM];
    let length = dock.save(&mut output)?;
    output.truncate(length);
    Ok(output)
}

/// Lines are numbered from 1; line 0 is the trace's word for a text with wrong names or too long.
fn is_refused_whole(answers: &[u8]) -> bool {
    answers.split(|&byte| byte == b'\n').nth(1).is_some_and(|line| line.starts_with(b"0 "))
}

/// A number as the library takes it, 0 to 65,535.
pub fn number(what: &str, word: &OsString) -> Result<u16, Failure> {
    word.to_str()
        .filter(|text| text.bytes().all(|byte| byte.is_ascii_digit()))
        .and_then(|text| text.parse().ok())
        .ok_or_else(|| Failure::usage(format!("{what} is no number from 0 to 65535: {}", word.display())))
}
