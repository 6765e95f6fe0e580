//! Why a command did not do what it was asked to.

use dock::Refusal;
use std::{fmt, io, path::Path};

pub enum Failure {
    /// The library, or the trace of `--trace`, refused; the number is the exit status.
    Refused(Refusal),
    /// Wrong words on the command line.
    Usage(String),
    /// A file, standard input or standard output failed.
    File(String),
}

/// The status of everything that is no refusal.
const OTHER: u8 = 125;

impl Failure {
    pub fn usage(why: impl Into<String>) -> Self {
        Failure::Usage(why.into())
    }

    pub fn file(path: &Path, why: io::Error) -> Self {
        Failure::File(format!("{}: {why}", path.display()))
    }

    pub fn writing(why: io::Error) -> Self {
        Failure::File(format!("standard output: {why}"))
    }

    pub fn status(&self) -> u8 {
        match self {
            Failure::Refused(refusal) => u8::try_from(refusal.number()).unwrap_or(OTHER),
            Failure::Usage(_) | Failure::File(_) => OTHER,
        }
    }
}

impl From<Refusal> for Failure {
    fn from(refusal: Refusal) -> Self {
        Failure::Refused(refusal)
    }
}

impl fmt::Display for Failure {
    fn fmt(&self, f: &mut fmt::Formatter) -> fmt::Result {
        match self {
            Failure::Refused(refusal) => write!(f, "{}: {refusal}", refusal.number()),
            Failure::Usage(why) => write!(f, "{why}; `dock --help` says what there is"),
            Failure::File(why) => f.write_str(why),
        }
    }
}
