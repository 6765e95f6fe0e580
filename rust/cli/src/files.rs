//! Texts in and out: files, standard input as `-`, standard output.

use crate::failure::Failure;
use std::{
    fs::{self, File},
    io::{self, Read, Write},
    path::Path,
};

/// A text from a file or from standard input. One byte past the longest that a routine takes is enough to have it refused there.
pub fn read(path: &Path, longest: usize) -> Result<Vec<u8>, Failure> {
    let mut text = Vec::new();
    let limit = longest as u64 + 1;
    let read = if path == Path::new("-") {
        io::stdin().take(limit).read_to_end(&mut text)
    } else {
        File::open(path).and_then(|file| file.take(limit).read_to_end(&mut text))
    };
    read.map(|_| text).map_err(|why| Failure::file(path, why))
}

pub fn write(text: &[u8]) -> Result<(), Failure> {
    let mut output = io::stdout();
    output.write_all(text).and_then(|()| output.flush()).map_err(Failure::writing)
}

/// A text into a file, in the place of what that held.
pub fn write_to(path: &Path, text: &[u8]) -> Result<(), Failure> {
    fs::write(path, text).map_err(|why| Failure::file(path, why))
}
