//! The dock's command line: it reads files, calls one routine of the proved library, writes what that wrote, drawn by `tree`, and
//! says in words what was refused. It holds no rule of its own.

mod arguments;
mod commands;
mod failure;
mod files;
mod help;
mod report;
mod svg;
mod tree;

use failure::Failure;
use std::{
    env,
    io::{self, Write},
    process::ExitCode,
};

fn main() -> ExitCode {
    match run() {
        Ok(()) => ExitCode::SUCCESS,
        Err(failure) => {
            // Where standard error can't be written either, the status still says it.
            let _ = writeln!(io::stderr(), "dock: {failure}");
            ExitCode::from(failure.status())
        }
    }
}

fn run() -> Result<(), Failure> {
    let mut words = env::args_os().skip(1);
    let command = words.next().ok_or_else(|| Failure::usage("no command"))?;
    let words: Vec<_> = words.collect();
    match command.to_str() {
        Some("--help" | "-h" | "help") => help::show(&words),
        Some("--version" | "-V") => help::version(),
        Some(name) if words.iter().any(|word| word == "--help") => help::of(name),
        Some("trace") => commands::trace(words),
        Some("check") => commands::check(words),
        Some("report") => commands::report(words),
        Some("tree") => commands::tree(words),
        Some("save") => commands::save(words),
        Some("load") => commands::load(words),
        _ => Err(Failure::usage(format!("no command {}", command.display()))),
    }
}
