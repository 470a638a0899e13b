//! ring: the bench from the shell. It is not proved; every step, start, listing, test for settled, verdict and record is asked
//! of the proved code through its driver. The first argument says how many words run the driver, which follow.

mod action;
mod args;
mod ask;
mod change;
mod check;
mod command;
mod csv;
mod desk;
mod draw;
mod driver;
mod faults;
mod fields;
mod file;
mod files;
mod form;
mod frames;
mod help;
mod json;
mod layout;
mod listing;
mod page;
mod parse;
mod picture;
mod plan;
mod play;
mod print;
mod refusals;
mod rules;
mod sha256;
mod sheet;
mod store;
mod survey;
mod table;
mod table_commands;
mod tell;
#[cfg(test)]
mod tests;
mod trouble;
mod try_commands;
mod turn;
mod water;
mod why;
mod words;

use args::Given;
use desk::Desk;
use std::ffi::OsString;
use std::io::{self, Write};
use std::process::ExitCode;
use trouble::Trouble;

fn main() -> ExitCode {
    let mut words: Vec<OsString> = std::env::args_os().skip(1).collect();
    let count = words.first().and_then(|word| word.to_str()).and_then(|word| word.parse::<usize>().ok());
    let Some(count) = count.filter(|count| *count < words.len()) else {
        return ended(Err(Trouble::Failed("run this program by bin/ring".to_string())));
    };
    let rest = words.split_off(1 + count);
    words.remove(0);
    ended(run(Desk::new(words), &rest))
}

/// Says what went wrong, and gives the status.
fn ended(outcome: Result<(), Trouble>) -> ExitCode {
    match outcome {
        Ok(()) => ExitCode::SUCCESS,
        Err(trouble) => {
            let said = trouble.to_string();
            if !said.is_empty() {
                writeln!(io::stderr(), "{said}").ok();
            }
            ExitCode::from(trouble.status())
        }
    }
}

fn run(mut desk: Desk, words: &[OsString]) -> Result<(), Trouble> {
    let Some((first, rest)) = words.split_first() else {
        return Err(Trouble::Misuse("", "a command is missing".to_string()));
    };
    let name = first.to_string_lossy();
    if let Some(text) = help::answer(&name, rest) {
        return files::print(text.as_bytes());
    }
    let Some(command) = command::named(&name) else {
        if let (true, Some(more)) = (name == "build", rest.first()) {
            return Err(Trouble::Misuse(
                "build",
                format!("{}: nothing more is expected", more.to_string_lossy()),
            ));
        }
        return Err(Trouble::Misuse("", format!("{name}: no command")));
    };
    let given = Given::read(command.name, command.options, rest)?;
    (command.run)(&mut desk, &given)
}
