//! The model as a program: a driver, a source of requests, a comparer and a judge of misreadings.

mod compare;
mod corpus;
mod frame;
mod names;
mod readings;
mod serve;
mod show;

use std::io;
use std::process::ExitCode;

const USAGE: &str = "usage:
  model serve [MISREADING]                answers requests on standard input until it ends
  model requests SEED COUNT [FROM]        writes requests to standard output, from the given one on
  model compare SEED COUNT -- CMD ARGS..  compares the driver CMD with the model
  model readings [SEED COUNT]             shows that requests tell each misreading apart
  model told SEED COUNT LEAST             counts the misreadings told apart, each by so many requests
  model told FILE                         the same of stored requests
  model corpus SEED COUNT STDIN STDOUT    chooses requests for the driver's corpus
";

fn main() -> ExitCode {
    let args: Vec<String> = std::env::args().skip(1).collect();
    let args: Vec<&str> = args.iter().map(String::as_str).collect();
    match run(&args) {
        Ok(true) => ExitCode::SUCCESS,
        Ok(false) => ExitCode::FAILURE,
        Err(error) => {
            eprintln!("model: {error}");
            ExitCode::from(2)
        }
    }
}

/// Whether all is well.
fn run(args: &[&str]) -> io::Result<bool> {
    match *args {
        ["serve"] => serve::serve(None).map(|()| true),
        ["serve", slip] => serve::serve(Some(slip)).map(|()| true),
        ["requests", seed, count] => serve::requests(number(seed)?, number(count)?, 0).map(|()| true),
        ["requests", seed, count, from] => {
            serve::requests(number(seed)?, number(count)?, number(from)?).map(|()| true)
        }
        ["compare", seed, count, "--", ref command @ ..] if !command.is_empty() => {
            compare::compare(number(seed)?, number(count)?, command)
        }
        ["readings"] => readings::readings(1, 40_000),
        ["readings", seed, count] => readings::readings(number(seed)?, number(count)?),
        ["told", path] => readings::told_by_file(path),
        ["told", seed, count, least] => readings::told_by_seed(number(seed)?, number(count)?, number(least)?),
        ["corpus", seed, count, requests, replies] => {
            corpus::corpus(number(seed)?, number(count)?, requests, replies)
        }
        _ => Err(io::Error::other(USAGE)),
    }
}

fn number(text: &str) -> io::Result<u64> {
    text.parse().map_err(|_| io::Error::other(format!("not a number: {text}\n{USAGE}")))
}
