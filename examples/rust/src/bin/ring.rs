//! ring M L A ID,ID.. [SLOT:KEY]..: starts a ring of the ids, ready where A has a mark, adds a Lookup of each key at its slot, says whether the table
//! is settled, and lists where the lookups travel. Status: 0 done; 1 refused, with the number and its meaning; 2 misuse or output that fails.

use std::error::Error;
use std::io::{self, Write};
use std::process::ExitCode;
use tarpudhriv::{Action, Refused};

/// What the words ask for.
struct Asked {
    m: u64,
    l: u64,
    a: u64,
    ids: Vec<u32>,
    lookups: Vec<Action>,
}

fn asked(words: &[String]) -> Result<Asked, String> {
    let [m, l, a, ids, lookups @ ..] = words else {
        return Err("usage: ring M L A ID,ID.. [SLOT:KEY]..".to_string());
    };
    let id = |text: &str| number(text, u32::MAX.into()).map(|id| id as u32);
    let ids = ids.split(',').map(id).collect::<Result<_, _>>()?;
    let lookups = lookups.iter().map(|text| lookup(text)).collect::<Result<_, _>>()?;
    let [m, l, a] = [m, l, a].map(|text| number(text, u64::MAX));
    Ok(Asked { m: m?, l: l?, a: a?, ids, lookups })
}

/// A number in decimal digits and nothing else.
fn number(text: &str, most: u64) -> Result<u64, String> {
    let digits = !text.is_empty() && text.bytes().all(|byte| byte.is_ascii_digit());
    let value = text.parse().ok().filter(|value| digits && *value <= most);
    value.ok_or_else(|| format!("{text}: a number is expected, 0 to {most}"))
}

fn lookup(text: &str) -> Result<Action, String> {
    let (slot, key) = text.split_once(':').ok_or_else(|| format!("{text}: a lookup is SLOT:KEY"))?;
    Ok(Action::Lookup { slot: number(slot, u64::MAX)?, key: number(key, u64::MAX)? })
}

fn listed(asked: &Asked) -> Result<String, Refused> {
    let mut table = tarpudhriv::start(asked.m, asked.l, asked.a, &asked.ids)?;
    for &action in &asked.lookups {
        table = tarpudhriv::step(&table, action)?;
    }
    let said = if tarpudhriv::settled(&table)? { "settled" } else { "not settled" };
    Ok(format!("{said}\n{}", String::from_utf8_lossy(&tarpudhriv::list(&table))))
}

fn ring() -> Result<(), Box<dyn Error>> {
    let words: Vec<String> =
        std::env::args_os().skip(1).map(|word| word.to_string_lossy().into_owned()).collect();
    let text = listed(&asked(&words)?)?;
    let mut out = io::stdout().lock();
    out.write_all(text.as_bytes())
        .and_then(|()| out.flush())
        .map_err(|error| format!("standard output: {error}"))?;
    Ok(())
}

fn main() -> ExitCode {
    let Err(error) = ring() else {
        return ExitCode::SUCCESS;
    };
    writeln!(io::stderr(), "{error}").ok();
    ExitCode::from(if error.is::<Refused>() { 1 } else { 2 })
}
