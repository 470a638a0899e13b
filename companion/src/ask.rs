//! `list`, `who`, `why`, `safe`, `diff`, `waiting`: questions about tables.

use crate::args::{self, Given};
use crate::change;
use crate::desk::Desk;
use crate::file;
use crate::files;
use crate::listing;
use crate::parse;
use crate::plan::{self, Ask};
use crate::play::Play;
use crate::print;
use crate::rules::Rules;
use crate::survey::{unshared, Survey};
use crate::table::{Names, Node, Table};
use crate::trouble::{Fault, Trouble};
use crate::turn;
use crate::why::Why;
use crate::words::number;
use std::ffi::OsString;

pub fn list(desk: &mut Desk, given: &Given) -> Result<(), Trouble> {
    let [path] = given.exactly(["TABLE"])?;
    let table = desk.table(path)?;
    files::print(listing::listing(desk.driver()?, &table)?.as_bytes())
}

pub fn who(desk: &mut Desk, given: &Given) -> Result<(), Trouble> {
    let ([path], words) = given.take(["TABLE"])?;
    let keys: Vec<u64> = words.iter().map(|word| key(given, word)).collect::<Result<_, _>>()?;
    let table = desk.table(path)?;
    if keys.is_empty() {
        return files::print(covers(desk, &table)?.as_bytes());
    }
    let names = Names::new(table.ids());
    let mut text = String::new();
    for key in keys {
        in_range(desk, &table, key)?;
        let holders = Survey::new(desk.driver()?).holders(&table, key as u32)?;
        let holders: Vec<String> = holders.into_iter().map(|slot| names.of(slot)).collect();
        text += &match holders.as_slice() {
            [] => format!("{key}: nobody covers it\n"),
            [one] => format!("{key}: {one} covers it\n"),
            several => format!("{key}: {} cover it\n", several.join(" and ")),
        };
    }
    files::print(text.as_bytes())
}

fn key(given: &Given, word: &OsString) -> Result<u64, Trouble> {
    let text = word.to_string_lossy();
    let what = "a key is expected, a number in decimal digits".to_string();
    number(&text, u64::MAX).ok_or_else(|| given.bad(Fault { line: 0, word: text.into_owned(), what }))
}

/// Whether a Lookup of the key may begin: asked of the proved code.
fn in_range(desk: &mut Desk, table: &Table, key: u64) -> Result<(), Trouble> {
    let action = [1, 0, key];
    let quiet = Table { messages: vec![], ..table.clone() };
    let reason = |number| Why::new(&quiet).refused(action, number);
    match desk.driver()?.step(action, &file::write(&quiet))?.number {
        0 => Ok(()),
        number => Err(Trouble::refused(number).of(&key.to_string(), reason)),
    }
}

/// What each ready node covers, and the keys that nobody or several cover.
fn covers(desk: &mut Desk, table: &Table) -> Result<String, Trouble> {
    let names = Names::new(table.ids());
    let arcs = Survey::new(desk.driver()?).arcs(table)?;
    let mut text = String::new();
    for (arc, slot) in arcs.iter().zip(0..) {
        if let Some(arc) = arc {
            text += &format!("{} covers {} to {}\n", names.of(slot), arc.from, arc.to);
        }
    }
    let (none, several) = unshared(&arcs, Rules(table).last());
    for (found, who) in [(none, "nobody covers"), (several, "several cover")] {
        for arc in found {
            text += &format!("{who} {} to {}\n", arc.from, arc.to);
        }
    }
    Ok(text)
}

pub fn why(desk: &mut Desk, given: &Given) -> Result<(), Trouble> {
    let ([path], words) = given.take(["TABLE"])?;
    let table = desk.table(path)?;
    let text = args::text(words);
    let first = text.split_whitespace().next().unwrap_or_default();
    match first {
        "" => why_table(desk, table),
        word if plan::begins(word) => why_action(desk, given, &text, table),
        _ => why_node(given, &text, &table),
    }
}

fn why_table(desk: &mut Desk, table: Table) -> Result<(), Trouble> {
    let reasons = Play::new(desk.driver()?, table).not_settled()?;
    if reasons.is_empty() {
        return files::print(b"settled\n");
    }
    files::print(format!("not settled\n   {}\n", reasons.join("\n   ")).as_bytes())?;
    Err(Trouble::No(String::new()))
}

pub fn safe(desk: &mut Desk, given: &Given) -> Result<(), Trouble> {
    let [path] = given.exactly(["TABLE"])?;
    let hindrances = turn::hindrances(&desk.table(path)?);
    if hindrances.is_empty() {
        return files::print(b"safe to join\n");
    }
    files::print(format!("not safe to join\n   {}\n", hindrances.join("\n   ")).as_bytes())?;
    Err(Trouble::No(String::new()))
}

fn why_node(given: &Given, text: &str, table: &Table) -> Result<(), Trouble> {
    let mut line = args::line(text);
    let slot = parse::listed(&mut line, &Names::new(table.ids())).and_then(|slot| line.end().map(|()| slot));
    let slot = slot.map_err(|fault| given.bad(fault))?;
    files::print(format!("{}\n", Why::new(table).node(slot)).as_bytes())?;
    match table.nodes[slot as usize].status {
        Node::READY => Ok(()),
        _ => Err(Trouble::No(String::new())),
    }
}

fn why_action(desk: &mut Desk, given: &Given, text: &str, table: Table) -> Result<(), Trouble> {
    let names = Names::new(table.ids());
    let asked = plan::asked(args::line(text), &names).map_err(|fault| given.bad(fault))?;
    let Ask::Step(words) = asked.ask else {
        return Err(given.misuse(&format!("{text}: one action is expected, or a node")));
    };
    let step = Play::new(desk.driver()?, table).step(words)?;
    match step.refusal {
        None => {
            let warning = step.warning.map_or(String::new(), |warning| format!("   warning: {warning}\n"));
            files::print(format!("{text}: would be done: {}\n{warning}", step.sentence).as_bytes())
        }
        Some(refusal) => {
            files::print(format!("{text}: {refusal}\n").as_bytes())?;
            Err(Trouble::No(String::new()))
        }
    }
}

pub fn diff(desk: &mut Desk, given: &Given) -> Result<(), Trouble> {
    let [one, other] = given.exactly(["TABLE", "TABLE"])?;
    let (one, other) = (desk.table(one)?, desk.table(other)?);
    let lines = change::between(&one, &other);
    if lines.is_empty() {
        return files::print(b"no difference\n");
    }
    files::print(format!("{}\n", lines.join("\n")).as_bytes())?;
    Err(Trouble::No(String::new()))
}

pub fn waiting(desk: &mut Desk, given: &Given) -> Result<(), Trouble> {
    let ([path], words) = given.take(["TABLE"])?;
    let table = desk.table(path)?;
    let names = Names::new(table.ids());
    let text = args::text(words);
    let mut line = args::line(&text);
    let mut slots: Vec<u32> = Vec::new();
    while line.peek().is_some() {
        slots.push(parse::node(&mut line, &names).map_err(|fault| given.bad(fault))?);
    }
    if slots.is_empty() {
        slots = (0..table.nodes.len() as u32).collect();
    }
    let file = file::write(&table);
    let mut text = String::new();
    for slot in slots {
        let reason = |_| format!("slot {slot} is not listed; the slots are 0 to {}", table.nodes.len() - 1);
        let first = desk.driver()?.waiting(slot.into(), &file);
        let first = first.map_err(|trouble| trouble.of(&names.of(slot), reason))?;
        let told = first.and_then(|place| Some((place, table.messages.get(place as usize)?)));
        text += &match told {
            None => format!("{}: nothing waits\n", names.of(slot)),
            Some((place, message)) => {
                format!("{}: place {place}: {}\n", names.of(slot), print::message(message, &names))
            }
        };
    }
    files::print(text.as_bytes())
}
