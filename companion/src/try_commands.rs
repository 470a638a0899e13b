//! `do`: a plan tried and told.

use crate::args::{self, Given};
use crate::desk::{put, Desk};
use crate::files;
use crate::plan::{self, Asked};
use crate::play::{End, Play, Played};
use crate::print;
use crate::table::{Names, Node, Table};
use crate::trouble::{Fault, Trouble};
use crate::turn;
use std::ffi::OsString;

pub fn play(desk: &mut Desk, given: &Given) -> Result<(), Trouble> {
    let ([path], words) = given.take(["TABLE"])?;
    if words.is_empty() {
        return Err(given.misuse("ACTIONS are missing: a file of them, or actions with commas between them"));
    }
    let table = desk.table(path)?;
    let plan = plan_of(given, words, &Names::new(table.ids()))?;
    let before = format!("before: {}; {}\n", summary(&table), turn::told(&table));
    let mut play = Play::new(desk.driver()?, table);
    let played = play.run(&plan, given.has("-k"))?;
    let refused = played.iter().any(Played::refused);
    let out = given.value("-o");
    if out.is_none_or(|out| out != "-") {
        let after = after(&mut play)?;
        files::print((before + &report(&played, given.has("-v")) + &after).as_bytes())?;
    }
    match out {
        Some(out) if refused => {
            Err(Trouble::No(format!("{}: not written, for an action was refused", files::name(out))))
        }
        Some(out) => put(Some(out), &play.table),
        None if refused => Err(Trouble::No(String::new())),
        None => Ok(()),
    }
}

/// The plan of the words after a table: a file's name, or the actions themselves.
pub fn plan_of(given: &Given, words: &[OsString], names: &Names) -> Result<Vec<Asked>, Trouble> {
    let text = args::text(words);
    let first = text.split([' ', ',']).next().unwrap_or_default();
    if let ([path], false) = (words, plan::begins(first)) {
        let text = files::text(path, &files::read(path)?)?;
        return plan::plan(&text, names).map_err(|fault| Trouble::Bad(files::name(path), fault));
    }
    let bad = |(fault, nth): (Fault, usize)| {
        let what = format!("{} (action {nth})", fault.what);
        given.bad(Fault { what, ..fault })
    };
    let parts = text.split(',').map(str::trim).filter(|part| !part.is_empty()).zip(1..);
    let read =
        |(part, nth): (&str, usize)| plan::asked(args::line(part), names).map_err(|fault| bad((fault, nth)));
    parts.map(read).collect()
}

/// The nodes of each status, and how many messages wait.
pub fn summary(table: &Table) -> String {
    let names = Names::new(table.ids());
    let mut parts: Vec<String> = Vec::new();
    for status in [3, 2, 1, 0] {
        let word = Node::STATUSES[status];
        let nodes = table.nodes.iter().zip(0..).filter(|(node, _)| node.status == status as u32);
        let nodes: Vec<String> = nodes.map(|(_, slot)| names.of(slot)).collect();
        if !nodes.is_empty() {
            parts.push(format!("{word} {}", nodes.join(" ")));
        }
    }
    parts.push(match table.messages.len() {
        0 => "no message waits".to_string(),
        1 => "1 message waits".to_string(),
        count => format!("{count} messages wait"),
    });
    parts.join("; ")
}

fn after(play: &mut Play) -> Result<String, Trouble> {
    let reasons = play.not_settled()?;
    let settled = if reasons.is_empty() { "settled" } else { "not settled" };
    let names = Names::new(play.table.ids());
    let mut text = format!("after: {}; {settled}; {}\n", summary(&play.table), turn::told(&play.table));
    for (message, place) in play.table.messages.iter().zip(0..) {
        text += &format!("   place {place}: {}\n", print::message(message, &names));
    }
    Ok(text)
}

/// What the lines of a plan did.
fn report(played: &[Played], long: bool) -> String {
    played.iter().zip(1..).map(|(line, nth)| format!("{nth}. {}", told(line, long))).collect()
}

fn told(line: &Played, long: bool) -> String {
    let words = &line.words;
    let mut text = match &line.end {
        End::One => String::new(),
        End::Done => format!("{words}: done in {}\n", steps(line.steps.len())),
        End::Stuck(_) => format!("{words}: not done after {}\n", steps(line.steps.len())),
        End::Settled(reasons) if reasons.is_empty() => format!("{words}: settled\n"),
        End::Settled(reasons) => format!("{words}: not settled\n   {}\n", reasons.join("\n   ")),
        End::Listed(listing) => format!("{words}\n   {}\n", listing.trim_end().replace('\n', "\n   ")),
    };
    let single = matches!(line.end, End::One) && line.steps.len() == 1;
    for step in &line.steps {
        let head = if single { format!("{words}: ") } else { format!("   {}: ", step.words) };
        text += &head;
        match &step.refusal {
            Some(refusal) => text += &format!("{refusal}\n"),
            None => text += &format!("{}\n", step.sentence),
        }
        let indent = if single { "   " } else { "      " };
        step.warning.iter().for_each(|warning| text += &format!("{indent}warning: {warning}\n"));
        if step.refusal.is_none() && (single || long) {
            step.changes.iter().for_each(|change| text += &format!("{indent}{change}\n"));
        }
    }
    if let End::Stuck(why) = &line.end {
        text += &format!("   {why}\n");
    }
    text
}

fn steps(count: usize) -> String {
    format!("{count} step{}", if count == 1 { "" } else { "s" })
}
