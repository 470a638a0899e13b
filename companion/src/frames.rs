//! The steps of a plan as a page shows them: for each the sentence and what is new since the step before, as JSON. What nodes cover,
//! the paths of lookups, which action handles a message and whether the table is settled are asked of the proved code.

use crate::file;
use crate::json::{list, object, text, texts};
use crate::listing;
use crate::play::{End, Played, Step};
use crate::print;
use crate::rules::Rules;
use crate::survey::{unshared, Arc, End as Fate, Journey, Survey};
use crate::table::{members, Message, Names, Node, Table};
use crate::trouble::Trouble;
use crate::turn;
use crate::why::Why;

/// What a frame says of its step.
pub struct Said<'a> {
    /// The line of the plan.
    pub line: &'a str,
    pub words: &'a str,
    pub sentence: String,
    pub refused: String,
    pub warning: &'a str,
    pub changes: &'a [String],
    pub table: &'a Table,
}

/// The frames of a plan: the table before it, then one for each step, and one for a join that is stuck.
pub fn said<'a>(before: &'a Table, after: &'a Table, played: &'a [Played]) -> Vec<Said<'a>> {
    let first =
        if played.is_empty() { "the table as it is" } else { "the table before the plan" }.to_string();
    let mut all = vec![Said {
        line: "",
        words: "",
        sentence: first,
        refused: String::new(),
        warning: "",
        changes: &[],
        table: before,
    }];
    for line in played {
        all.extend(line.steps.iter().map(|step| of_step(&line.words, step)));
        if let End::Stuck(why) = &line.end {
            let refused = format!("not done: {why}");
            let sentence = "nothing more is done".to_string();
            all.push(Said {
                line: &line.words,
                words: "",
                sentence,
                refused,
                warning: "",
                changes: &[],
                table: after,
            });
        }
    }
    all
}

fn of_step<'a>(line: &'a str, step: &'a Step) -> Said<'a> {
    let refused = step.refusal.as_ref().map(ToString::to_string).unwrap_or_default();
    let sentence = if refused.is_empty() { step.sentence.clone() } else { "nothing changes".to_string() };
    let warning = step.warning.as_deref().unwrap_or_default();
    Said { line, words: &step.words, sentence, refused, warning, changes: &step.changes, table: &step.after }
}

/// What the frame before showed.
#[derive(Default)]
struct Shown {
    nodes: Vec<Node>,
    arcs: Vec<Option<Arc>>,
}

pub fn json(survey: &mut Survey, said: &[Said]) -> Result<String, Trouble> {
    let mut shown = Shown::default();
    let frames = said.iter().map(|said| frame(survey, said, &mut shown)).collect::<Result<Vec<_>, _>>()?;
    Ok(list(frames))
}

fn frame(survey: &mut Survey, said: &Said, shown: &mut Shown) -> Result<String, Trouble> {
    let table = said.table;
    let names = Names::new(table.ids());
    let arcs = survey.arcs(table)?;
    let journeys = survey.journeys(table)?;
    let offers = survey.offers(table)?;
    let settled = survey.driver.settled(&file::write(table))?;
    let reasons = if settled { vec![] } else { Why::new(table).not_settled() };
    let (nobody, several) = unshared(&arcs, Rules(table).last());
    let changed = (0..table.nodes.len()).filter(|slot| shown.nodes.get(*slot) != Some(&table.nodes[*slot]));
    let nodes = list(changed.map(|slot| format!("[{slot},{}]", node(&table.nodes[slot]))));
    let moved = (0..arcs.len()).filter(|slot| shown.arcs.get(*slot) != Some(&arcs[*slot]));
    let covers = list(moved.map(|slot| format!("[{slot},{}]", arcs[slot].map_or("null".to_string(), arc))));
    *shown = Shown { nodes: table.nodes.clone(), arcs };
    Ok(object(&[
        ("line", text(said.line)),
        ("words", text(said.words)),
        ("sentence", text(&said.sentence)),
        ("refused", text(&said.refused)),
        ("warning", text(said.warning)),
        ("changes", texts(said.changes)),
        ("settled", settled.to_string()),
        ("safe", text(&turn::told(table))),
        ("reasons", texts(&reasons)),
        ("nodes", nodes),
        ("covers", covers),
        ("nobody", list(nobody.into_iter().map(arc))),
        ("several", list(several.into_iter().map(arc))),
        ("messages", list(table.messages.iter().zip(&offers).map(|(it, offer)| message(it, offer, &names)))),
        ("lookups", list(journeys.iter().map(|journey| lookup(journey, table, &names)))),
    ]))
}

fn arc(arc: Arc) -> String {
    format!("[{},{}]", arc.from, arc.to)
}

/// The status, then the sets as lists of slots.
fn node(node: &Node) -> String {
    let sets = node.sets.iter().map(|set| list(members(*set).map(|slot| slot.to_string())));
    format!("{},{}", node.status, list(sets))
}

/// Kind, destination, sender or -1, words, the action that handles it now.
fn message(message: &Message, offer: &str, names: &Names) -> String {
    let sender = match message.kind {
        Message::LOOKUP | Message::NO_LEGAL_ROUTE => "-1".to_string(),
        Message::JOIN_REPLY | Message::BROADCAST => message.owner.to_string(),
        _ => message.word.to_string(),
    };
    let words = text(&print::message(message, names));
    format!("[{},{},{sender},{words},{}]", message.kind, message.at, text(offer))
}

/// Key, path as slots, whether it is delivered, the path in words, how each routing was made, the hops so far.
fn lookup(journey: &Journey, table: &Table, names: &Names) -> String {
    let path = list(journey.path.iter().map(u32::to_string));
    let words = text(&listing::path(journey, table, names));
    let via = text(&listing::via(journey));
    format!("[{},{path},{},{words},{via},{}]", journey.key, journey.end == Fate::Delivered, journey.so_far)
}
