//! What was found as a rehearsal: actions from the start, each with the table file after it, for the proved checker.

use crate::action::{self, DELIVER, FORWARD};
use crate::engine::{room, Driver, Engine, Words};
use crate::file::{self, Frame, Message};
use crate::moves::Move;
use crate::question::Shown;
use crate::search::Search;
use crate::state::{Key, State};
use crate::trouble::Trouble;
use std::fs;
use std::path::Path;

/// A step of a rehearsal.
pub struct Step {
    pub action: Words,
    /// In words: who does what.
    pub words: String,
    pub file: Vec<u8>,
}

pub struct Rehearsal {
    pub frame: Frame,
    pub start: Vec<u8>,
    pub steps: Vec<Step>,
}

/// What a step of the way is: an action, or the taking, by a kind of action, of a message that looks like this one.
#[derive(Clone, Copy, Debug, PartialEq, Eq)]
pub enum Done {
    Do(Words),
    Take(u64, Message),
}

/// The steps on the way to a state.
pub fn way(search: &mut Search, number: u32) -> Result<Vec<Done>, Trouble> {
    let n = search.records.frame.ids.len();
    let states = search.way(number);
    let (mut now, mut next, mut after) = (State::default(), State::default(), State::default());
    let mut moves = Vec::new();
    let mut done = Vec::new();
    for pair in states.windows(2) {
        now.unpack(n, search.store.state(pair[0]));
        next.unpack(n, search.store.state(pair[1]));
        search.mover.stand(&search.records, &now);
        search.mover.moves(&search.records, &now, &mut moves);
        let mut leads = None;
        for &step in &moves {
            if search.mover.make(&mut search.records, &now, step, &mut after)? == 0 && after == next {
                leads = Some(step);
                break;
            }
        }
        done.push(match leads.ok_or_else(|| Trouble::Failed("a state has no way to it".to_string()))? {
            Move::Take(kind, place) => Done::Take(kind, search.records.message(now.messages[place])),
            Move::Do(at) => Done::Do(search.mover.plan.actions[at]),
        });
    }
    Ok(done)
}

/// What a step that shows a finding is.
pub fn shown(shown: &[Shown]) -> Vec<Done> {
    let done = |step: &Shown| match *step {
        Shown::Do(words) => Done::Do(words),
        Shown::Deliver(slot, key) => {
            let kind = u64::from(file::LOOKUP);
            Done::Take(DELIVER, Message([kind | (slot as u64) << 32, key.into(), 0, 0, 0, 0, 0]))
        }
    };
    shown.iter().map(done).collect()
}

impl Rehearsal {
    /// Makes the steps on the whole tables, from the start, with the pool in its own order.
    pub fn make(engine: &mut dyn Engine, key: Key, start: &[u8], way: &[Done]) -> Result<Rehearsal, Trouble> {
        let frame = file::read(start).frame;
        let mut rehearsal = Rehearsal { frame, start: start.to_vec(), steps: Vec::new() };
        let mut out = room();
        for done in way {
            let before = rehearsal.steps.last().map_or(start, |step| &step.file);
            let (action, words) = match *done {
                Done::Do(action) => (action, action::words(&rehearsal.frame, action)),
                Done::Take(kind, message) => {
                    let looks = |other: Message| (key.message)(other).equals(&message);
                    let place = file::messages(before).position(looks);
                    let place = place
                        .ok_or_else(|| Trouble::Failed("a message of the way does not wait".to_string()))?;
                    ([kind, place as u64, 0], taken(&rehearsal.frame, kind, &message))
                }
            };
            let answer = engine.step(before, action, &mut out)?;
            if answer.number != 0 {
                return Err(Trouble::Failed(format!("a step of the way is refused with {}", answer.number)));
            }
            rehearsal.steps.push(Step { action, words, file: out[..answer.count].to_vec() });
        }
        Ok(rehearsal)
    }

    /// Whether the proved checker accepts it.
    pub fn is_accepted(&self, driver: &mut Driver) -> Result<bool, Trouble> {
        let mut accepted = driver.begin(&self.start)?;
        for step in &self.steps {
            accepted = accepted && driver.next(step.action, &step.file)?;
        }
        Ok(accepted)
    }

    /// Writes the table files, the actions in the words of `bin/ring do`, and the rehearsal for `bin/ring check`.
    pub fn write(&self, folder: &Path) -> Result<(), Trouble> {
        let failed = |error| Trouble::io(&folder.display().to_string(), &error);
        fs::create_dir_all(folder).map_err(failed)?;
        let (mut actions, mut claims) = (String::new(), "from start.table\n".to_string());
        fs::write(folder.join("start.table"), &self.start).map_err(failed)?;
        for (step, nth) in self.steps.iter().zip(1..) {
            let (name, words) = (format!("{nth}.table"), action::words(&self.frame, step.action));
            fs::write(folder.join(&name), &step.file).map_err(failed)?;
            actions += &format!("{words:20} # {nth}. {}\n", step.words);
            claims += &format!("{words} => {name}\n");
        }
        fs::write(folder.join("actions"), actions).map_err(failed)?;
        fs::write(folder.join("rehearsal"), claims).map_err(failed)
    }
}

/// The taking of a message in words.
fn taken(frame: &Frame, kind: u64, message: &Message) -> String {
    let id = |slot: u32| frame.ids[slot as usize];
    let name = file::KINDS[message.kind() as usize - 1];
    let about = match message.kind() {
        1 | 6 => message.word().to_string(),
        3 => format!("from {}", id(message.owner())),
        8 if message.flag() == 1 => format!("from {}, granted", id(message.owner())),
        8 => format!("from {}", id(message.owner())),
        _ => format!("from {}", id(message.word())),
    };
    let does = match kind {
        DELIVER => "delivers",
        FORWARD => "forwards",
        _ => "takes",
    };
    format!("{} {does} {name} {about}", id(message.to()))
}
