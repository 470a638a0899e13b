//! A plan tried: each step is made by the proved code, and told with what it changed or why it is refused.

use crate::action;
use crate::change;
use crate::driver::{ActionWords, Driver, Stepped};
use crate::file;
use crate::plan::{Ask, Asked};
use crate::table::{Names, Node, Table};
use crate::tell;
use crate::trouble::{Refusal, Trouble};
use crate::turn;
use crate::why::Why;

/// More steps than any drain of a table makes.
const MOST: usize = 20_000;
const REQUEST_LEASE: u64 = 3;

/// A step that was asked of the proved code.
pub struct Step {
    pub words: String,
    pub sentence: String,
    pub refusal: Option<Refusal>,
    /// What is to be known of a done step, beside what it did.
    pub warning: Option<String>,
    /// What a done step changed.
    pub changes: Vec<String>,
    /// The table after it, done or refused.
    pub after: Table,
}

/// A line of the plan, its steps and how it ended.
pub struct Played {
    pub words: String,
    pub steps: Vec<Step>,
    pub end: End,
}

pub enum End {
    /// One action, done or refused.
    One,
    /// As many steps as were needed.
    Done,
    /// The node is not ready, and nothing more is done: why.
    Stuck(String),
    Settled(Vec<String>),
    Listed(String),
}

impl Played {
    pub fn refused(&self) -> bool {
        let refused = self.steps.last().is_some_and(|step| step.refusal.is_some());
        refused || matches!(self.end, End::Stuck(_))
    }
}

/// Where a plan stands.
pub struct Play<'a> {
    pub driver: &'a mut Driver,
    pub table: Table,
    names: Names,
}

impl<'a> Play<'a> {
    pub fn new(driver: &'a mut Driver, table: Table) -> Play<'a> {
        let names = Names::new(table.ids());
        Play { driver, table, names }
    }

    /// Tries the lines in turn, up to the first that is refused, or all.
    pub fn run(&mut self, plan: &[Asked], all: bool) -> Result<Vec<Played>, Trouble> {
        let mut played = Vec::new();
        for asked in plan {
            played.push(self.line(asked)?);
            if !all && played.last().is_some_and(Played::refused) {
                break;
            }
        }
        Ok(played)
    }

    fn line(&mut self, asked: &Asked) -> Result<Played, Trouble> {
        let mut steps = Vec::new();
        let end = match asked.ask {
            Ask::Step(words) => {
                steps.push(self.step(words)?);
                End::One
            }
            Ask::Drain => self.drain(&mut steps).map(|()| End::Done)?,
            Ask::UntilReady(words) => self.until_ready(words, &mut steps)?,
            Ask::Settled => End::Settled(self.not_settled()?),
            Ask::List => End::Listed(crate::listing::listing(self.driver, &self.table)?),
        };
        Ok(Played { words: asked.words.clone(), steps, end })
    }

    /// Asks for a step, and makes it if it is done.
    pub fn step(&mut self, words: ActionWords) -> Result<Step, Trouble> {
        let reply = self.driver.step(words, &file::write(&self.table))?;
        if reply.number == 0 {
            return self.made(words, reply);
        }
        let reason = Why::new(&self.table).refused(words, reply.number);
        let written = action::written(words, &self.names);
        let refusal = Some(Refusal { number: reply.number, of: String::new(), reason });
        Ok(Step {
            words: written,
            sentence: String::new(),
            refusal,
            warning: None,
            changes: vec![],
            after: self.table.clone(),
        })
    }

    fn made(&mut self, words: ActionWords, reply: Stepped) -> Result<Step, Trouble> {
        let after = file::known(&reply.file)?;
        let sentence = tell::step(words, &self.table, &after, reply.via);
        let changes = change::between(&self.table, &after);
        let warning = turn::warning(words, &self.table);
        self.table = after.clone();
        let words = action::written(words, &self.names);
        Ok(Step { words, sentence, refusal: None, warning, changes, after })
    }

    /// The oldest message whose step is done, until none is.
    fn drain(&mut self, steps: &mut Vec<Step>) -> Result<(), Trouble> {
        while let Some(step) = self.oldest()? {
            steps.push(step);
            if steps.len() > MOST {
                return Err(Trouble::No(format!("drain: no end after {MOST} steps")));
            }
        }
        Ok(())
    }

    fn oldest(&mut self) -> Result<Option<Step>, Trouble> {
        let file = file::write(&self.table);
        for place in 0..self.table.messages.len() as u64 {
            for row in action::on_messages() {
                let words = [row.number, place, 0];
                let reply = self.driver.step(words, &file)?;
                if reply.number == 0 {
                    return self.made(words, reply).map(Some);
                }
            }
        }
        Ok(None)
    }

    /// The action, and then drains and requests of a lease, until the node is ready or nothing changes.
    fn until_ready(&mut self, words: ActionWords, steps: &mut Vec<Step>) -> Result<End, Trouble> {
        steps.push(self.step(words)?);
        if steps.iter().any(|step| step.refusal.is_some()) {
            return Ok(End::One);
        }
        let slot = words[1] as usize;
        loop {
            self.drain(steps)?;
            let before = self.table.nodes[slot];
            if before.status == Node::READY {
                return Ok(End::Done);
            }
            if before.status == Node::OK {
                let asked = self.step([REQUEST_LEASE, words[1], 0])?;
                if asked.refusal.is_none() && !asked.changes.is_empty() {
                    steps.push(asked);
                    self.drain(steps)?;
                    if self.table.nodes[slot] != before {
                        continue;
                    }
                }
            }
            return Ok(End::Stuck(Why::new(&self.table).node(words[1] as u32)));
        }
    }

    /// The rules of a settled table that are broken; none where the proved code says that it is settled.
    pub fn not_settled(&mut self) -> Result<Vec<String>, Trouble> {
        if self.driver.settled(&file::write(&self.table))? {
            return Ok(vec![]);
        }
        let reasons = Why::new(&self.table).not_settled();
        let unknown = || vec!["no rule as read here says why".to_string()];
        Ok(if reasons.is_empty() { unknown() } else { reasons })
    }
}
