//! The words behind TABLE and PLAN.

use crate::file::{Message, Node};
use crate::plan::Limits;
use crate::question::{Question, PROPERTIES, QUESTIONS};
use crate::search::Bounds;
use crate::state::Key;
use std::path::PathBuf;
use std::time::Duration;

pub struct Options {
    pub questions: Vec<&'static Question>,
    pub limits: Limits,
    pub expiries: bool,
    pub bounds: Bounds,
    pub every: bool,
    pub audit: u32,
    pub core: bool,
    pub by_driver: bool,
    pub evidence: Option<PathBuf>,
    pub quiet: bool,
}

impl Default for Options {
    fn default() -> Self {
        Options {
            questions: Vec::new(),
            limits: Limits::default(),
            expiries: false,
            bounds: Bounds::default(),
            every: false,
            audit: 1000,
            core: false,
            by_driver: false,
            evidence: None,
            quiet: false,
        }
    }
}

fn number(word: Option<&str>) -> Result<usize, String> {
    let word = word.ok_or("a number is missing")?;
    word.replace('_', "").parse().map_err(|_| format!("{word}: a number is expected"))
}

fn question(name: &str) -> Result<&'static Question, String> {
    let mut all = QUESTIONS.iter().chain(&PROPERTIES);
    all.find(|question| question.name == name).ok_or(format!("{name}: no question has this name"))
}

impl Options {
    pub fn parse(words: &[&str]) -> Result<Options, String> {
        let mut options = Options::default();
        let mut rest = words.iter().copied();
        while let Some(word) = rest.next() {
            options.take(word, &mut rest).map_err(|what| format!("{word}: {what}"))?;
        }
        Ok(options)
    }

    fn take<'a>(&mut self, word: &str, rest: &mut impl Iterator<Item = &'a str>) -> Result<(), String> {
        match word {
            "--ask" => {
                for name in rest.next().ok_or("a question is missing")?.split(',') {
                    self.questions.push(question(name)?);
                }
            }
            "--joining" => self.limits.joining = Some(number(rest.next())?),
            "--waiting" => self.limits.waiting = Some(number(rest.next())?),
            "--in-order" => self.limits.in_order = true,
            "--expiries" => self.expiries = true,
            "--states" => self.bounds.states = number(rest.next())?,
            "--depth" => self.bounds.depth = number(rest.next())?,
            "--memory" => self.bounds.memory = number(rest.next())? << 20,
            "--time" => self.bounds.time = Duration::from_secs(number(rest.next())? as u64),
            "--every" => self.every = true,
            "--audit" => self.audit = number(rest.next())? as u32,
            "--core" => self.core = true,
            "--by-driver" => self.by_driver = true,
            "--evidence" => self.evidence = Some(rest.next().ok_or("a folder is missing")?.into()),
            "--quiet" => self.quiet = true,
            _ => return Err("no option of this command".to_string()),
        }
        Ok(())
    }

    /// What tells states apart.
    pub fn key(&self) -> Key {
        if self.core {
            Key { node: without_node, message: without_message }
        } else {
            Key::WHOLE
        }
    }
}

/// A node without its routing set and grants.
fn without_node(mut node: Node) -> Node {
    node.0[Node::ROUTING] = 0;
    node.0[Node::GRANT] = 0;
    node
}

/// A message without its routing set.
fn without_message(mut message: Message) -> Message {
    message.0[Message::ROUTING] = 0;
    message
}
