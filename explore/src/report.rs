//! What a search found, on standard output, and its evidence.

use explore::engine::Driver;
use explore::evidence::{self, Rehearsal};
use explore::options::Options;
use explore::question::{Question, Shown};
use explore::search::{End, Found, NodeAnswer, Search};
use explore::trouble::Trouble;
use std::io::{self, Write};
use std::process;

/// A line on standard output. Ends the program where it cannot be written; silently where nobody reads it.
pub fn say(line: &str) {
    if let Err(error) = writeln!(io::stdout(), "{line}") {
        if error.kind() != io::ErrorKind::BrokenPipe {
            writeln!(io::stderr(), "{}", Trouble::io("standard output", &error)).ok();
        }
        process::exit(2);
    }
}

/// What the report is made with.
struct Report<'r, 's> {
    driver: &'r str,
    search: &'r mut Search<'s>,
    start: &'r [u8],
    options: &'r Options,
    is_whole: bool,
    is_found: bool,
}

/// Tells the answer to each question and how the search ended: the exit status.
pub fn tell(
    driver: &str,
    search: &mut Search,
    start: &[u8],
    end: End,
    options: &Options,
) -> Result<u8, Trouble> {
    let found = std::mem::take(&mut search.found);
    let is_whole = end == End::Searched;
    let mut report = Report { driver, search, start, options, is_whole, is_found: false };
    for (question, found) in options.questions.iter().zip(&found) {
        report.question(question, found)?;
    }
    let (states, depth) = (report.search.store.len(), report.search.depth());
    let most = report.search.most;
    match end {
        End::Searched => {
            say(&format!("all searched: {states} states, depth {depth}, at most {most} messages"))
        }
        End::Answered => {
            say(&format!("stopped at {states} states, depth {depth}, because every question is answered"))
        }
        End::Stopped(bound) => {
            say(&format!("stopped at {states} states, depth {depth}, because of the bound of {bound}"))
        }
    }
    Ok(match (report.is_found, is_whole) {
        (true, _) => 1,
        (false, true) => 0,
        (false, false) => 3,
    })
}

impl Report<'_, '_> {
    fn question(&mut self, question: &Question, found: &Found) -> Result<(), Trouble> {
        match found {
            Found::Nothing if self.is_whole => {
                say(&format!("{}: not found ({})", question.name, question.asks))
            }
            Found::Nothing => say(&format!("{}: not found so far ({})", question.name, question.asks)),
            Found::At(number, finding) => {
                say(&format!("{}: found: {}", question.name, question.asks));
                self.evidence(question.name, *number, &finding.words, &finding.shown)?;
            }
            Found::Nodes(answers) => {
                for answer in answers {
                    self.node(question.name, answer)?;
                }
            }
        }
        Ok(())
    }

    /// Whether a joining node can become ready, and whether it can in every order.
    fn node(&mut self, name: &str, answer: &NodeAnswer) -> Result<(), Trouble> {
        let id = self.search.records.frame.ids[answer.slot];
        match (answer.ready, answer.lost) {
            (Some(state), None) => {
                let after = self.search.way(state).len() - 1;
                say(&format!("{name}: {id} can become ready, after {after} actions at the least, and still can whatever was done"));
                Ok(())
            }
            (None, _) => {
                say(&format!("{name}: {id} never becomes ready"));
                self.is_found = true;
                Ok(())
            }
            (Some(_), Some(lost)) => {
                say(&format!("{name}: {id} can become ready, but not in every order"));
                self.evidence(&format!("{name}-{id}"), lost, &format!("{id} can no longer become ready"), &[])
            }
        }
    }

    /// The way to a state, in words; checked by the proved checker, and written where that is asked for.
    fn evidence(&mut self, name: &str, number: u32, words: &str, shown: &[Shown]) -> Result<(), Trouble> {
        self.is_found = true;
        let way = evidence::way(self.search, number)?;
        let actions = way.len();
        let way = [way, evidence::shown(shown)].concat();
        let engine = self.search.mover.engine();
        let rehearsal = Rehearsal::make(engine, self.options.key(), self.start, &way)?;
        say(&format!("  after {actions} actions {words}"));
        for (step, nth) in rehearsal.steps.iter().zip(1..) {
            say(&format!("  {nth}. {}", step.words));
        }
        let accepted = rehearsal.is_accepted(&mut Driver::run(self.driver)?)?;
        let verdict = if accepted { "accepts" } else { "REFUSES" };
        say(&format!("  the proved checker {verdict} these {} steps", rehearsal.steps.len()));
        if let Some(folder) = &self.options.evidence {
            rehearsal.write(&folder.join(name))?;
            say(&format!("  written to {}", folder.join(name).display()));
        }
        Ok(())
    }
}
