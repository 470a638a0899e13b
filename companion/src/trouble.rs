//! Why a command ends early, what it says then, and its exit status.

use std::fmt;
use std::io;
use std::path::Path;

/// A word of a text that cannot be read.
#[derive(Clone, Debug, PartialEq, Eq)]
pub struct Fault {
    pub line: usize,
    pub word: String,
    pub what: String,
}

/// A number of the proved code, what it was said of, and why, where that can be told.
#[derive(Clone, Debug, Default, PartialEq, Eq)]
pub struct Refusal {
    pub number: u32,
    pub of: String,
    pub reason: String,
}

#[derive(Debug)]
pub enum Trouble {
    /// The text of that name is bad.
    Bad(String, Fault),
    /// The proved code refuses.
    Refused(Refusal),
    /// The answer is no: two tables differ, a node does not become ready.
    No(String),
    /// A file or the driver fails.
    Failed(String),
    /// Words that are no use of the command of this name.
    Misuse(&'static str, String),
    /// Nobody reads what is written.
    Closed,
}

impl Trouble {
    pub fn io(name: &str, error: &io::Error) -> Trouble {
        Trouble::Failed(format!("{name}: {}", plain(error)))
    }

    pub fn file(path: &Path, error: &io::Error) -> Trouble {
        Trouble::io(&path.to_string_lossy(), error)
    }

    pub fn refused(number: u32) -> Trouble {
        Trouble::Refused(Refusal { number, ..Refusal::default() })
    }

    pub fn status(&self) -> u8 {
        match self {
            Trouble::Refused(_) | Trouble::No(_) => 1,
            Trouble::Bad(..) | Trouble::Failed(_) | Trouble::Misuse(..) | Trouble::Closed => 2,
        }
    }

    /// A refusal with the name of what it is of and its reason, where it has none yet.
    pub fn of(self, name: &str, reason: impl FnOnce(u32) -> String) -> Trouble {
        match self {
            Trouble::Refused(Refusal { number, of, reason: told }) if of.is_empty() => {
                let reason = if told.is_empty() { reason(number) } else { told };
                Trouble::Refused(Refusal { number, of: name.to_string(), reason })
            }
            other => other,
        }
    }
}

/// What the system says, without its number.
fn plain(error: &io::Error) -> String {
    let said = error.to_string();
    match said.split_once(" (os error") {
        Some((words, _)) => words.to_string(),
        None => said,
    }
}

impl fmt::Display for Refusal {
    fn fmt(&self, f: &mut fmt::Formatter) -> fmt::Result {
        if !self.of.is_empty() {
            write!(f, "{}: ", self.of)?;
        }
        write!(f, "refused {}: {}", self.number, meaning(self.number))?;
        if !self.reason.is_empty() {
            write!(f, "\n   {}", self.reason)?;
        }
        Ok(())
    }
}

impl fmt::Display for Trouble {
    fn fmt(&self, f: &mut fmt::Formatter) -> fmt::Result {
        match self {
            Trouble::Bad(file, Fault { line: 0, word, what }) => write!(f, "{file}: {word}: {what}"),
            Trouble::Bad(file, Fault { line, word, what }) => write!(f, "{file}:{line}: {word}: {what}"),
            Trouble::Refused(refusal) => write!(f, "{refusal}"),
            Trouble::No(what) => write!(f, "{what}"),
            Trouble::Failed(what) => write!(f, "ring: {what}"),
            Trouble::Misuse("", what) => write!(f, "ring: {what}; `ring --help` has the commands"),
            Trouble::Misuse(name, what) => {
                write!(f, "ring {name}: {what}; `ring {name} --help` has its words")
            }
            Trouble::Closed => Ok(()),
        }
    }
}

/// The meaning of a number, in the words of the scope document and of the change requests.
pub fn meaning(number: u32) -> &'static str {
    match number {
        0 => "done",
        1 => "slot, place or key out of range",
        2 => "status forbids it",
        3 => "the same request already waits",
        4 => "leaf set empty, not empty or incomplete, as named",
        5 => "sender or partner not allowed",
        6 => "the pool after the step would exceed 256",
        7 => "file shorter than 32 bytes",
        8 => "M, L, n or message count out of range, or last header word not 0",
        9 => "an offset, the total or the real length disagrees with the counts",
        10 => "a table, record or start list breaks validity; A empty; message list without 256 places",
        11 => "write buffer too small",
        12 => "a further step after an end or beyond 1,000",
        13 => "a wide file with M above 32 asked into the old form",
        14 => "number out of range",
        15 => "table not settled",
        16 => "no room for a new key and month",
        u32::MAX => "more than the driver reads, 65,536 bytes, or an action that it does not know",
        _ => "not a number of the scope document",
    }
}
