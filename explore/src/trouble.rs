//! Why a search cannot be made, and the exit status then.

use std::fmt;
use std::io;

#[derive(Debug)]
pub enum Trouble {
    /// The proved code refuses the table or the start with this number.
    Refused(u32),
    /// A plan that cannot be read, a file or a program that fails, or an answer that cannot be.
    Failed(String),
    /// Words that are no use of the command.
    Misuse(String),
}

impl Trouble {
    pub fn io(name: &str, error: &io::Error) -> Trouble {
        Trouble::Failed(format!("{name}: {error}"))
    }
}

impl fmt::Display for Trouble {
    fn fmt(&self, f: &mut fmt::Formatter) -> fmt::Result {
        match self {
            Trouble::Refused(number) => write!(f, "refused {number}"),
            Trouble::Failed(what) => write!(f, "ring explore: {what}"),
            Trouble::Misuse(what) => write!(f, "ring explore: {what}; `ring explore --help` has its words"),
        }
    }
}
