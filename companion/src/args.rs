//! The words of a command: options anywhere, the rest in order.

use crate::trouble::{Fault, Trouble};
use crate::words::Line;
use std::ffi::{OsStr, OsString};

/// An option, and what its value is called if it has one.
pub struct Opt {
    pub name: &'static str,
    pub value: Option<&'static str>,
    pub says: &'static str,
}

/// What a command was given.
pub struct Given {
    pub command: &'static str,
    pub words: Vec<OsString>,
    options: Vec<(&'static str, OsString)>,
}

impl Given {
    pub fn read(command: &'static str, known: &[Opt], words: &[OsString]) -> Result<Given, Trouble> {
        let mut given = Given { command, words: vec![], options: vec![] };
        let mut words = words.iter();
        while let Some(word) = words.next() {
            let text = word.to_string_lossy();
            if text == "--" {
                given.words.extend(words.by_ref().cloned());
            } else if !text.starts_with('-') || text == "-" {
                given.words.push(word.clone());
            } else {
                given.option(known, word, &mut words)?;
            }
        }
        Ok(given)
    }

    /// `-o FILE`, `--store FILE`, `--store=FILE` or a word alone.
    fn option<'a>(
        &mut self,
        known: &[Opt],
        word: &OsStr,
        more: &mut impl Iterator<Item = &'a OsString>,
    ) -> Result<(), Trouble> {
        let text = word.to_string_lossy().into_owned();
        let (name, joined) = match text.split_once('=') {
            Some((name, value)) => (name, Some(OsString::from(value))),
            None => (text.as_str(), None),
        };
        let Some(option) = known.iter().find(|option| option.name == name) else {
            return Err(self.misuse(&format!("{text}: no option of this command")));
        };
        if self.options.iter().any(|(given, _)| *given == option.name) {
            return Err(self.misuse(&format!("{text}: given twice")));
        }
        let value = match option.value {
            None if joined.is_some() => return Err(self.misuse(&format!("{text}: {name} has no value"))),
            None => OsString::new(),
            Some(wanted) => match joined.or_else(|| more.next().cloned()) {
                Some(value) => value,
                None => return Err(self.misuse(&format!("{text}: after this {wanted} is missing"))),
            },
        };
        self.options.push((option.name, value));
        Ok(())
    }

    pub fn value(&self, name: &str) -> Option<&OsStr> {
        self.options.iter().find(|(given, _)| *given == name).map(|(_, value)| value.as_os_str())
    }

    pub fn has(&self, name: &str) -> bool {
        self.value(name).is_some()
    }

    /// The first words, as many as are named here, and the rest.
    pub fn take<const N: usize>(&self, wanted: [&str; N]) -> Result<([&OsStr; N], &[OsString]), Trouble> {
        match wanted.get(self.words.len()) {
            Some(missing) => Err(self.misuse(&format!("{missing} is missing"))),
            None => {
                let mut at = 0..N;
                Ok((wanted.map(|_| self.words[at.next().unwrap_or(0)].as_os_str()), &self.words[N..]))
            }
        }
    }

    /// Exactly these words.
    pub fn exactly<const N: usize>(&self, wanted: [&str; N]) -> Result<[&OsStr; N], Trouble> {
        match self.take(wanted)? {
            (taken, []) => Ok(taken),
            (_, [more, ..]) => {
                Err(self.misuse(&format!("{}: nothing more is expected", more.to_string_lossy())))
            }
        }
    }

    pub fn misuse(&self, what: &str) -> Trouble {
        Trouble::Misuse(self.command, what.to_string())
    }

    /// A fault in words of the command line.
    pub fn bad(&self, fault: Fault) -> Trouble {
        Trouble::Bad(format!("ring {}", self.command), Fault { line: 0, ..fault })
    }
}

/// Words of the command line as text, with single spaces.
pub fn text(words: &[OsString]) -> String {
    words.iter().map(|word| word.to_string_lossy()).collect::<Vec<_>>().join(" ")
}

/// Words of the command line as a line, cut at spaces and commas.
pub fn line(text: &str) -> Line<'_> {
    Line::new(0, text.split([' ', ',', '\t', '\n']).filter(|word| !word.is_empty()).collect())
}

#[cfg(test)]
mod tests {
    use super::*;

    const KNOWN: [Opt; 2] =
        [Opt { name: "-o", value: Some("FILE"), says: "" }, Opt { name: "--long", value: None, says: "" }];

    fn given(words: &[&str]) -> Result<Given, String> {
        let words: Vec<OsString> = words.iter().map(OsString::from).collect();
        Given::read("do", &KNOWN, &words).map_err(|trouble| trouble.to_string())
    }

    #[test]
    fn options_stand_anywhere() {
        let given = given(&["a", "-o", "x", "-", "--long", "--", "-o"]).unwrap();
        assert_eq!(given.words, ["a", "-", "-o"]);
        assert_eq!(given.value("-o"), Some(OsStr::new("x")));
        assert!(given.has("--long"));
    }

    #[test]
    fn misuse_names_the_word() {
        let said = |words: &[&str]| given(words).map(|_| ()).unwrap_err();
        assert!(said(&["-x"]).starts_with("ring do: -x: no option"));
        assert!(said(&["-o"]).starts_with("ring do: -o: after this FILE is missing"));
        assert!(said(&["--long=1"]).starts_with("ring do: --long=1: --long has no value"));
        assert!(said(&["-o", "a", "-o", "b"]).starts_with("ring do: -o: given twice"));
    }
}
