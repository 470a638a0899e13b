//! One run of the command: the driver, started when it is first asked, and the tables that files and texts hold.

use crate::driver::{Driver, Start};
use crate::faults;
use crate::file;
use crate::files;
use crate::parse::{self, Text};
use crate::print;
use crate::table::Table;
use crate::trouble::Trouble;
use std::ffi::{OsStr, OsString};
use std::path::Path;

pub struct Desk {
    words: Vec<OsString>,
    driver: Option<Driver>,
}

impl Desk {
    /// With the words that run the driver.
    pub fn new(words: Vec<OsString>) -> Desk {
        Desk { words, driver: None }
    }

    pub fn driver(&mut self) -> Result<&mut Driver, Trouble> {
        let driver = match self.driver.take() {
            Some(driver) => driver,
            None => Driver::run(&self.words)?,
        };
        Ok(self.driver.insert(driver))
    }

    /// The table of a table file or a text, if the proved code loads it.
    pub fn table(&mut self, path: &OsStr) -> Result<Table, Trouble> {
        let bytes = self.bytes(path)?;
        self.load(&files::name(path), &bytes)
    }

    /// The table of a file's bytes, if the proved code loads it.
    pub fn load(&mut self, name: &str, bytes: &[u8]) -> Result<Table, Trouble> {
        let reply = self.driver()?.load(bytes)?;
        let done =
            reply.done().map_err(|trouble| trouble.of(name, |number| faults::of_file(bytes, number)))?;
        file::known(&done)
    }

    /// The bytes of a table file, or of the one that a text describes.
    pub fn bytes(&mut self, path: &OsStr) -> Result<Vec<u8>, Trouble> {
        let given = files::read(path)?;
        if given.contains(&0) {
            return Ok(given);
        }
        if given.is_empty() {
            return Err(Trouble::Failed(format!(
                "{}: empty; neither a text nor a table file",
                files::name(path)
            )));
        }
        let text = files::text(path, &given)?;
        match parse::text(&text).map_err(|fault| Trouble::Bad(files::name(path), fault))? {
            Text::Table(table) => Ok(file::write(&table)),
            Text::Start(start) => self.started(&files::name(path), &start),
        }
    }

    /// The table file of a start.
    pub fn started(&mut self, name: &str, start: &Start) -> Result<Vec<u8>, Trouble> {
        let done = self.driver()?.start(start)?.done();
        done.map_err(|trouble| trouble.of(name, |number| faults::of_start(start, number)))
    }
}

/// A table where `-o` says: a table file, or text where the name ends in `.txt`; text to standard output.
pub fn put(out: Option<&OsStr>, table: &Table) -> Result<(), Trouble> {
    match out {
        Some(path) if path != "-" && !is_text(path) => files::write(path, &file::write(table)),
        Some(path) => files::write(path, print::table(table).as_bytes()),
        None => files::print(print::table(table).as_bytes()),
    }
}

fn is_text(path: &OsStr) -> bool {
    Path::new(path).extension().is_some_and(|ending| ending == "txt")
}
