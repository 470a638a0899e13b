//! The proved code, asked through its driver (docs/DRIVER.md). One process answers all requests of a run.

use crate::trouble::Trouble;
use std::ffi::OsString;
use std::io::{self, BufReader, Read, Write};
use std::process::{Child, ChildStdin, ChildStdout, Command, Stdio};

pub struct Driver {
    child: Child,
    input: Option<ChildStdin>,
    output: BufReader<ChildStdout>,
}

/// A number and, where it is 0, the result.
pub struct Reply {
    pub number: u32,
    pub result: Vec<u8>,
}

/// Where a hop came from: a node in both counts as leaf set (T-01).
#[derive(Clone, Copy, Debug, PartialEq, Eq)]
pub enum Via {
    Leaf,
    Routing,
}

impl Via {
    /// The listing's letter.
    pub fn letter(self) -> char {
        match self {
            Via::Leaf => 'l',
            Via::Routing => 'r',
        }
    }

    pub fn words(self) -> &'static str {
        match self {
            Via::Leaf => "by the leaf set",
            Via::Routing => "by the routing set",
        }
    }
}

/// What a step is answered: a number and, where it is 0, how a message was routed, if one was, and the file after it.
pub struct Stepped {
    pub number: u32,
    pub via: Option<Via>,
    pub file: Vec<u8>,
}

/// An action's number and its two words.
pub type ActionWords = [u64; 3];

/// What a start is made of; `ready` is the set A.
#[derive(Clone, Debug, PartialEq, Eq)]
pub struct Start {
    pub m: u64,
    pub l: u64,
    pub ready: u64,
    pub ids: Vec<u32>,
}

/// What is said of a rehearsal so far: accepted, or the first bad step, 0 for the start.
#[derive(Clone, Copy, Debug, PartialEq, Eq)]
pub enum Verdict {
    Accepted,
    Bad(u32),
}

/// Where a water record went, and its change of stored water.
#[derive(Clone, Copy, Debug, PartialEq, Eq)]
pub struct Placed {
    pub holder: u32,
    pub copies: u64,
    pub change: i64,
}

impl Driver {
    /// Runs the driver by these words: a program and its arguments.
    pub fn run(words: &[OsString]) -> Result<Driver, Trouble> {
        let [program, arguments @ ..] = words else {
            return Err(Trouble::Failed("no driver: run the command by bin/ring".to_string()));
        };
        let failed = |error| Trouble::io(&program.to_string_lossy(), &error);
        let mut command = Command::new(program);
        command.args(arguments).stdin(Stdio::piped()).stdout(Stdio::piped());
        let mut child = command.spawn().map_err(failed)?;
        let input = child.stdin.take();
        let output =
            child.stdout.take().ok_or_else(|| Trouble::Failed("no pipe to the driver".to_string()))?;
        Ok(Driver { child, input, output: BufReader::new(output) })
    }

    /// The file written back.
    pub fn load(&mut self, file: &[u8]) -> Result<Reply, Trouble> {
        self.ask(0, &[], file)
    }

    /// The file after the action, and how it routed a message, if it did.
    pub fn step(&mut self, action: ActionWords, file: &[u8]) -> Result<Stepped, Trouble> {
        let Reply { number, result } = self.ask(11, &action, file)?;
        let (via, file) = match result.split_first() {
            None if number != 0 => (None, vec![]),
            Some((0, file)) => (None, file.to_vec()),
            Some((b'l', file)) => (Some(Via::Leaf), file.to_vec()),
            Some((b'r', file)) => (Some(Via::Routing), file.to_vec()),
            _ => return Err(Trouble::Failed("the proved driver's step has no such letter".to_string())),
        };
        Ok(Stepped { number, via, file })
    }

    /// The file of the start.
    pub fn start(&mut self, start: &Start) -> Result<Reply, Trouble> {
        let ids: Vec<u8> = start.ids.iter().flat_map(|id| id.to_le_bytes()).collect();
        self.ask(2, &[start.m, start.l, start.ready], &ids)
    }

    pub fn settled(&mut self, file: &[u8]) -> Result<bool, Trouble> {
        Ok(self.ask(3, &[], file)?.done()? == [1])
    }

    pub fn listing(&mut self, file: &[u8]) -> Result<String, Trouble> {
        let bytes = self.ask(4, &[], file)?.done()?;
        Ok(String::from_utf8_lossy(&bytes).into_owned())
    }

    pub fn begin_rehearsal(&mut self, file: &[u8]) -> Result<Verdict, Trouble> {
        verdict(&self.ask(5, &[], file)?.done()?)
    }

    pub fn next_of_rehearsal(&mut self, action: ActionWords, stated: &[u8]) -> Result<Verdict, Trouble> {
        verdict(&self.ask(6, &action, stated)?.done()?)
    }

    pub fn place_record(&mut self, record: [u64; 5], file: &[u8]) -> Result<Placed, Trouble> {
        let result = self.ask(8, &record, file)?.done()?;
        let [holder, copies, change] = words(&result, [4, 8, 8])?;
        Ok(Placed { holder: holder as u32, copies, change: change as i64 })
    }

    /// How many records are held, and the sum of their changes.
    pub fn sum(&mut self) -> Result<(u64, i64), Trouble> {
        let result = self.ask(9, &[], &[])?.done()?;
        let [count, sum] = words(&result, [4, 8])?;
        Ok((count, sum as i64))
    }

    /// The place of a node's first message.
    pub fn waiting(&mut self, slot: u64, file: &[u8]) -> Result<Option<u32>, Trouble> {
        match self.ask(10, &[slot], file)?.done()?.split_first() {
            Some((1, place)) => words(place, [4]).map(|[place]| Some(place as u32)),
            _ => Ok(None),
        }
    }

    fn ask(&mut self, kind: u8, words: &[u64], rest: &[u8]) -> Result<Reply, Trouble> {
        let mut body = vec![kind];
        body.extend(words.iter().flat_map(|word| word.to_le_bytes()));
        body.extend_from_slice(rest);
        self.exchange(&body).map_err(|error| Trouble::io("the proved driver gave no reply", &error))
    }

    fn exchange(&mut self, body: &[u8]) -> io::Result<Reply> {
        let length = u32::try_from(body.len()).map_err(io::Error::other)?;
        let input = self.input.as_mut().ok_or_else(|| io::Error::other("it has ended"))?;
        input.write_all(&[&length.to_le_bytes(), body].concat())?;
        input.flush()?;
        let length = self.word()?;
        let number = self.word()?;
        let mut result = vec![0; (length as usize).saturating_sub(4)];
        self.output.read_exact(&mut result)?;
        Ok(Reply { number, result })
    }

    fn word(&mut self) -> io::Result<u32> {
        let mut word = [0; 4];
        self.output.read_exact(&mut word)?;
        Ok(u32::from_le_bytes(word))
    }
}

impl Drop for Driver {
    /// Ends the input, and with it the driver.
    fn drop(&mut self) {
        self.input.take();
        self.child.wait().ok();
    }
}

impl Reply {
    pub fn done(self) -> Result<Vec<u8>, Trouble> {
        match self.number {
            0 => Ok(self.result),
            number => Err(Trouble::refused(number)),
        }
    }
}

/// Little-endian words of these widths, and nothing behind them.
fn words<const N: usize>(bytes: &[u8], widths: [usize; N]) -> Result<[u64; N], Trouble> {
    if bytes.len() != widths.iter().sum::<usize>() {
        return Err(Trouble::Failed(
            "the proved driver's reply has another length than its page says".to_string(),
        ));
    }
    let mut at = 0;
    Ok(widths.map(|width| {
        let word = bytes[at..at + width].iter().rev().fold(0, |word, byte| word << 8 | u64::from(*byte));
        at += width;
        word
    }))
}

fn verdict(bytes: &[u8]) -> Result<Verdict, Trouble> {
    match bytes.split_first() {
        Some((0, step)) => words(step, [4]).map(|[step]| Verdict::Bad(step as u32)),
        _ => Ok(Verdict::Accepted),
    }
}
