//! The proved code: a step and a start on table files. In process where the library is linked, else by the driver (docs/DRIVER.md).

use crate::file::LONGEST;
use crate::trouble::Trouble;
use std::io::{self, BufReader, Read, Write};
use std::process::{Child, ChildStdin, ChildStdout, Command, Stdio};

/// Room for every table file.
pub type Room = Box<[u8; LONGEST]>;

pub fn room() -> Room {
    Box::new([0; LONGEST])
}

/// An action's number and its two words.
pub type Words = [u64; 3];

/// 01's number, and where it is 0 how many bytes were written.
#[derive(Clone, Copy, Debug, PartialEq, Eq)]
pub struct Answer {
    pub number: u32,
    pub count: usize,
}

/// What makes steps.
pub trait Engine {
    /// Makes the step on a table file, and writes the file after it to the start of `out`.
    fn step(&mut self, file: &[u8], action: Words, out: &mut Room) -> Result<Answer, Trouble>;
    /// Writes the file of a start: M, L, the ready set as marks, the ids.
    fn start(&mut self, settings: Words, ids: &[u32], out: &mut Room) -> Result<Answer, Trouble>;
    /// How the proved code is reached.
    fn name(&self) -> &'static str;
}

#[cfg(linked)]
mod calls {
    extern "C" {
        pub fn tarpudhriv_step(
            file: *const u8,
            file_len: usize,
            action: u64,
            x: u64,
            y: u64,
            out: *mut u8,
            out_len: usize,
        ) -> u64;
        pub fn tarpudhriv_start(
            m: u64,
            l: u64,
            a: u64,
            ids: *const u32,
            ids_len: usize,
            out: *mut u8,
            out_len: usize,
        ) -> u64;
    }
}

/// The library that is linked (include/tarpudhriv.h).
#[cfg(linked)]
pub struct Library;

#[cfg(linked)]
fn told(word: u64) -> Answer {
    Answer { number: word as u32, count: (word >> 32) as usize }
}

// The calls presume nothing but slices that are whole and do not overlap.
#[cfg(linked)]
impl Engine for Library {
    fn step(&mut self, file: &[u8], [action, x, y]: Words, out: &mut Room) -> Result<Answer, Trouble> {
        let (to, room) = (out.as_mut_ptr(), out.len());
        Ok(told(unsafe { calls::tarpudhriv_step(file.as_ptr(), file.len(), action, x, y, to, room) }))
    }

    fn start(&mut self, [m, l, a]: Words, ids: &[u32], out: &mut Room) -> Result<Answer, Trouble> {
        let (to, room) = (out.as_mut_ptr(), out.len());
        Ok(told(unsafe { calls::tarpudhriv_start(m, l, a, ids.as_ptr(), ids.len(), to, room) }))
    }

    fn name(&self) -> &'static str {
        "in process"
    }
}

/// The library where it is linked, else a driver of that path.
#[cfg(linked)]
pub fn nearest(_driver: &str) -> Result<Box<dyn Engine>, Trouble> {
    Ok(Box::new(Library))
}

#[cfg(not(linked))]
pub fn nearest(driver: &str) -> Result<Box<dyn Engine>, Trouble> {
    Ok(Box::new(Driver::run(driver)?))
}

/// The driver, one process that answers all requests.
pub struct Driver {
    child: Child,
    input: Option<ChildStdin>,
    output: BufReader<ChildStdout>,
    request: Vec<u8>,
}

impl Driver {
    pub fn run(program: &str) -> Result<Driver, Trouble> {
        let failed = |error| Trouble::io(program, &error);
        let mut command = Command::new(program);
        let mut child = command.stdin(Stdio::piped()).stdout(Stdio::piped()).spawn().map_err(failed)?;
        let input = child.stdin.take();
        let output = BufReader::new(child.stdout.take().expect("it is piped"));
        Ok(Driver { child, input, output, request: Vec::new() })
    }

    /// Begins a rehearsal with this table file: whether it is accepted so far.
    pub fn begin(&mut self, file: &[u8]) -> Result<bool, Trouble> {
        self.verdict(5, &[], file)
    }

    /// Hands over the next step of the rehearsal, with the file that is said to result: whether it is accepted so far.
    pub fn next(&mut self, action: Words, file: &[u8]) -> Result<bool, Trouble> {
        self.verdict(6, &action, file)
    }

    fn verdict(&mut self, kind: u8, words: &[u64], file: &[u8]) -> Result<bool, Trouble> {
        let mut out = room();
        match self.ask(kind, words, file, &mut out)? {
            Answer { number: 0, count } if count > 0 => Ok(out[0] == 1),
            answer => Err(Trouble::Refused(answer.number)),
        }
    }

    fn ask(&mut self, kind: u8, words: &[u64], rest: &[u8], out: &mut Room) -> Result<Answer, Trouble> {
        let length = (1 + 8 * words.len() + rest.len()) as u32;
        self.request.clear();
        self.request.extend_from_slice(&length.to_le_bytes());
        self.request.push(kind);
        words.iter().for_each(|word| self.request.extend_from_slice(&word.to_le_bytes()));
        self.request.extend_from_slice(rest);
        self.exchange(out).map_err(|error| Trouble::Failed(format!("the driver gave no reply: {error}")))
    }

    fn exchange(&mut self, out: &mut Room) -> io::Result<Answer> {
        let input = self.input.as_mut().expect("it is piped");
        input.write_all(&self.request)?;
        input.flush()?;
        let count = (self.word()? as usize).saturating_sub(4);
        let number = self.word()?;
        let room = out.get_mut(..count).ok_or_else(|| io::Error::other("it is too long"))?;
        self.output.read_exact(room)?;
        Ok(Answer { number, count })
    }

    fn word(&mut self) -> io::Result<u32> {
        let mut word = [0; 4];
        self.output.read_exact(&mut word)?;
        Ok(u32::from_le_bytes(word))
    }
}

impl Engine for Driver {
    fn step(&mut self, file: &[u8], action: Words, out: &mut Room) -> Result<Answer, Trouble> {
        self.ask(1, &action, file, out)
    }

    fn start(&mut self, settings: Words, ids: &[u32], out: &mut Room) -> Result<Answer, Trouble> {
        let ids: Vec<u8> = ids.iter().flat_map(|id| id.to_le_bytes()).collect();
        self.ask(2, &settings, &ids, out)
    }

    fn name(&self) -> &'static str {
        "by the driver"
    }
}

impl Drop for Driver {
    /// Ends the input, and with it the driver.
    fn drop(&mut self) {
        self.input.take();
        self.child.wait().ok();
    }
}
