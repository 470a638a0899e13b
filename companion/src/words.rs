//! Texts as lines of words. `#` begins a comment.

use crate::trouble::Fault;

/// The words of a line; those before `next` are taken.
#[derive(Clone)]
pub struct Line<'a> {
    number: usize,
    words: Vec<&'a str>,
    next: usize,
}

/// The lines that hold words.
pub fn lines(text: &str) -> Vec<Line<'_>> {
    let numbered = text.lines().zip(1..);
    let lines = numbered.map(|(line, number)| {
        let line = line.split('#').next().unwrap_or_default();
        Line::new(number, line.split_whitespace().collect())
    });
    lines.filter(|line| !line.words.is_empty()).collect()
}

impl<'a> Line<'a> {
    pub fn new(number: usize, words: Vec<&'a str>) -> Line<'a> {
        Line { number, words, next: 0 }
    }

    /// The line as it was written, with single spaces.
    pub fn text(&self) -> String {
        self.words.join(" ")
    }

    /// The words that are not taken yet.
    pub fn rest(&self) -> &[&'a str] {
        &self.words[self.next.min(self.words.len())..]
    }

    pub fn peek(&self) -> Option<&'a str> {
        self.words.get(self.next).copied()
    }

    /// Takes the next word; `wanted` says what it should be.
    pub fn take(&mut self, wanted: &str) -> Result<&'a str, Fault> {
        let word = self.peek().ok_or_else(|| self.fault(&format!("after this {wanted} is missing")))?;
        self.next += 1;
        Ok(word)
    }

    pub fn take_number(&mut self, wanted: &str, greatest: u64) -> Result<u64, Fault> {
        let word = self.take(wanted)?;
        number(word, greatest).ok_or_else(|| self.fault(&format!("{wanted} is expected, 0 to {greatest}")))
    }

    pub fn take_u32(&mut self, wanted: &str) -> Result<u32, Fault> {
        Ok(self.take_number(wanted, u32::MAX.into())? as u32)
    }

    /// Takes `NAME=NUMBER`.
    pub fn take_setting(&mut self, name: &str, greatest: u64) -> Result<u64, Fault> {
        let wanted = format!("`{name}=` and a number");
        let value = self.take(&wanted)?.strip_prefix(name).and_then(|rest| rest.strip_prefix('='));
        let value = value.and_then(|digits| number(digits, greatest));
        value.ok_or_else(|| self.fault(&format!("{wanted} is expected, 0 to {greatest}")))
    }

    /// Takes a word that must be this one.
    pub fn take_exactly(&mut self, wanted: &str) -> Result<(), Fault> {
        match self.take(&format!("`{wanted}`"))? {
            word if word == wanted => Ok(()),
            _ => Err(self.fault(&format!("`{wanted}` is expected"))),
        }
    }

    /// Takes the words before this one, and it.
    pub fn until(&mut self, word: &str) -> Result<Line<'a>, Fault> {
        let begin = self.next;
        while self.peek().is_some_and(|next| next != word) {
            self.next += 1;
        }
        let taken = Line { number: self.number, words: self.words[begin..self.next].to_vec(), next: 0 };
        self.take_exactly(word)?;
        Ok(taken)
    }

    pub fn end(&mut self) -> Result<(), Fault> {
        if self.peek().is_none() {
            return Ok(());
        }
        self.next += 1;
        Err(self.fault("nothing more is expected on this line"))
    }

    /// A fault at the last word taken.
    pub fn fault(&self, what: &str) -> Fault {
        let word = self.words.get(self.next.saturating_sub(1)).copied().unwrap_or("(nothing)");
        Fault { line: self.number, word: word.to_string(), what: what.to_string() }
    }
}

/// A number in decimal digits.
pub fn number(word: &str, greatest: u64) -> Option<u64> {
    let digits = !word.is_empty() && word.bytes().all(|byte| byte.is_ascii_digit());
    word.parse().ok().filter(|value| digits && *value <= greatest)
}
