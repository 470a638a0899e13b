//! A valid table with its messages, being made.

use crate::file::{write, LARGEST};
use crate::message::{Message, Pool, EMPTY_POOL};
use crate::table::Table;

#[derive(Clone)]
pub struct Case {
    pub table: Table,
    pub pool: Pool,
}

impl Case {
    pub fn new(table: Table) -> Case {
        Case { table, pool: EMPTY_POOL }
    }

    pub fn waiting(&self) -> &[Message] {
        &self.pool[..self.table.count]
    }

    /// The place of an equal message.
    pub fn place_of(&self, message: &Message) -> Option<usize> {
        self.waiting().iter().position(|other| other.equals(message))
    }

    /// Adds a message where there is room and no equal one.
    pub fn push(&mut self, message: Message) {
        if self.table.count < Table::MESSAGES && self.place_of(&message).is_none() {
            self.pool[self.table.count] = message;
            self.table.count += 1;
        }
    }

    /// The table file.
    pub fn file(&self) -> Vec<u8> {
        let mut buffer = [0; LARGEST];
        let length = write(&self.table, &self.pool, &mut buffer).expect("made tables are valid");
        buffer[..length].to_vec()
    }
}
