//! A state: a table and a set of messages, named by the numbers of their records. The order of the pool is of no account:
//! crates/order_laws has this proved of the step.

use crate::file::{self, Frame, Message, Node};
use crate::index::Index;
use crate::ring::{Place, Ring};

/// Node numbers by slot, and the numbers of the waiting messages, rising.
#[derive(Clone, Debug, Default, PartialEq, Eq)]
pub struct State {
    pub nodes: Vec<u32>,
    pub messages: Vec<u32>,
}

/// What of a record tells states apart.
#[derive(Clone, Copy)]
pub struct Key {
    pub node: fn(Node) -> Node,
    pub message: fn(Message) -> Message,
}

impl Key {
    /// Everything.
    pub const WHOLE: Key = Key { node: |node| node, message: |message| message };
}

/// The records that were met, and what the questions ask of them.
pub struct Records {
    pub frame: Frame,
    pub ring: Ring,
    key: Key,
    nodes: Index<8>,
    places: Vec<Place>,
    messages: Index<7>,
}

impl Records {
    pub fn new(frame: Frame, key: Key) -> Records {
        let ring = Ring::new(frame.m);
        Records { frame, ring, key, nodes: Index::default(), places: Vec::new(), messages: Index::default() }
    }

    pub fn node_number(&mut self, node: Node) -> u32 {
        let node = (self.key.node)(node);
        let (number, is_new) = self.nodes.number(&node.0);
        if is_new {
            self.places.push(self.ring.place(&self.frame, &node));
        }
        number
    }

    pub fn message_number(&mut self, message: Message) -> u32 {
        self.messages.number(&(self.key.message)(message).0).0
    }

    pub fn node(&self, number: u32) -> Node {
        Node(*self.nodes.record(number))
    }

    pub fn place(&self, number: u32) -> &Place {
        &self.places[number as usize]
    }

    pub fn message(&self, number: u32) -> Message {
        Message(*self.messages.record(number))
    }

    /// Where a message is to be put among numbers that rise; nowhere if an equal one is there.
    pub fn room_for(&self, message: u32, messages: &[u32]) -> Option<usize> {
        let new = self.message(message);
        let place = messages.binary_search(&message).err()?;
        let met = new.kind() == file::LOOKUP && messages.iter().any(|&old| self.message(old).equals(&new));
        (!met).then_some(place)
    }

    /// How many nodes' and messages' records there are.
    pub fn counts(&self) -> (usize, usize) {
        (self.nodes.len(), self.messages.len())
    }

    /// A node whose next hop looks at its routing set.
    pub fn far(&self) -> Option<u32> {
        self.places.iter().find(|place| place.far).map(|place| place.id)
    }

    /// The state of a table file.
    pub fn read(&mut self, file: &[u8], state: &mut State) {
        state.nodes.clear();
        state.messages.clear();
        for node in file::nodes(file) {
            let number = self.node_number(node);
            state.nodes.push(number);
        }
        for message in file::messages(file) {
            let number = self.message_number(message);
            state.messages.push(number);
        }
        state.messages.sort_unstable();
        state.messages.dedup();
    }

    /// The table file of these nodes and messages, in this order.
    pub fn write(&self, nodes: &[u32], messages: &[u32], file: &mut Vec<u8>) {
        let nodes = nodes.iter().map(|&number| self.node(number));
        let messages = messages.iter().map(|&number| self.message(number));
        file::write(&self.frame, nodes, messages, file);
    }

    pub fn bytes(&self) -> usize {
        self.nodes.bytes() + self.messages.bytes() + self.places.capacity() * size_of::<Place>()
    }
}

impl State {
    /// The state as bytes: its numbers in seven-bit pieces, each message as its distance from the one before. Inverse to `unpack`.
    pub fn pack(&self, bytes: &mut Vec<u8>) {
        bytes.clear();
        self.nodes.iter().for_each(|&number| push(bytes, number));
        let mut before = 0;
        for &number in &self.messages {
            push(bytes, number - before);
            before = number;
        }
    }

    pub fn unpack(&mut self, n: usize, bytes: &[u8]) {
        self.nodes.clear();
        self.messages.clear();
        let (mut number, mut shift, mut before) = (0, 0, 0);
        for byte in bytes {
            number |= u32::from(byte & 127) << shift;
            shift += 7;
            if byte & 128 == 0 {
                if self.nodes.len() < n {
                    self.nodes.push(number);
                } else {
                    before += number;
                    self.messages.push(before);
                }
                (number, shift) = (0, 0);
            }
        }
    }
}

fn push(bytes: &mut Vec<u8>, mut number: u32) {
    while number >= 128 {
        bytes.push(number as u8 | 128);
        number >>= 7;
    }
    bytes.push(number as u8);
}
