//! The table file, as bytes and as a table.

use crate::table::{Message, Node, Table};
use crate::trouble::Trouble;

const HEADER: usize = 32;
const NODE: usize = 64;
const MESSAGE: usize = 56;

/// The table of a file, or nothing where the header's last five words or the length are not those that the counts ask for.
pub fn read(bytes: &[u8]) -> Option<Table> {
    let (header, records) = bytes.split_at_checked(HEADER)?;
    let [m, l, n, count, rest @ ..] = words::<8>(&mut Reader(header));
    let [nodes, messages] = [n, count].map(|number| usize::try_from(number).ok());
    let (nodes, messages) = (nodes?, messages?);
    let length = nodes.checked_mul(NODE)?.checked_add(messages.checked_mul(MESSAGE)?)?;
    if records.len() != length || rest != offsets(nodes, messages) {
        return None;
    }
    let (nodes, messages) = records.split_at(nodes * NODE);
    let nodes = nodes.chunks_exact(NODE).map(read_node).collect();
    let messages = messages.chunks_exact(MESSAGE).map(read_message).collect();
    Some(Table { m, l, nodes, messages })
}

/// The file of a table, valid or not.
pub fn write(table: &Table) -> Vec<u8> {
    let Table { m, l, nodes, messages } = table;
    let mut bytes = Vec::new();
    put_words(&mut bytes, &[*m, *l, nodes.len() as u32, messages.len() as u32]);
    put_words(&mut bytes, &offsets(nodes.len(), messages.len()));
    for Node { id, status, sets } in nodes {
        put_words(&mut bytes, &[*id, *status]);
        put_sets(&mut bytes, sets);
    }
    for Message { kind, at, word, flag, owner, hops, sets } in messages {
        put_words(&mut bytes, &[*kind, *at, *word, *flag, *owner, *hops]);
        put_sets(&mut bytes, sets);
    }
    bytes
}

/// The header's words after the counts: the offsets of nodes and messages, the total, 0.
fn offsets(nodes: usize, messages: usize) -> [u32; 4] {
    let at = HEADER + nodes * NODE;
    [HEADER as u32, at as u32, (at + messages * MESSAGE) as u32, 0]
}

fn read_node(record: &[u8]) -> Node {
    let mut from = Reader(record);
    let [id, status] = words(&mut from);
    Node { id, status, sets: sets(&mut from) }
}

fn read_message(record: &[u8]) -> Message {
    let mut from = Reader(record);
    let [kind, at, word, flag, owner, hops] = words(&mut from);
    Message { kind, at, word, flag, owner, hops, sets: sets(&mut from) }
}

fn words<const N: usize>(from: &mut Reader) -> [u32; N] {
    [(); N].map(|()| u32::from_le_bytes(from.take()))
}

fn sets<const N: usize>(from: &mut Reader) -> [u64; N] {
    [(); N].map(|()| u64::from_le_bytes(from.take()))
}

fn put_words(bytes: &mut Vec<u8>, words: &[u32]) {
    bytes.extend(words.iter().flat_map(|word| word.to_le_bytes()));
}

fn put_sets(bytes: &mut Vec<u8>, sets: &[u64]) {
    bytes.extend(sets.iter().flat_map(|set| set.to_le_bytes()));
}

/// Takes bytes from the front of a whole record.
struct Reader<'a>(&'a [u8]);

impl Reader<'_> {
    fn take<const N: usize>(&mut self) -> [u8; N] {
        let (taken, rest) = self.0.split_first_chunk().expect("a record is whole");
        self.0 = rest;
        *taken
    }
}

/// The table of a file that the proved code wrote.
pub fn known(bytes: &[u8]) -> Result<Table, Trouble> {
    read(bytes).ok_or_else(|| Trouble::Failed("the proved driver wrote no table file".to_string()))
}
