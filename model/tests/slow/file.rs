//! The table file and validity, as written.

use super::ring::nearer;
use super::{Message, Node, Set, Table};
use std::collections::BTreeSet;

fn word(bytes: &[u8], at: usize) -> u64 {
    (0..4).map(|i| u64::from(bytes[at + i]) << (8 * i)).sum()
}

fn long(bytes: &[u8], at: usize) -> u64 {
    word(bytes, at) + (word(bytes, at + 4) << 32)
}

fn set(bytes: &[u8], at: usize) -> Set {
    let marks = long(bytes, at);
    (0..64).filter(|s| marks >> s & 1 == 1).collect()
}

/// Every number from 7 to 10 that applies, as far as the file can be read.
pub fn refusals(bytes: &[u8]) -> BTreeSet<u32> {
    let mut numbers = BTreeSet::new();
    if bytes.len() < 32 {
        return BTreeSet::from([7]);
    }
    let [m, l, n, count, nodes, messages, total, last] = std::array::from_fn(|i| word(bytes, 4 * i));
    let ranges = (2..=32).contains(&m) && (1..=8).contains(&l) && (1..=64).contains(&n) && count <= 256;
    if !ranges || last != 0 {
        numbers.insert(8);
    }
    let whole = 32 + 64 * n + 56 * count;
    if nodes != 32 || messages != 32 + 64 * n || total != whole || bytes.len() as u64 != whole {
        numbers.insert(9);
    }
    if ranges && bytes.len() as u64 >= whole && !valid(bytes) {
        numbers.insert(10);
    }
    numbers
}

/// Whether the records of a file with counts in range make a valid table.
fn valid(bytes: &[u8]) -> bool {
    let [m, l, n, count] = std::array::from_fn(|i| word(bytes, 4 * i));
    let (n, count) = (n as usize, count as usize);
    let slots = (0..count).all(|p| {
        let at = 32 + 64 * n + 56 * p;
        word(bytes, at + 4) < n as u64 && word(bytes, at + 16) < n as u64
    });
    let statuses = (0..n).all(|s| word(bytes, 32 + 64 * s + 4) <= 3);
    slots && statuses && table_valid(&read(bytes), m as u32, l as usize)
}

fn table_valid(table: &Table, m: u32, l: usize) -> bool {
    let n = table.nodes.len();
    let listed = |set: &Set| set.iter().all(|&s| s < n);
    let ids = table.nodes.iter().all(|node| node.id < 1 << m)
        && (1..n).all(|s| table.nodes[s - 1].id < table.nodes[s].id);
    let nodes = table.nodes.iter().enumerate().all(|(s, node)| {
        [&node.left, &node.right, &node.probing, &node.failed, &node.routing, &node.lease, &node.grant]
            .into_iter()
            .all(listed)
            && node.left.len() <= l
            && node.right.len() <= l
            && [&node.left, &node.right, &node.probing, &node.failed].iter().all(|set| !set.contains(&s))
    });
    let alone =
        (0..table.pool.len()).all(|p| table.pool[..p].iter().all(|other| !other.equals(&table.pool[p])));
    ids && nodes
        && alone
        && table.pool.iter().all(|message| message_valid(message, n, m, l) && hops_valid(table, message))
}

/// A Lookup's hops are at most the number of listed nodes farther from its key than its destination; any other kind
/// has none.
fn hops_valid(table: &Table, message: &Message) -> bool {
    if message.kind != 1 {
        return message.hops == 0;
    }
    let (key, at) = (message.node_or_key, table.nodes[message.to].id);
    let farther = table.nodes.iter().filter(|node| nearer(table.m, key, at, node.id)).count();
    message.hops <= farther as u64
}

fn message_valid(message: &Message, n: usize, m: u32, l: usize) -> bool {
    let Message { kind, to, node_or_key, flag, owner, routing, left, right, failed, .. } = message;
    let listed = |set: &Set| set.iter().all(|&s| s < n);
    let no_flag = *flag == 0;
    let no_owner = *owner == 0;
    let no_leaves = left.is_empty() && right.is_empty();
    let node = (0..n as i64).contains(node_or_key);
    let key = (0..1 << m).contains(node_or_key);
    let leaves = *owner < n
        && listed(left)
        && listed(right)
        && left.len() <= l
        && right.len() <= l
        && !left.contains(owner)
        && !right.contains(owner);
    let (no_routing, no_failed) = (routing.is_empty(), failed.is_empty());
    *to < n
        && match kind {
            1 | 6 => key && no_flag && no_owner && no_routing && no_leaves && no_failed,
            2 => node && no_flag && no_owner && listed(routing) && no_leaves && no_failed,
            3 => *node_or_key == 0 && no_flag && leaves && listed(routing) && no_failed,
            4 | 5 => {
                node && no_flag && *node_or_key == *owner as i64 && leaves && no_routing && listed(failed)
            }
            7 => node && no_flag && no_owner && no_routing && no_leaves && no_failed,
            8 => *node_or_key == 0 && *flag <= 1 && leaves && no_routing && no_failed,
            _ => false,
        }
}

/// Reads a file that is long enough.
pub fn read(bytes: &[u8]) -> Table {
    let (n, count) = (word(bytes, 8) as usize, word(bytes, 12) as usize);
    let node = |s: usize| {
        let at = 32 + 64 * s;
        let [left, right, probing, failed, routing, lease, grant] =
            std::array::from_fn(|i| set(bytes, at + 8 + 8 * i));
        let (id, status) = (word(bytes, at) as i64, word(bytes, at + 4) as u32);
        Node { id, status, left, right, probing, failed, routing, lease, grant }
    };
    let message = |p: usize| {
        let at = 32 + 64 * n + 56 * p;
        let [routing, left, right, failed] = std::array::from_fn(|i| set(bytes, at + 24 + 8 * i));
        Message {
            kind: word(bytes, at) as u32,
            to: word(bytes, at + 4) as usize,
            node_or_key: word(bytes, at + 8) as i64,
            flag: word(bytes, at + 12) as u32,
            owner: word(bytes, at + 16) as usize,
            hops: word(bytes, at + 20),
            routing,
            left,
            right,
            failed,
        }
    };
    Table {
        m: word(bytes, 0) as u32,
        l: word(bytes, 4) as usize,
        nodes: (0..n).map(node).collect(),
        pool: (0..count).map(message).collect(),
    }
}

pub fn bytes(table: &Table) -> Vec<u8> {
    let (n, count) = (table.nodes.len() as u32, table.pool.len() as u32);
    let mut out = Vec::new();
    let header = [table.m, table.l as u32, n, count, 32, 32 + 64 * n, 32 + 64 * n + 56 * count, 0];
    header.iter().for_each(|word| out.extend(word.to_le_bytes()));
    let marks = |set: &Set| set.iter().map(|s| 1u64 << s).sum::<u64>().to_le_bytes();
    for node in &table.nodes {
        out.extend((node.id as u32).to_le_bytes());
        out.extend(node.status.to_le_bytes());
        for set in
            [&node.left, &node.right, &node.probing, &node.failed, &node.routing, &node.lease, &node.grant]
        {
            out.extend(marks(set));
        }
    }
    for m in &table.pool {
        for word in [m.kind, m.to as u32, m.node_or_key as u32, m.flag, m.owner as u32, m.hops as u32] {
            out.extend(word.to_le_bytes());
        }
        for set in [&m.routing, &m.left, &m.right, &m.failed] {
            out.extend(marks(set));
        }
    }
    out
}
