//! Start, settled, the listing and what waits for a node, as written.

use super::leaf::{covers, next_hop, Leaf};
use super::ring::fall;
use super::step::letter;
use super::{file, Node, Set, Table, Verdict, DEAD, OK, READY, WAIT};
use std::collections::BTreeSet;

pub fn start(m: u64, l: u64, a: u64, ids: &[u8]) -> Verdict {
    let ids: Vec<i64> =
        ids.chunks(4).map(|b| b.iter().rev().fold(0, |id, byte| id << 8 | i64::from(*byte))).collect();
    let a: Set = (0..64).filter(|s| a >> s & 1 == 1).collect();
    let mut numbers = BTreeSet::new();
    if !(2..=32).contains(&m) || !(1..=8).contains(&l) || ids.is_empty() || ids.len() > 64 {
        numbers.insert(8);
    }
    let rising = ids.windows(2).all(|pair| pair[0] < pair[1]);
    let fits = ids.iter().all(|id| u64::try_from(*id).is_ok_and(|id| m >= 64 || id >> m == 0));
    if !rising || !fits || a.is_empty() || a.iter().any(|&s| s >= ids.len()) {
        numbers.insert(10);
    }
    if !numbers.is_empty() {
        return Verdict::refused(numbers);
    }
    let blank = |(s, id): (usize, i64)| {
        let none = Set::new;
        let (left, right, probing, failed) = (none(), none(), none(), none());
        let routing = Set::from([s]);
        Node { id, status: DEAD, left, right, probing, failed, routing, lease: none(), grant: none() }
    };
    let nodes = ids.into_iter().enumerate().map(blank).collect();
    let mut table = Table { m: m as u32, l: l as usize, nodes, pool: Vec::new() };
    for &s in &a {
        let leaf = Leaf::of(&table, s).add(&table, &a);
        let node = &mut table.nodes[s];
        node.status = READY;
        (node.left, node.right) = (leaf.left, leaf.right);
        (node.routing, node.lease, node.grant) = (a.clone(), a.clone(), a.clone());
    }
    Verdict::done(file::bytes(&table))
}

pub fn settled(table: &Table) -> bool {
    let with = |status: u32| -> Vec<usize> {
        (0..table.nodes.len()).filter(|&s| table.nodes[s].status == status).collect()
    };
    let ready = with(READY);
    let id = |s: usize| table.nodes[s].id;
    let stands = |s: usize| {
        let others = || ready.iter().copied().filter(move |&o| o != s);
        let up = others().min_by_key(|&o| fall(table.m, id(o), id(s))).unwrap_or(s);
        let down = others().min_by_key(|&o| fall(table.m, id(s), id(o))).unwrap_or(s);
        let leaf = Leaf::of(table, s);
        leaf.left_neighbour(table) == up
            && leaf.right_neighbour(table) == down
            && ready.iter().all(|o| !table.nodes[s].failed.contains(o))
    };
    !ready.is_empty() && with(WAIT).is_empty() && with(OK).is_empty() && ready.iter().all(|&s| stands(s))
}

pub fn listing(bytes: &[u8]) -> Vec<u8> {
    if let Some(number) = file::refusals(bytes).first() {
        return format!("refused {number}\n").into_bytes();
    }
    let table = file::read(bytes);
    let mut text = String::from("key from to hops via\n");
    for m in table.pool.iter().filter(|m| m.kind == 1) {
        let (mut at, mut via, k) = (m.to, String::new(), m.node_or_key);
        let end = loop {
            if table.nodes[at].status != READY {
                break "-".to_string();
            }
            if covers(&table, at, k) {
                break table.nodes[at].id.to_string();
            }
            let Some(h) = next_hop(&table, at, k) else {
                break "-".to_string();
            };
            via.push(letter(&table, at, h).into());
            at = h;
        };
        let hops = via.len();
        if hops == 0 {
            via.push('-');
        }
        text += &format!("{k} {} {end} {hops} {via}\n", table.nodes[m.to].id);
    }
    text.into_bytes()
}

/// The least of all places whose message is for the node.
pub fn waiting(table: &Table, slot: u64) -> Verdict {
    if !(0..table.nodes.len() as u64).contains(&slot) {
        return Verdict::refused(BTreeSet::from([1]));
    }
    let places = (0u32..).zip(&table.pool).filter(|(_, m)| m.to as u64 == slot).map(|(place, _)| place);
    Verdict::done(match places.min() {
        Some(place) => [&[1], &place.to_le_bytes()[..]].concat(),
        None => vec![0],
    })
}
