//! The actions, as written. Every refusal that applies is collected; the effect is worked out
//! whether or not one does. Where 5 is given whatever the status, 2 does not apply.

use super::leaf::{covers, next_hop, Leaf};
use super::{file, leave, Message, Set, Table, Verdict, DEAD, OK, READY, WAIT};
use std::collections::BTreeSet;

/// The table that a done step leaves, before its additions, and those additions.
pub struct Effect {
    pub table: Table,
    pub additions: Vec<Message>,
}

pub fn judge(table: &Table, action: u64, first: u64, second: u64) -> Verdict {
    let n = table.nodes.len() as u64;
    let in_range = match action {
        1 => first < n && second < 1 << table.m,
        2 | 4 | 5 | 10 | 11 | 12 | 14 => first < n && second < n,
        3 | 9 | 13 | 15 => first < n,
        _ => first < table.pool.len() as u64,
    };
    if !in_range {
        return Verdict::refused(BTreeSet::from([1]));
    }
    let (i, j) = (first as usize, second as usize);
    let (mut numbers, effect) = match action {
        1 => lookup(table, i, second as i64),
        2 => join(table, i, j),
        3 => request_lease(table, i),
        4 => lease_expired(table, i, j),
        5 => grant_expired(table, i, j),
        6 => take(table, i),
        7 | 8 => deliver_or_forward(table, i, action == 7),
        9 => leave::node_left(table, i),
        10 => leave::suspect_faulty(table, i, j),
        11 => leave::probe_time_out(table, i, j),
        12 => leave::declare_dead(table, i, j),
        13 => leave::ls_repair(table, i),
        14 => leave::resign_node(table, i, j),
        _ => leave::recover(table, i),
    };
    let mut after = effect.table;
    for message in effect.additions {
        if !after.pool.iter().any(|waiting| waiting.equals(&message)) {
            after.pool.push(message);
        }
    }
    if after.pool.len() > 256 {
        numbers.insert(6);
    }
    if numbers.is_empty() {
        Verdict::done(file::bytes(&after))
    } else {
        Verdict::refused(numbers)
    }
}

/// As `judge`; what a done step leaves comes after the letter of its routing, or 0.
pub fn judge_via(table: &Table, action: u64, first: u64, second: u64) -> Verdict {
    let mut verdict = judge(table, action, first, second);
    if verdict.numbers.is_empty() {
        verdict.result.insert(0, via(table, action, first as usize));
    }
    verdict
}

/// The next hop is to say whether it came from the leaf set or the routing set; a node in both counts as leaf set.
/// Routing of lookups and of join requests pass this on.
fn via(table: &Table, action: u64, place: usize) -> u8 {
    if action != 6 && action != 8 {
        return 0;
    }
    let m = &table.pool[place];
    let key = match m.kind {
        1 => m.node_or_key,
        2 => table.nodes[m.node_or_key as usize].id,
        _ => return 0,
    };
    match next_hop(table, m.to, key) {
        _ if covers(table, m.to, key) => 0,
        Some(h) => letter(table, m.to, h),
        None => 0,
    }
}

/// Where the hop from i to h came from.
pub fn letter(table: &Table, i: usize, h: usize) -> u8 {
    if Leaf::of(table, i).content().contains(&h) {
        b'l'
    } else {
        assert!(table.nodes[i].routing.contains(&h), "it came from one of the two");
        b'r'
    }
}

/// The set of those numbers whose condition holds.
pub fn numbers<const N: usize>(conditions: [(u32, bool); N]) -> BTreeSet<u32> {
    conditions.iter().filter(|(_, holds)| *holds).map(|(number, _)| *number).collect()
}

fn lookup(table: &Table, i: usize, k: i64) -> (BTreeSet<u32>, Effect) {
    let message = Message { kind: 1, to: i, node_or_key: k, ..Message::default() };
    let found = numbers([(3, table.pool.iter().any(|waiting| waiting.equals(&message)))]);
    (found, Effect { table: table.clone(), additions: vec![message] })
}

fn join(table: &Table, i: usize, seed: usize) -> (BTreeSet<u32>, Effect) {
    let found = numbers([
        (2, !(table.nodes[i].status == DEAD && table.nodes[seed].status == READY)),
        (3, table.pool.iter().any(|m| m.kind == 2 && m.node_or_key == i as i64)),
        (4, !Leaf::of(table, i).empty()),
    ]);
    let mut after = table.clone();
    after.nodes[i].status = WAIT;
    let request = Message { kind: 2, to: seed, node_or_key: i as i64, ..Message::default() };
    (found, Effect { table: after, additions: vec![request] })
}

fn request_lease(table: &Table, i: usize) -> (BTreeSet<u32>, Effect) {
    let leaf = Leaf::of(table, i);
    let found = numbers([(2, table.nodes[i].status != OK), (4, leaf.empty())]);
    let mut additions = Vec::new();
    for to in [leaf.left_neighbour(table), leaf.right_neighbour(table)] {
        if !table.nodes[i].lease.contains(&to) {
            additions.push(Message { kind: 7, to, node_or_key: i as i64, ..Message::default() });
        }
    }
    (found, Effect { table: table.clone(), additions })
}

fn lease_expired(table: &Table, i: usize, j: usize) -> (BTreeSet<u32>, Effect) {
    let node = &table.nodes[i];
    let found =
        numbers([(2, !(node.status == OK || node.status == READY)), (5, i == j || !node.lease.contains(&j))]);
    let leaf = Leaf::of(table, i);
    let mut after = table.clone();
    after.nodes[i].lease.remove(&j);
    if node.status == READY && (j == leaf.left_neighbour(table) || j == leaf.right_neighbour(table)) {
        after.nodes[i].status = OK;
    }
    (found, Effect { table: after, additions: Vec::new() })
}

fn grant_expired(table: &Table, i: usize, j: usize) -> (BTreeSet<u32>, Effect) {
    let node = &table.nodes[i];
    let found = numbers([
        (2, !(node.status == OK || node.status == READY)),
        (5, i == j || !node.grant.contains(&j) || table.nodes[j].lease.contains(&i)),
    ]);
    let mut after = table.clone();
    after.nodes[i].grant.remove(&j);
    (found, Effect { table: after, additions: Vec::new() })
}

fn take(table: &Table, place: usize) -> (BTreeSet<u32>, Effect) {
    let m = table.pool[place].clone();
    let mut after = table.clone();
    after.pool.remove(place);
    match m.kind {
        2 => take_join_request(table, after, &m),
        3 => take_join_reply(table, after, &m),
        4 | 5 => take_probe(table, after, &m),
        1 | 6 => (BTreeSet::from([5]), Effect { table: after, additions: Vec::new() }),
        7 => take_lease_request(table, after, &m),
        _ => take_broadcast(table, after, &m),
    }
}

fn no_route(i: usize, k: i64) -> Message {
    Message { kind: 6, to: i, node_or_key: k, ..Message::default() }
}

/// 5 from either of the pair on another kind, whatever the status; 2 unless ready; 5 from Deliver when not covered and
/// from Forward when covered.
fn deliver_or_forward(table: &Table, place: usize, deliver: bool) -> (BTreeSet<u32>, Effect) {
    let m = &table.pool[place];
    let (i, k) = (m.to, m.node_or_key);
    let mut after = table.clone();
    after.pool.remove(place);
    if m.kind != 1 {
        return (BTreeSet::from([5]), Effect { table: after, additions: Vec::new() });
    }
    let found = numbers([(2, table.nodes[i].status != READY), (5, covers(table, i, k) != deliver)]);
    let additions = match next_hop(table, i, k) {
        _ if deliver => vec![],
        Some(h) => vec![Message { to: h, hops: m.hops + 1, ..m.clone() }],
        None => vec![no_route(i, k)],
    };
    (found, Effect { table: after, additions })
}

fn take_join_request(table: &Table, after: Table, m: &Message) -> (BTreeSet<u32>, Effect) {
    let (i, j) = (m.to, m.node_or_key as usize);
    let leaf = Leaf::of(table, i);
    let found = numbers([(2, table.nodes[i].status != READY), (5, leaf.content().contains(&j))]);
    let id = table.nodes[j].id;
    let addition = if covers(table, i, id) {
        let routing = m.routing.clone();
        Message {
            kind: 3,
            to: j,
            owner: i,
            routing,
            left: leaf.left,
            right: leaf.right,
            ..Message::default()
        }
    } else {
        match next_hop(table, i, id) {
            Some(h) => {
                let routing = m.routing.union(&table.nodes[i].routing).copied().collect();
                Message { to: h, routing, ..m.clone() }
            }
            None => no_route(i, id),
        }
    };
    (found, Effect { table: after, additions: vec![addition] })
}

pub fn probe(kind: u32, to: usize, leaf: &Leaf, failed: &Set) -> Message {
    Message {
        kind,
        to,
        node_or_key: leaf.owner as i64,
        owner: leaf.owner,
        left: leaf.left.clone(),
        right: leaf.right.clone(),
        failed: failed.clone(),
        ..Message::default()
    }
}

fn take_join_reply(table: &Table, mut after: Table, m: &Message) -> (BTreeSet<u32>, Effect) {
    let i = m.to;
    let leaf = Leaf::of(table, i);
    let found = numbers([
        (2, table.nodes[i].status == DEAD),
        (4, !leaf.empty()),
        (5, !table.nodes[i].probing.is_empty()),
    ]);
    let told = Leaf::carried(m).content();
    let new = leaf.add(table, &told);
    let probing: Set = new.content().into_iter().filter(|&x| x != i).collect();
    let node = &mut after.nodes[i];
    node.routing.extend(&m.routing);
    node.routing.extend(&told);
    (node.left, node.right) = (new.left.clone(), new.right.clone());
    node.probing = probing.clone();
    node.failed = Set::new();
    let additions = probing.iter().map(|&to| probe(4, to, &new, &Set::new())).collect();
    (found, Effect { table: after, additions })
}

fn take_probe(table: &Table, mut after: Table, m: &Message) -> (BTreeSet<u32>, Effect) {
    let (i, j, reply) = (m.to, m.node_or_key as usize, m.kind == 5);
    let node = &table.nodes[i];
    let leaf = Leaf::of(table, i);
    let found = numbers([
        (2, node.status == DEAD),
        (4, node.status == WAIT && leaf.empty()),
        (5, j == i || reply && !node.probing.contains(&j)),
    ]);
    let f: Set = node.failed.iter().copied().filter(|&x| x != j).collect();
    let s = if leaf.content().contains(&j) { leaf } else { leaf.add(table, &Set::from([j])) };
    let p1: Set = s.content().into_iter().filter(|x| m.failed.contains(x)).collect();
    let news: Set = Leaf::carried(m).content().into_iter().filter(|x| !f.contains(x)).collect();
    let widened = s.add(table, &news).content();
    let p2: Set = widened.into_iter().filter(|x| !s.content().contains(x)).collect();
    let p: Set =
        p1.union(&p2).copied().filter(|x| !node.probing.contains(x) && !f.contains(x) && *x != i).collect();
    let mut probing: Set = node.probing.union(&p).copied().collect();
    let mut additions = Vec::new();
    let new = &mut after.nodes[i];
    if reply {
        probing.retain(|x| !node.failed.contains(x) && *x != j);
        if node.status == WAIT && probing.is_empty() && (s.overlap() || s.complete(table)) {
            new.status = OK;
        }
    } else {
        additions.push(probe(5, j, &s, &f));
    }
    additions.extend(p.iter().map(|&to| probe(4, to, &s, &f)));
    new.failed = f;
    (new.left, new.right) = (s.left, s.right);
    new.routing.insert(j);
    new.probing = probing;
    (found, Effect { table: after, additions })
}

fn take_lease_request(table: &Table, mut after: Table, m: &Message) -> (BTreeSet<u32>, Effect) {
    let (i, j) = (m.to, m.node_or_key as usize);
    let leaf = Leaf::of(table, i);
    let status = table.nodes[i].status;
    let found = numbers([(2, !(status == OK || status == READY)), (4, leaf.empty())]);
    let neighbour = j == leaf.left_neighbour(table) || j == leaf.right_neighbour(table);
    if neighbour {
        after.nodes[i].grant.insert(j);
    }
    let (flag, left, right) = (u32::from(neighbour), leaf.left, leaf.right);
    let broadcast = Message { kind: 8, to: j, owner: i, flag, left, right, ..Message::default() };
    (found, Effect { table: after, additions: vec![broadcast] })
}

fn take_broadcast(table: &Table, mut after: Table, m: &Message) -> (BTreeSet<u32>, Effect) {
    let (i, j) = (m.to, m.owner);
    let node = &table.nodes[i];
    let old = Leaf::of(table, i);
    let found =
        numbers([(2, !(node.status == OK || node.status == READY)), (4, !old.complete(table)), (5, j == i)]);
    let news: Set = Leaf::carried(m).content().into_iter().filter(|x| !node.failed.contains(x)).collect();
    let new = old.add(table, &news);
    let (ln, rn) = (new.left_neighbour(table), new.right_neighbour(table));
    let changed = &mut after.nodes[i];
    if m.flag == 1 && (j == ln || j == rn) {
        changed.lease.insert(j);
    }
    let same = ln == old.left_neighbour(table) && rn == old.right_neighbour(table);
    if changed.lease.contains(&ln) && changed.lease.contains(&rn) && same {
        changed.status = READY;
    }
    (changed.left, changed.right) = (new.left, new.right);
    (found, Effect { table: after, additions: Vec::new() })
}
