//! Departures and repairs (T-03), as written. Every refusal that applies is collected.

use super::leaf::Leaf;
use super::step::{numbers, probe, Effect};
use super::{Message, Set, Table, DEAD, OK, READY, WAIT};
use std::collections::BTreeSet;

type Made = (BTreeSet<u32>, Effect);

/// Any node not dead becomes dead with all sets empty; messages stay.
pub fn node_left(table: &Table, i: usize) -> Made {
    let mut after = table.clone();
    let node = &mut after.nodes[i];
    node.status = DEAD;
    for set in [
        &mut node.left,
        &mut node.right,
        &mut node.probing,
        &mut node.failed,
        &mut node.routing,
        &mut node.lease,
        &mut node.grant,
    ] {
        set.clear();
    }
    (numbers([(2, table.nodes[i].status == DEAD)]), Effect { table: after, additions: Vec::new() })
}

/// i ok or ready, j another member of its content, neither probed nor failed; j is probed with i's leaf set and failed.
pub fn suspect_faulty(table: &Table, i: usize, j: usize) -> Made {
    let (node, leaf) = (&table.nodes[i], Leaf::of(table, i));
    let described =
        j != i && leaf.content().contains(&j) && !node.probing.contains(&j) && !node.failed.contains(&j);
    let found = numbers([(2, ![OK, READY].contains(&node.status)), (5, !described)]);
    (found, probed(table, i, &Set::from([j])))
}

/// An LSProbe with i's leaf set and failed to each, which enters probing.
fn probed(table: &Table, i: usize, ends: &Set) -> Effect {
    let mut after = table.clone();
    after.nodes[i].probing.extend(ends);
    let leaf = Leaf::of(table, i);
    let additions = ends.iter().map(|&to| probe(4, to, &leaf, &table.nodes[i].failed)).collect();
    Effect { table: after, additions }
}

/// i not dead, i and j differ, j probed; j leaves probing and lease and enters failed, the waiting LSProbes from i to j
/// go, and unless j is granted it leaves the leaf set, with i becoming wait if it was there.
pub fn probe_time_out(table: &Table, i: usize, j: usize) -> Made {
    let node = &table.nodes[i];
    let found = numbers([(2, node.status == DEAD), (5, i == j || !node.probing.contains(&j))]);
    let mut after = table.clone();
    after.pool.retain(|m| !(m.kind == 4 && m.node_or_key == i as i64 && m.to == j));
    let new = &mut after.nodes[i];
    new.probing.remove(&j);
    new.lease.remove(&j);
    new.failed.insert(j);
    if !node.grant.contains(&j) {
        let (left, right) = (new.left.remove(&j), new.right.remove(&j));
        new.status = if left || right { WAIT } else { new.status };
    }
    (found, Effect { table: after, additions: Vec::new() })
}

/// j in failed and in the content; if it is left or right neighbour it is not granted. It leaves the leaf set; i waits.
pub fn declare_dead(table: &Table, i: usize, j: usize) -> Made {
    let (node, leaf) = (&table.nodes[i], Leaf::of(table, i));
    let granted = node.grant.contains(&j);
    let barred = (j == leaf.left_neighbour(table) || j == leaf.right_neighbour(table)) && granted;
    let described = node.failed.contains(&j) && leaf.content().contains(&j) && !barred;
    let found = numbers([(2, ![OK, READY].contains(&node.status)), (5, !described)]);
    let mut after = table.clone();
    after.nodes[i].left.remove(&j);
    after.nodes[i].right.remove(&j);
    after.nodes[i].status = WAIT;
    (found, Effect { table: after, additions: Vec::new() })
}

/// Neither side empty, not complete, nothing probed: both ends are probed if both sides are short, else that of the
/// short side.
pub fn ls_repair(table: &Table, i: usize) -> Made {
    let (node, leaf) = (&table.nodes[i], Leaf::of(table, i));
    let unfit = leaf.left.is_empty() || leaf.right.is_empty() || leaf.complete(table);
    let found = numbers([(2, node.status != WAIT), (4, unfit), (5, !node.probing.is_empty())]);
    let mut ends = Set::new();
    if leaf.left.len() < table.l {
        ends.insert(leaf.leftmost(table));
    }
    if leaf.right.len() < table.l {
        ends.insert(leaf.rightmost(table));
    }
    (found, probed(table, i, &ends))
}

/// One side empty, nothing probed, no JoinReply to i waits: i begins anew and asks n to join; it stays wait.
pub fn resign_node(table: &Table, i: usize, n: usize) -> Made {
    let (node, leaf) = (&table.nodes[i], Leaf::of(table, i));
    let found = numbers([
        (2, node.status != WAIT || table.nodes[n].status != READY),
        (3, table.pool.iter().any(|m| m.kind == 3 && m.to == i)),
        (4, !leaf.left.is_empty() && !leaf.right.is_empty()),
        (5, !node.probing.is_empty()),
    ]);
    let mut after = node_left(table, i).1.table;
    after.nodes[i].status = WAIT;
    after.nodes[i].routing = Set::from([i]);
    let request = Message { kind: 2, to: n, node_or_key: i as i64, ..Message::default() };
    (found, Effect { table: after, additions: vec![request] })
}

/// No node is ok or ready, exactly one side is empty, nothing probed: the end of the other side is probed.
pub fn recover(table: &Table, i: usize) -> Made {
    let (node, leaf) = (&table.nodes[i], Leaf::of(table, i));
    let some = table.nodes.iter().any(|other| [OK, READY].contains(&other.status));
    let found = numbers([
        (2, node.status != WAIT || some),
        (4, leaf.left.is_empty() == leaf.right.is_empty()),
        (5, !node.probing.is_empty()),
    ]);
    let end = if leaf.left.is_empty() { leaf.rightmost(table) } else { leaf.leftmost(table) };
    (found, probed(table, i, &Set::from([end])))
}
