//! Valid tables: tiny, usual and full rings, lopsided and crossed leaf sets, settled tables.

use super::case::Case;
use super::rng::Rng;
use crate::marks::{below, bit, keep_up, slots};
use crate::reading::Right;
use crate::table::{Node, Sides, Status, Table};
use crate::view::View;

/// M, L and ids, all nodes blank otherwise.
pub fn ring(rng: &mut Rng) -> Table {
    let any = 2 + rng.below(31) as u32;
    let m = rng.pick(&[2, 2, 3, 3, 4, 4, 8, 8, 8, 32, 32, any]);
    let ids = ids(rng, m);
    let l = rng.pick(&[1, 1, 1, 1, 2, 2, 2, 3, 3, 4, 5, 6, 7, 8]);
    let mut table = Table { m, l, n: ids.len(), ..Table::BLANK };
    for (node, id) in table.nodes.iter_mut().zip(ids) {
        node.id = id;
    }
    table
}

fn ids(rng: &mut Rng, m: u32) -> Vec<u32> {
    let whole = 1u64 << m;
    let most = whole.min(64) as usize;
    let n = match rng.below(10) {
        0..=3 => 1 + rng.below(4),
        4..=6 => 4 + rng.below(6),
        7 => most,
        _ => 1 + rng.below(most),
    };
    spread(rng, whole, n.min(most))
}

/// `n` rising ids: scattered, in a row, evenly apart, at the ends of the ring or in heaps.
pub fn spread(rng: &mut Rng, whole: u64, n: usize) -> Vec<u32> {
    let around_0 = whole - 1 - rng.below(n) as u64;
    let from = if rng.one_in(3) { around_0 } else { rng.any() % whole };
    let apart = (whole / n as u64).max(1);
    let style = rng.below(6);
    let mut ids: Vec<u32> = (0..n as u64)
        .map(|nth| match style {
            0 => from + nth,
            1 => from + nth * apart,
            2 => nth * apart,
            _ => rng.any(),
        })
        .map(|id| (id % whole) as u32)
        .collect();
    let ends = [0, whole - 1, whole / 2, whole / 2 - 1, 1, whole / 4];
    for id in ids.iter_mut().filter(|_| style == 4) {
        if rng.one_in(3) {
            *id = rng.pick(&ends) as u32;
        }
    }
    ids.sort_unstable();
    ids.dedup();
    while ids.len() < n {
        let near = rng.pick(&ids);
        let id = if rng.one_in(2) { rng.any() } else { u64::from(near) + 1 + rng.below(3) as u64 } % whole;
        if let Err(place) = ids.binary_search(&(id as u32)) {
            ids.insert(place, id as u32);
        }
    }
    ids
}

/// A valid table without messages.
pub fn table(rng: &mut Rng) -> Case {
    let mut table = ring(rng);
    let style = rng.below(5);
    for node in &mut table.nodes[..table.n] {
        node.status = status(rng, style);
    }
    let listed = below(table.n);
    let live = table.marks(|node| node.status != Status::Dead);
    let ready = table.marks(|node| node.status == Status::Ready);
    let crossed = rng.one_in(8);
    for slot in 0..table.n {
        let around = rng.pick(&[listed, live, ready, ready]);
        let mut sides = sides(rng, &table, slot, around);
        if crossed {
            let nearest = View::new(Right, &table).add(slot, Sides::EMPTY, around);
            sides = Sides { left: nearest.right, right: nearest.left };
        }
        let near = View::new(Right, &table).neighbours(slot, sides).marks();
        let others = listed & !bit(slot);
        let node = &mut table.nodes[slot];
        *node = Node {
            sides,
            probing: rng.few(others),
            failed: rng.few(others),
            routing: rng.subset(listed),
            lease: rng.subset(listed) | rng.subset(near),
            grant: rng.subset(listed) | rng.subset(near),
            ..*node
        };
    }
    Case::new(table)
}

/// A table of ready nodes that are four or more. The sides of half of them have passed each other without meeting, so
/// that the routing set counts; the others know their neighbours. So a lookup is routed several times, either way.
pub fn crossed(rng: &mut Rng) -> Case {
    let mut table = ring(rng);
    while table.n < 4 {
        table = ring(rng);
    }
    let listed = below(table.n);
    table.l = if rng.one_in(2) { 1 } else { table.l };
    for slot in 0..table.n {
        let others = listed & !bit(slot);
        let known = rng.members(others, 2 * (table.l as usize).min(2));
        let right = keep_up(known, slot, known.count_ones() / 2);
        let near = View::new(Right, &table).add(slot, Sides::EMPTY, others);
        let (few, most) = (rng.few(others), 1 + rng.below(3));
        let node = &mut table.nodes[slot];
        node.status = if rng.one_in(16) { rng.pick(&Status::ALL) } else { Status::Ready };
        node.sides = if rng.one_in(2) { near } else { Sides { left: known & !right, right } };
        node.routing = rng.members(listed, most) | rng.pick(&[0, 0, known]);
        node.failed = rng.pick(&[0, 0, few]);
    }
    Case::new(table)
}

/// A valid table without messages, mostly of few nodes, with more nodes than L.
pub fn small(rng: &mut Rng) -> Case {
    loop {
        let case = table(rng);
        let n = case.table.n;
        if n > case.table.l as usize && (n <= 10 || rng.one_in(8)) {
            return case;
        }
    }
}

fn status(rng: &mut Rng, style: usize) -> Status {
    use Status::{Dead, Ok, Ready, Wait};
    match style {
        0 => Ready,
        1 => rng.pick(&[Ready, Ready, Dead]),
        2 => rng.pick(&[Ready, Ready, Ready, Ready, Ready, Ok, Wait, Dead]),
        _ => rng.pick(&[Dead, Wait, Ok, Ready]),
    }
}

/// A leaf set of `slot`: true to the nodes of `around`, or lopsided, short, empty or scattered.
pub fn sides(rng: &mut Rng, table: &Table, slot: usize, around: u64) -> Sides {
    let view = View::new(Right, table);
    let l = table.l as usize;
    let others = below(table.n) & !bit(slot);
    let nearest = view.add(slot, Sides::EMPTY, around);
    match rng.below(12) {
        0..=4 => nearest,
        5 => Sides::EMPTY,
        6 => Sides { left: nearest.right, right: nearest.left },
        7 => rng.pick(&[Sides { left: 0, ..nearest }, Sides { right: 0, ..nearest }]),
        8 => view.add(slot, Sides::EMPTY, rng.any() & others),
        9 => Sides { left: rng.members(others, l), right: rng.members(others, l) },
        _ => {
            let (left, right) = (rng.below(l + 1), rng.below(l + 1));
            Sides { left: rng.members(others, left), right: rng.members(others, right) }
        }
    }
}

/// A settled table, in most cases; in others all but settled.
pub fn settled(rng: &mut Rng) -> Case {
    let mut table = ring(rng);
    let listed = below(table.n);
    let some = rng.any() & listed;
    let ready = rng.pick(&[listed, some, some]) | bit(rng.below(table.n));
    for slot in 0..table.n {
        table.nodes[slot].status = if ready & bit(slot) != 0 { Status::Ready } else { Status::Dead };
        let sides = if ready & bit(slot) != 0 {
            ready_sides(rng, &table, slot, ready)
        } else {
            sides(rng, &table, slot, listed)
        };
        let others = listed & !bit(slot);
        let node = &mut table.nodes[slot];
        node.sides = sides;
        node.probing = rng.few(others);
        let feared = if ready & bit(slot) == 0 && rng.one_in(4) { others } else { others & !ready };
        node.failed = rng.subset(feared);
        node.routing = rng.subset(listed);
        node.lease = rng.subset(listed);
        node.grant = rng.subset(listed);
    }
    if rng.one_in(2) {
        unsettle(rng, &mut table, ready);
    }
    Case::new(table)
}

/// Sides whose neighbours are the next ready nodes; farther members may miss, or be dead.
fn ready_sides(rng: &mut Rng, table: &Table, slot: usize, ready: u64) -> Sides {
    let view = View::new(Right, table);
    let l = table.l as usize;
    let whole = view.add(slot, Sides::EMPTY, ready);
    let near = view.neighbours(slot, whole);
    let beyond = |rng: &mut Rng, side: u64, first: usize| match side {
        0 => 0,
        _ => bit(first) | rng.members(side, l - 1),
    };
    match rng.below(4) {
        0 => Sides { left: beyond(rng, whole.left, near.0), right: beyond(rng, whole.right, near.1) },
        1 if whole.left != 0 => {
            let far = |rng: &mut Rng, first: usize, passed: &dyn Fn(usize) -> bool| {
                let dead = slots(below(table.n) & !bit(slot)).filter(|&other| !passed(other));
                bit(first) | rng.members(dead.fold(0, |set, other| set | bit(other)), l - 1)
            };
            let gap = |from: usize, to: usize| (to + 64 - from) & 63;
            let left = far(rng, near.0, &|other| gap(slot, other) < gap(slot, near.0));
            let right = far(rng, near.1, &|other| gap(other, slot) < gap(near.1, slot));
            Sides { left, right }
        }
        _ => whole,
    }
}

/// Breaks one of the conditions, or looks as if.
fn unsettle(rng: &mut Rng, table: &mut Table, ready: u64) {
    let listed = below(table.n);
    let slot = rng.member(ready);
    let dead = listed & !ready;
    let other = if dead != 0 && rng.one_in(2) { rng.member(dead) } else { rng.below(table.n) };
    match rng.below(9) {
        0 => table.nodes[other].status = rng.pick(&[Status::Wait, Status::Ok]),
        1 => table.nodes[other].status = Status::Dead,
        2 => table.nodes[slot].failed |= bit(rng.member(ready)) & !bit(slot),
        3 => table.nodes[slot].sides = sides(rng, table, slot, listed),
        4 => {
            let sides = table.nodes[slot].sides;
            table.nodes[slot].sides = View::new(Right, table).add(slot, sides, bit(other));
        }
        5 => table.nodes[slot].sides.right = rng.subset(table.nodes[slot].sides.right),
        6 => table.nodes[slot].sides.left = rng.subset(table.nodes[slot].sides.left),
        7 => {
            let alone = |slot| if slot == other { Status::Ready } else { Status::Dead };
            (0..table.n).for_each(|slot| table.nodes[slot].status = alone(slot));
        }
        _ => table.nodes[..table.n].iter_mut().for_each(|node| node.status = Status::Dead),
    }
}
