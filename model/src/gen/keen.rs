//! Messages whose handling hangs on one member of one set.

use super::case::Case;
use super::messages::{carried, key_from, lookup, travelled};
use super::prime::added;
use super::rng::Rng;
use super::tables;
use super::taking::taking;
use crate::marks::{below, bit, first_down, keep_up};
use crate::message::Message;
use crate::reading::Right;
use crate::step::Action;
use crate::table::{Sides, Status};
use crate::view::View;

/// A valid table, and the action for a message of it. In some cases what it adds waits already.
pub fn keen(rng: &mut Rng) -> (Case, Action) {
    let mut case = tables::small(rng);
    let i = rng.below(case.table.n);
    let j = rng.member(below(case.table.n) & !bit(i));
    let message = match rng.below(32) {
        0..=8 => crossed(rng, &mut case, i, j),
        9..=11 => mixed(rng, &mut case, i, j),
        12..=14 => last_reply(rng, &mut case, i, j),
        15..=20 => failed_sender(rng, &mut case, i, j),
        21 | 22 => asked(rng, &mut case, i),
        23..=28 => neighbours_move(rng, &mut case, i),
        29 | 30 => short_sides(rng, &mut case, i),
        _ => welcome(rng, &mut case, i, j),
    };
    case.push(message);
    let place = case.place_of(&message).expect("it waits");
    let action = taking(rng, &case, place);
    if rng.one_in(8) {
        for echo in added(&case, action) {
            case.push(travelled(&case.table, echo));
        }
    }
    (case, action)
}

/// A BroadcastLSet for a node whose sides are short, and share nothing or one member.
fn short_sides(rng: &mut Rng, case: &mut Case, i: usize) -> Message {
    let message = neighbours_move(rng, case, i);
    let others = below(case.table.n) & !bit(i);
    if others.count_ones() > 1 {
        let left = bit(rng.member(others));
        let right = bit(rng.member(others & !left));
        let both = rng.one_in(3);
        case.table.l = case.table.l.max(if both { 3 } else { 2 });
        case.table.nodes[i].sides = Sides { left, right: if both { left | right } else { right } };
    }
    message
}

fn whole(case: &Case, i: usize) -> Sides {
    View::new(Right, &case.table).add(i, Sides::EMPTY, below(case.table.n))
}

/// A lookup or join request at a node whose sides have passed each other without meeting, so that the routing set
/// counts. Mostly it knows one node that has not failed, as near as it is to the key or farther. In some cases the sides
/// share one so that the routing set does not count, or the right side is empty.
fn crossed(rng: &mut Rng, case: &mut Case, i: usize, j: usize) -> Message {
    let others = below(case.table.n) & !bit(i);
    let half = 1 + rng.below(case.table.l as usize) as u32;
    let known = rng.members(others, 2 * half as usize);
    let right = keep_up(known, i, half.min(known.count_ones() / 2));
    let alone = Sides { left: keep_up(known, i, half), right: 0 };
    let left = known & !right;
    let both = if case.table.l < 8 && left != 0 { bit(rng.member(left)) } else { 0 };
    match rng.below(12) {
        0 | 1 if both != 0 => {
            case.table.l += 1;
            return knows_all(rng, case, i, j, Sides { left, right: right | both });
        }
        2 => return knows_all(rng, case, i, j, alone),
        _ => {}
    }
    let sides = if rng.one_in(5) { alone } else { Sides { left, right } };
    let near = View::new(Right, &case.table).neighbours(i, sides);
    let past = between(case, i, near.0).wrapping_add(1) & (u32::MAX >> (32 - case.table.m));
    let below_i = first_down(others, i);
    let (spared, key) = match rng.below(6) {
        0 | 1 => (near.1, between(case, near.1, i)),
        2 | 3 => (below_i, past),
        4 => (j, past),
        _ => (j, key_from(rng, &case.table, i)),
    };
    if !rng.one_in(4) {
        case.table.nodes[spared].status = Status::Ready;
    }
    let (some, only) = (rng.any() & others, others & !bit(spared));
    let node = &mut case.table.nodes[i];
    node.sides = sides;
    node.routing = if spared == below_i { bit(spared) } else { rng.pick(&[0, others, bit(spared), some]) };
    node.failed = rng.pick(&[0, others, others & !some, only, only, only, only]);
    routed(rng, case, i, j, key)
}

/// A lookup or join request at a node with these sides, whose routing set is all others.
fn knows_all(rng: &mut Rng, case: &mut Case, i: usize, j: usize, sides: Sides) -> Message {
    let others = below(case.table.n) & !bit(i);
    let node = &mut case.table.nodes[i];
    (node.sides, node.routing, node.failed) = (sides, others, 0);
    let key = routed_key(rng, case, i);
    routed(rng, case, i, j, key)
}

/// A key that the node mostly does not cover.
fn routed_key(rng: &mut Rng, case: &Case, i: usize) -> u32 {
    let mut key = key_from(rng, &case.table, i);
    for _ in 0..3 {
        if View::new(Right, &case.table).covers(i, key) {
            key = key_from(rng, &case.table, i);
        }
    }
    key
}

/// A lookup or join request at a node whose sides are any nodes and whose routing set is all. Mostly it is routed.
fn mixed(rng: &mut Rng, case: &mut Case, i: usize, j: usize) -> Message {
    let others = below(case.table.n) & !bit(i);
    case.table.l = case.table.l.max(2);
    let most = case.table.l as usize;
    let left = rng.members(others, most);
    let right = rng.members(others & !left, most);
    let some = rng.any() & others;
    let node = &mut case.table.nodes[i];
    node.sides = Sides { left, right };
    node.routing = others;
    node.failed = rng.pick(&[0, 0, some]);
    let key = routed_key(rng, case, i);
    routed(rng, case, i, j, key)
}

/// A lookup of the key at a ready node, or a join request, where there is one of a node that it does not know.
fn routed(rng: &mut Rng, case: &mut Case, i: usize, j: usize, key: u32) -> Message {
    let others = below(case.table.n) & !bit(i);
    case.table.nodes[i].status = Status::Ready;
    if !rng.one_in(4) {
        return lookup(&case.table, i, key);
    }
    let strangers = others & !case.table.nodes[i].sides.content(i);
    let node = if strangers != 0 { rng.member(strangers) } else { j } as u8;
    Message::JoinRequest { to: i as u8, node, routing: rng.subset(others), hops: 0 }
}

/// The key half-way up from one node to another.
fn between(case: &Case, from: usize, to: usize) -> u32 {
    let whole = 1u64 << case.table.m;
    let (from, to) = (u64::from(case.table.id(from)), u64::from(case.table.id(to)));
    ((from + (to + whole - from) % whole / 2) % whole) as u32
}

/// The reply of the last node that a waiting one probes, or a probe where it probes none. The old leaf set lacks the
/// sender, or all of a side.
fn last_reply(rng: &mut Rng, case: &mut Case, i: usize, j: usize) -> Message {
    let full = whole(case, i);
    let lacking = Sides { left: full.left & !bit(j), right: full.right & !bit(j) };
    let choices = [full, lacking, lacking, Sides { left: 0, ..lacking }, Sides { right: 0, ..lacking }];
    let node = &mut case.table.nodes[i];
    node.status = rng.pick(&[Status::Wait, Status::Wait, Status::Wait, Status::Ready]);
    node.sides = rng.pick(&choices);
    if node.sides.is_empty() {
        node.sides = full;
    }
    let reply = !rng.one_in(4);
    node.probing = if reply { bit(j) } else { 0 };
    node.failed = if rng.one_in(2) { 0 } else { rng.few(below(case.table.n) & !bit(i)) };
    let known = case.table.nodes[i].sides.content(i) & !bit(j);
    let view = View::new(Right, &case.table);
    let sides = if rng.one_in(4) { carried(rng, &case.table, j) } else { view.add(j, Sides::EMPTY, known) };
    let some = rng.subset(known | bit(j));
    let failed = rng.pick(&[0, 0, 0, some, bit(j)]);
    told(reply, i, j, sides, failed)
}

/// A reply, or else a probe.
fn told(reply: bool, i: usize, j: usize, sides: Sides, failed: u64) -> Message {
    let (to, node) = (i as u8, j as u8);
    if reply {
        Message::LsProbeReply { to, node, sides, failed }
    } else {
        Message::LsProbe { to, node, sides, failed }
    }
}

/// A probe or reply of a sender that was held as failed and is on one side only, mostly the other one than its own.
fn failed_sender(rng: &mut Rng, case: &mut Case, i: usize, j: usize) -> Message {
    let others = below(case.table.n) & !bit(i);
    let near = View::new(Right, &case.table).neighbours(i, whole(case, i));
    let j = rng.pick(&[j, near.0, near.1]);
    let few = rng.below(2);
    let far = rng.members(others & !bit(j), few);
    let turned =
        if j == near.0 { Sides { left: far, right: bit(j) } } else { Sides { left: bit(j), right: far } };
    let some = rng.any() & others;
    let few = rng.few(others);
    let node = &mut case.table.nodes[i];
    node.status = rng.pick(&[Status::Wait, Status::Ok, Status::Ready]);
    node.sides = turned;
    node.probing = bit(j) | rng.pick(&[0, few, some]);
    node.failed = rng.pick(&[bit(j), bit(j) | few, near.marks(), some]);
    let all = View::new(Right, &case.table).add(j, Sides::EMPTY, others & !bit(j));
    let sides = if rng.one_in(2) { all } else { carried(rng, &case.table, j) };
    let some = rng.subset(below(case.table.n));
    let failed = rng.pick(&[0, some, others]);
    told(rng.one_in(2), i, j, sides, failed)
}

/// A JoinReply to a node that holds some as failed.
fn welcome(rng: &mut Rng, case: &mut Case, i: usize, j: usize) -> Message {
    let others = below(case.table.n) & !bit(i);
    let some = rng.any() & others;
    let node = &mut case.table.nodes[i];
    node.status = rng.pick(&[Status::Wait, Status::Ok]);
    (node.sides, node.probing) = (Sides::EMPTY, 0);
    node.failed = rng.pick(&[some, others, bit(j)]);
    let sides = carried(rng, &case.table, j);
    Message::JoinReply { to: i as u8, owner: j as u8, routing: rng.subset(others), sides }
}

/// A LeaseRequest of a node to itself, which is its own neighbour or not, or of a neighbour that is held as failed.
fn asked(rng: &mut Rng, case: &mut Case, i: usize) -> Message {
    let full = whole(case, i);
    let near = View::new(Right, &case.table).neighbours(i, full);
    let node = &mut case.table.nodes[i];
    node.status = rng.pick(&[Status::Ok, Status::Ready]);
    node.sides = rng.pick(&[Sides { left: 0, ..full }, Sides { right: 0, ..full }, full]);
    let from = rng.pick(&[i, near.0, near.1]);
    node.failed |= bit(from) & !bit(i);
    node.grant &= !bit(from);
    let sides = node.sides;
    if rng.one_in(2) {
        let grant = rng.one_in(2);
        case.push(Message::BroadcastLSet { to: from as u8, owner: i as u8, sides, grant });
    }
    Message::LeaseRequest { to: i as u8, node: from as u8 }
}

/// A broadcast that leaves the neighbours, changes one of them or lets them change places, with all leases held.
fn neighbours_move(rng: &mut Rng, case: &mut Case, i: usize) -> Message {
    let listed = below(case.table.n);
    let others = listed & !bit(i);
    let l = case.table.l as usize;
    let full = whole(case, i);
    let turned = Sides { left: full.right, right: full.left };
    let near = View::new(Right, &case.table).neighbours(i, full);
    let node = &mut case.table.nodes[i];
    node.status = rng.pick(&[Status::Ok, Status::Ok, Status::Ready]);
    let (away, aside) = (others & !bit(near.0), others & !bit(near.1));
    node.sides = match rng.below(8) {
        0 => full,
        1 | 2 => Sides { right: rng.members(aside, l), ..full },
        3 => Sides { left: rng.members(away, l), ..full },
        4 => Sides { left: rng.members(away, l), right: rng.members(aside, l) },
        _ => turned,
    };
    node.failed = if rng.one_in(3) { rng.few(others) } else { 0 };
    let owner = if rng.one_in(2) { rng.member(others) } else { rng.pick(&[near.0, near.1]) };
    let some = rng.subset(listed);
    node.lease = rng.pick(&[listed, listed, listed & !bit(owner), some]);
    let told = if rng.one_in(3) { rng.members(others, 2 * l) } else { near.marks() };
    let sides = View::new(Right, &case.table).add(owner, Sides::EMPTY, told & !bit(owner));
    Message::BroadcastLSet { to: i as u8, owner: owner as u8, sides, grant: !rng.one_in(3) }
}
