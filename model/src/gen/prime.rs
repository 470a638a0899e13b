//! Actions on tables arranged so that they are mostly done, and refused for one reason otherwise.

use super::case::Case;
use super::messages::{self, fill, key, message, travelled};
use super::rng::Rng;
use super::tables;
use super::taking::taking;
use crate::marks::{below, bit};
use crate::message::Message;
use crate::reading::Right;
use crate::step::{step, Action};
use crate::table::{Node, Sides, Status, Table};
use crate::view::View;

/// A valid table and an action on it.
pub fn primed(rng: &mut Rng) -> (Case, Action) {
    let mut case = tables::table(rng);
    let small = rng.below(6);
    fill(rng, &mut case, small);
    let (i, j) = (rng.below(case.table.n), rng.below(case.table.n));
    let action = match rng.below(16) {
        0 => lookup(rng, &mut case, i),
        1 => join(rng, &mut case, i, j),
        2 => request_lease(rng, &mut case, i),
        3 => lease_expired(rng, &mut case, i, j),
        4 => grant_expired(rng, &mut case, i, j),
        _ => take(rng, &mut case, i, j),
    };
    let action = crowd(rng, &mut case, action);
    let action = stray(rng, &case.table, action);
    (case, action)
}

fn lookup(rng: &mut Rng, case: &mut Case, i: usize) -> Action {
    let key = key(rng, &case.table);
    if rng.one_in(4) {
        let other = rng.below(case.table.n);
        let to = rng.pick(&[i, other]);
        case.push(messages::lookup(&case.table, to, key));
    }
    Action::Lookup { at: i, key: key.into() }
}

fn join(rng: &mut Rng, case: &mut Case, i: usize, seed: usize) -> Action {
    if !rng.one_in(6) {
        case.table.nodes[seed].status = rng.pick(&[Status::Ready, Status::Ready, Status::Ready, Status::Ok]);
        case.table.nodes[i].status = Status::Dead;
    }
    if !rng.one_in(4) {
        case.table.nodes[i].sides = Sides::EMPTY;
    }
    if rng.one_in(4) {
        let other = rng.below(case.table.n);
        let to = rng.pick(&[seed, other]);
        let request = message(rng, &case.table, 2, to, i);
        case.push(request);
    }
    Action::Join { node: i, seed }
}

fn request_lease(rng: &mut Rng, case: &mut Case, i: usize) -> Action {
    let node = &mut case.table.nodes[i];
    node.status = if rng.one_in(6) { rng.pick(&Status::ALL) } else { Status::Ok };
    node.lease = rng.few(node.lease);
    if node.sides.is_empty() && !rng.one_in(4) {
        case.table.nodes[i].sides = tables::sides(rng, &case.table, i, below(case.table.n));
    }
    Action::RequestLease { node: i }
}

fn lease_expired(rng: &mut Rng, case: &mut Case, i: usize, j: usize) -> Action {
    let near = View::new(Right, &case.table).neighbours(i, case.table.nodes[i].sides).marks();
    let partner = if rng.one_in(2) { rng.member(near) } else { j };
    let node = &mut case.table.nodes[i];
    node.status = member_status(rng);
    if !rng.one_in(4) {
        node.lease |= bit(partner);
    }
    Action::LeaseExpired { node: i, partner }
}

fn grant_expired(rng: &mut Rng, case: &mut Case, i: usize, partner: usize) -> Action {
    case.table.nodes[i].status = member_status(rng);
    if !rng.one_in(4) {
        case.table.nodes[i].grant |= bit(partner);
    }
    if !rng.one_in(3) {
        case.table.nodes[partner].lease &= !bit(i);
    }
    Action::GrantExpired { node: i, partner }
}

fn member_status(rng: &mut Rng) -> Status {
    if rng.one_in(8) {
        rng.pick(&Status::ALL)
    } else {
        rng.pick(&[Status::Ok, Status::Ready, Status::Ready])
    }
}

/// A message to `i`, mostly from `j`, with `i` made fit to take it.
fn take(rng: &mut Rng, case: &mut Case, i: usize, j: usize) -> Action {
    let kind = rng.pick(&[1, 1, 1, 1, 2, 2, 2, 2, 3, 3, 4, 4, 4, 4, 5, 5, 5, 5, 6, 7, 7, 8, 8, 8, 8, 8]);
    let mut from = j;
    if !rng.one_in(8) {
        from = fit(rng, case, kind, i, j);
    }
    let message = message(rng, &case.table, kind, i, from);
    case.push(message);
    taking(rng, case, case.place_of(&message).expect("it waits"))
}

/// Makes the node fit to take a message of `kind`; the answer is who sends it.
fn fit(rng: &mut Rng, case: &mut Case, kind: usize, i: usize, j: usize) -> usize {
    let others = below(case.table.n) & !bit(i);
    let j = if j == i && others != 0 && !rng.one_in(4) { rng.member(others) } else { j };
    let near = View::new(Right, &case.table).neighbours(i, case.table.nodes[i].sides).marks();
    let node = &mut case.table.nodes[i];
    match kind {
        1 | 2 => {
            node.status = if rng.one_in(10) { Status::Ok } else { Status::Ready };
            if rng.one_in(3) {
                node.routing = rng.subset(others);
                node.failed = rng.subset(others);
                let Sides { left, right } = node.sides;
                node.sides = Sides { left: right, right: left };
            }
            let strangers = others & !node.sides.content(i);
            if kind == 2 && strangers != 0 && !rng.one_in(6) {
                return rng.member(strangers);
            }
        }
        3 => {
            node.status = rng.pick(&[Status::Wait, Status::Wait, Status::Ok, Status::Ready]);
            node.sides = if rng.one_in(6) { node.sides } else { Sides::EMPTY };
            node.probing = if rng.one_in(6) { node.probing } else { 0 };
        }
        4 => {
            node.status = rng.pick(&[Status::Wait, Status::Ok, Status::Ready]);
            fit_failed(rng, node, i, j, others);
        }
        5 => {
            node.status = rng.pick(&[Status::Wait, Status::Wait, Status::Wait, Status::Ok, Status::Ready]);
            fit_failed(rng, node, i, j, others);
            node.probing = if rng.one_in(3) { node.probing } else { 0 };
            node.failed |= if rng.one_in(4) { node.probing } else { 0 };
            if !rng.one_in(8) {
                node.probing |= bit(j) & !bit(i);
            }
        }
        7 => {
            node.status = rng.pick(&[Status::Ok, Status::Ready]);
            return if rng.one_in(2) { rng.member(near) } else { j };
        }
        8 => return fit_broadcast(rng, case, i, j),
        _ => {}
    }
    j
}

/// In some cases many failed nodes, the sender failed, and the sender in one side or in none.
fn fit_failed(rng: &mut Rng, node: &mut Node, i: usize, j: usize, others: u64) {
    let sender = bit(j) & !bit(i);
    match rng.below(6) {
        0 => node.failed = rng.any() & others,
        1 => node.failed |= sender,
        2 => {
            let Sides { left, right } = node.sides;
            let alone = [
                Sides { left: sender, right: right & !sender },
                Sides { left: left & !sender, right: sender },
                Sides { left: sender, right: 0 },
            ];
            node.sides = rng.pick(&alone);
            node.failed |= sender;
        }
        3 => node.sides = Sides { left: node.sides.left & !sender, right: node.sides.right & !sender },
        _ => {}
    }
}

/// A complete leaf set, true or not, with leases of most neighbours, and a sender that is one or not.
fn fit_broadcast(rng: &mut Rng, case: &mut Case, i: usize, j: usize) -> usize {
    let listed = below(case.table.n);
    let l = case.table.l as usize;
    let others = listed & !bit(i);
    let near = View::new(Right, &case.table).add(i, Sides::EMPTY, listed);
    let node = &mut case.table.nodes[i];
    node.status = rng.pick(&[Status::Ok, Status::Ok, Status::Ready]);
    node.failed = if rng.one_in(2) { 0 } else { node.failed };
    node.sides = match rng.below(6) {
        0 => node.sides,
        1 | 2 => near,
        3 => Sides { left: near.right, right: near.left },
        _ => Sides { left: rng.members(others, l), right: rng.members(others, l) },
    };
    node.lease = if rng.one_in(2) { listed } else { rng.subset(listed) };
    let sides = case.table.nodes[i].sides;
    let neighbours = View::new(Right, &case.table).neighbours(i, sides).marks();
    if rng.one_in(2) {
        rng.member(neighbours)
    } else {
        j
    }
}

/// Lets some messages of the step wait already, and fills the pool: little, wholly or to the brink of 6.
fn crowd(rng: &mut Rng, case: &mut Case, action: Action) -> Action {
    let taken = action.place().map(|place| case.pool[place]);
    let mut added = added(case, action);
    if rng.one_in(3) {
        let kept = rng.any();
        let echoed = |nth: usize| kept >> (nth & 63) & 1 == 1;
        for (_, message) in added.iter().enumerate().filter(|(nth, _)| echoed(*nth)) {
            case.push(travelled(&case.table, *message));
        }
        added.retain(|m| case.place_of(m).is_none());
    }
    if rng.one_in(2) {
        let alike: Vec<Message> = added.iter().map(|m| altered(rng, &case.table, *m)).collect();
        alike.into_iter().for_each(|m| case.push(m));
    }
    let brink = Table::MESSAGES + usize::from(taken.is_some()) - added.len().min(Table::MESSAGES);
    let count = match rng.below(24) {
        0 => 255,
        1 => 256,
        2..=7 => (brink + rng.below(3)).saturating_sub(1).min(Table::MESSAGES),
        8 => rng.below(257),
        9..=12 => rng.below(30),
        _ => 0,
    };
    fill(rng, case, count);
    if !rng.one_in(3) {
        let waiting = case.table.count;
        rng.shuffle(&mut case.pool[..waiting]);
    }
    match taken {
        Some(message) => action.at_place(case.place_of(&message).expect("it waits")),
        None => action,
    }
}

/// A message that differs in its flag, its routing set, its failed or its destination alone, and in its hops.
fn altered(rng: &mut Rng, table: &Table, mut message: Message) -> Message {
    let listed = below(table.n);
    match &mut message {
        Message::BroadcastLSet { grant, .. } if !rng.one_in(4) => *grant = !*grant,
        Message::JoinRequest { routing, .. } | Message::JoinReply { routing, .. } if !rng.one_in(4) => {
            *routing = rng.any() & listed;
        }
        Message::LsProbe { failed, .. } | Message::LsProbeReply { failed, .. } if !rng.one_in(4) => {
            *failed = rng.subset(listed);
        }
        Message::Lookup { to, .. }
        | Message::JoinRequest { to, .. }
        | Message::JoinReply { to, .. }
        | Message::LsProbe { to, .. }
        | Message::LsProbeReply { to, .. }
        | Message::NoLegalRoute { to, .. }
        | Message::LeaseRequest { to, .. }
        | Message::BroadcastLSet { to, .. } => *to = rng.below(table.n) as u8,
        Message::Blank => {}
    }
    travelled(table, message)
}

/// The messages that the step adds, if it is done.
pub fn added(case: &Case, action: Action) -> Vec<Message> {
    let mut after = case.clone();
    match step(&mut after.table, &mut after.pool, action) {
        Ok(()) => after.waiting().iter().filter(|m| case.place_of(m).is_none()).copied().collect(),
        Err(_) => Vec::new(),
    }
}

/// In few cases puts an argument out of range or replaces it by any other.
pub fn stray(rng: &mut Rng, table: &Table, action: Action) -> Action {
    if !rng.one_in(20) {
        return action;
    }
    let wide = |rng: &mut Rng, limit: usize| {
        let within = rng.below(limit.max(1));
        match rng.below(4) {
            0 => rng.any() as usize,
            1 => rng.pick(&[within, (1 << 8) + within, (1 << 32) + within]),
            2 => rng.pick(&[64, 65, 256, 257, usize::MAX]),
            _ => rng.pick(&[limit, limit + 1]),
        }
    };
    let mut slot = |old: usize| if rng.one_in(2) { wide(rng, table.n) } else { old };
    match action {
        Action::Lookup { at, key } => {
            let at = slot(at);
            let whole = 1u64 << table.m;
            let keys = [whole, whole + key, (1 << 32) + key, u64::MAX, rng.any(), key];
            Action::Lookup { at, key: rng.pick(&keys) }
        }
        Action::Join { node, seed } => Action::Join { node: slot(node), seed: slot(seed) },
        Action::RequestLease { node } => Action::RequestLease { node: slot(node) },
        Action::LeaseExpired { node, partner } => {
            Action::LeaseExpired { node: slot(node), partner: slot(partner) }
        }
        Action::GrantExpired { node, partner } => {
            Action::GrantExpired { node: slot(node), partner: slot(partner) }
        }
        Action::Take { .. } | Action::Deliver { .. } | Action::Forward { .. } => {
            action.at_place(wide(rng, table.count))
        }
        Action::NodeLeft { node } => Action::NodeLeft { node: slot(node) },
        Action::SuspectFaulty { node, partner } => {
            Action::SuspectFaulty { node: slot(node), partner: slot(partner) }
        }
        Action::ProbeTimeOut { node, partner } => {
            Action::ProbeTimeOut { node: slot(node), partner: slot(partner) }
        }
        Action::DeclareDead { node, partner } => {
            Action::DeclareDead { node: slot(node), partner: slot(partner) }
        }
        Action::LsRepair { node } => Action::LsRepair { node: slot(node) },
        Action::ResignNode { node, seed } => Action::ResignNode { node: slot(node), seed: slot(seed) },
        Action::Recover { node } => Action::Recover { node: slot(node) },
    }
}
