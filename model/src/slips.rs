//! Bodies of misreadings that are longer than a word.

use crate::marks::{below, bit, keep_down, keep_up, slots};
use crate::message::{Fields, Message};
use crate::reading::Reading;
use crate::slip::Slip;
use crate::table::{Node, Sides, Status};
use crate::view::View;

/// The member of `set` at least distance from the owner, the lowest slot of two.
pub(crate) fn closest<R: Reading>(view: &View<R>, set: u64, owner: usize) -> usize {
    let distance = |slot: &usize| view.ring.distance(view.table.id(*slot), view.table.id(owner));
    slots(set).min_by_key(distance).unwrap_or(owner)
}

/// 001's comparison: the member whose signed distance to all others is of one sign, if there is one.
pub(crate) fn signed_most<R: Reading>(
    view: &View<R>,
    set: u64,
    signed: impl Fn(u32, u32) -> i64,
) -> Option<usize> {
    let id = |slot| view.table.id(slot);
    slots(set).find(|&most| slots(set).all(|other| other == most || signed(id(most), id(other)) < 0))
}

/// The sides that a node's covers are reckoned with.
#[inline]
pub(crate) fn cover_sides<R: Reading>(view: &View<R>, i: usize) -> Sides {
    let node = &view.table.nodes[i];
    let mut skipped = view.r.pick(Slip::CoverSkipsFailed, node.failed, 0);
    if view.r.takes(Slip::CoverSkipsDead) {
        skipped = view.table.marks(|other| other.status == Status::Dead);
    }
    Sides { left: node.sides.left & !skipped, right: node.sides.right & !skipped }
}

/// The ids of a start, where they are sorted.
pub(crate) fn sorted<R: Reading>(r: R, ids: &[u32]) -> Option<Vec<u32>> {
    r.takes(Slip::StartIdsSorted).then(|| {
        let mut ids = ids.to_vec();
        ids.sort_unstable();
        ids
    })
}

/// Whether a table is held unsettled for a reason that 01 does not have.
pub(crate) fn unsettles<R: Reading>(view: &View<R>, ready: u64) -> bool {
    let (r, table) = (view.r, view.table);
    let some =
        |wanted: &dyn Fn(usize, &Node) -> bool| slots(ready).any(|slot| wanted(slot, &table.nodes[slot]));
    let lacks = |slot: usize, node: &Node| view.neighbours(slot, node.sides).marks() & !node.lease != 0;
    r.takes(Slip::SettledOnlyReady) && ready != below(table.n)
        || r.takes(Slip::SettledEveryFailed) && table.listed().iter().any(|node| node.failed & ready != 0)
        || r.takes(Slip::SettledWithoutMessages) && table.count != 0
        || r.takes(Slip::SettledWithoutProbing) && some(&|_, node| node.probing != 0)
        || r.takes(Slip::SettledWithLeases) && some(&lacks)
        || r.takes(Slip::SettledWithComplete) && some(&|_, node| !node.sides.is_complete(table.l))
        || r.takes(Slip::SettledReadyLeaves) && some(&|slot, node| node.sides.content(slot) & !ready != 0)
}

/// Whether a waiting message is held equal to one that is added, by the misreadings of equality.
pub(crate) fn held_equal<R: Reading>(r: R, waiting: &[Message], message: &Message) -> Option<bool> {
    if r.takes(Slip::EqualSeesHops) {
        return Some(waiting.contains(message));
    }
    let blind: fn(&mut Fields) = if r.takes(Slip::EqualWithoutSets) {
        |fields| {
            (fields.routing, fields.failed, fields.flag) = (0, 0, 0);
            (fields.left, fields.right) = (0, 0);
        }
    } else if r.takes(Slip::EqualWithoutFlag) {
        |fields| fields.flag = 0
    } else if r.takes(Slip::EqualWithoutRouting) {
        |fields| fields.routing = 0
    } else if r.takes(Slip::EqualWithoutFailed) {
        |fields| fields.failed = 0
    } else if r.takes(Slip::EqualAnywhere) {
        |fields| fields.to = 0
    } else {
        return None;
    };
    let seen = |message: &Message| {
        let mut fields = message.with_hops(0).fields();
        blind(&mut fields);
        fields
    };
    Some(waiting.iter().any(|other| seen(other) == seen(message)))
}

/// Whether a Lookup's hops are held in range, by the misreadings of the bound.
#[inline]
pub(crate) fn hops_fit<R: Reading>(view: &View<R>, to: usize, key: u32, hops: u32) -> Option<bool> {
    let (r, table, listed) = (view.r, view.table, below(view.table.n));
    let of = |wanted: &dyn Fn(usize) -> bool| {
        slots(listed).filter(|&slot| wanted(slot)).fold(0, |set, slot| set | bit(slot))
    };
    let distance = |slot: usize| view.ring.distance(key, table.id(slot));
    let fall = |slot: usize| view.ring.fall(key, table.id(slot));
    let counted = if r.takes(Slip::BoundPlainDistance) {
        of(&|slot| distance(slot) > distance(to))
    } else if r.takes(Slip::BoundWithTies) {
        of(&|slot| distance(slot) >= distance(to) && slot != to)
    } else if r.takes(Slip::BoundByFall) {
        of(&|slot| fall(slot) > fall(to))
    } else if r.takes(Slip::BoundOfReady) {
        view.farther(to, key) & table.marks(|node| node.status == Status::Ready)
    } else if r.takes(Slip::BoundOfLive) {
        view.farther(to, key) & table.marks(|node| node.status != Status::Dead)
    } else if r.takes(Slip::BoundOfNearer) {
        view.nearer_than(listed, to, key)
    } else if r.takes(Slip::BoundWithItself) {
        view.farther(to, key) | bit(to)
    } else if r.takes(Slip::BoundOfOthers) {
        listed & !bit(to)
    } else if r.takes(Slip::BoundStrict) {
        return Some(hops < view.farther(to, key).count_ones());
    } else if r.takes(Slip::BoundStrictAboveZero) {
        return Some(hops == 0 || hops < view.farther(to, key).count_ones());
    } else {
        return r.takes(Slip::BoundNone).then_some(true);
    };
    Some(hops <= counted.count_ones())
}

/// The number that a waiting Lookup gets where an equal one comes, by the misreadings of their meeting.
#[inline]
pub(crate) fn met<R: Reading>(r: R, waiting: &Message, coming: &Message) -> Option<u32> {
    let (&Message::Lookup { hops: old, .. }, &Message::Lookup { hops: new, .. }) = (waiting, coming) else {
        return None;
    };
    if r.takes(Slip::ComingHopsKept) {
        Some(new)
    } else if r.takes(Slip::LargerHopsKept) {
        Some(old.max(new))
    } else if r.takes(Slip::SmallerHopsKept) {
        Some(old.min(new))
    } else {
        r.takes(Slip::MeetingCounted).then_some(old.wrapping_add(1))
    }
}

/// Whether a waiting message goes when the probe of j by i times out: an LSProbe from i to j.
#[inline]
pub(crate) fn goes<R: Reading>(r: R, message: &Message, i: usize, j: usize) -> bool {
    let between = |node: u8, to: u8| (usize::from(node), usize::from(to)) == (i, j);
    match *message {
        Message::LsProbe { to, node, .. } => {
            let from_anyone = r.takes(Slip::TimeOutTakesOfAnyone) && usize::from(to) == j;
            let to_anyone = r.takes(Slip::TimeOutTakesToAnyone) && usize::from(node) == i;
            (between(node, to) || from_anyone || to_anyone) && !r.takes(Slip::TimeOutTakesNone)
        }
        Message::LsProbeReply { to, node, .. } => r.takes(Slip::TimeOutTakesReplies) && between(node, to),
        _ => false,
    }
}

/// The misreadings of adding to a leaf set.
#[inline]
pub(crate) fn add<R: Reading>(view: &View<R>, owner: usize, sides: Sides, set: u64) -> Option<Sides> {
    if view.r.takes(Slip::AddByDistance) {
        return Some(add_by_distance(view, owner, sides, set));
    }
    if view.r.takes(Slip::AddHalfEach) {
        return Some(add_half_each(view, owner, sides, set));
    }
    if view.r.takes(Slip::AddOnlyToRoom) {
        return Some(add_only_to_room(view, owner, sides, set));
    }
    if view.r.takes(Slip::AddLeftFirst) {
        return Some(add_left_first(view, owner, sides, set));
    }
    if view.r.takes(Slip::AddLeftOnly) {
        let left = keep_up((sides.left | set) & !bit(owner), owner, view.table.l);
        return Some(Sides { left, ..sides });
    }
    None
}

fn add_by_distance<R: Reading>(view: &View<R>, owner: usize, sides: Sides, set: u64) -> Sides {
    let keep = |side: u64| {
        let mut members: Vec<usize> = slots((side | set) & !bit(owner)).collect();
        members.sort_by_key(|&slot| view.ring.distance(view.table.id(slot), view.table.id(owner)));
        members.iter().take(view.table.l as usize).fold(0, |kept, &slot| kept | bit(slot))
    };
    Sides { left: keep(sides.left), right: keep(sides.right) }
}

fn add_half_each<R: Reading>(view: &View<R>, owner: usize, sides: Sides, set: u64) -> Sides {
    let id = view.table.id(owner);
    let above = |&slot: &usize| {
        let other = view.table.id(slot);
        view.ring.fall(other, id) <= view.ring.fall(id, other)
    };
    let up = slots(set).filter(above).fold(0, |kept, slot| kept | bit(slot));
    let (left, right) = ((sides.left | up) & !bit(owner), (sides.right | (set & !up)) & !bit(owner));
    let l = view.table.l;
    Sides { left: keep_up(left, owner, l), right: keep_down(right, owner, l) }
}

fn add_only_to_room<R: Reading>(view: &View<R>, owner: usize, sides: Sides, set: u64) -> Sides {
    let (l, set) = (view.table.l, set & !bit(owner));
    let room = |side: u64| l.saturating_sub(side.count_ones());
    let (left, right) = (set & !sides.left, set & !sides.right);
    Sides {
        left: sides.left | keep_up(left, owner, room(sides.left)),
        right: sides.right | keep_down(right, owner, room(sides.right)),
    }
}

fn add_left_first<R: Reading>(view: &View<R>, owner: usize, sides: Sides, set: u64) -> Sides {
    let l = view.table.l;
    let left = keep_up((sides.left | set) & !bit(owner), owner, l);
    let right = (sides.right | set) & !(bit(owner) | left);
    Sides { left, right: keep_down(right, owner, l) }
}

/// The misreadings of the routing branch: `Some` is their answer.
#[inline]
pub(crate) fn routing_hop<R: Reading>(
    view: &View<R>,
    candidates: u64,
    i: usize,
    key: u32,
) -> Option<Option<usize>> {
    if view.r.takes(Slip::RoutingNotNearer) {
        return Some(view.nearest(candidates & !bit(i), key));
    }
    if view.r.takes(Slip::RoutingAnyNearer) {
        return Some(slots(view.nearer_than(candidates, i, key)).next());
    }
    if view.r.takes(Slip::RoutingPlainDistance) {
        let distance = |slot| view.ring.distance(key, view.table.id(slot));
        return Some(view.nearest(candidates, key).filter(|&slot| distance(slot) < distance(i)));
    }
    None
}
