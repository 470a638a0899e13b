//! Departures and repairs (T-03) on tables arranged so that they are done, but for one or two conditions.

use super::case::Case;
use super::messages::{fill, message};
use super::requests::put_step;
use super::rng::Rng;
use super::tables;
use crate::marks::{below, bit, keep_up, slots};
use crate::message::{Message, EMPTY_POOL};
use crate::reading::Right;
use crate::step::Action;
use crate::table::{Node, Sides, Status};
use crate::view::View;
use Status::{Dead, Ok, Ready, Wait};

/// A source of departures and repairs. It draws from numbers of its own, so the other requests do not depend on it.
pub struct Departures {
    rng: Rng,
}

impl Departures {
    pub fn new(seed: u64) -> Departures {
        Departures { rng: Rng::new(seed.rotate_left(48) ^ 3) }
    }

    /// Whether the next request is one of them: one of eight.
    pub fn due(&mut self) -> bool {
        self.rng.one_in(8)
    }

    pub fn put(&mut self, out: &mut Vec<u8>) {
        let (case, action) = leaving(&mut self.rng);
        put_step(&mut self.rng, action, &case.file(), out);
    }
}

/// A table, and an action on it at node i with partner j.
struct Leaving<'a> {
    rng: &'a mut Rng,
    case: Case,
    i: usize,
    j: usize,
    /// The slots that the action names.
    node: usize,
    partner: usize,
}

/// A valid table and a departure or repair on it.
fn leaving(rng: &mut Rng) -> (Case, Action) {
    let mut case = tables::small(rng);
    while case.table.n < 5 {
        case = tables::small(rng);
    }
    let few = rng.below(4);
    fill(rng, &mut case, few);
    let i = rng.below(case.table.n);
    let j = rng.member(below(case.table.n) & !bit(i));
    let kind = rng.below(100);
    let mut leaving = Leaving { rng, case, i, j, node: i, partner: j };
    let others = leaving.others();
    leaving.own().failed |= leaving.rng.members(others, 1);
    let action = match kind {
        0..=5 => leaving.node_left(),
        6..=19 => leaving.suspect_faulty(),
        20..=32 => leaving.probe_time_out(),
        33..=47 => leaving.declare_dead(),
        48..=62 => leaving.ls_repair(),
        63..=82 => leaving.resign_node(),
        _ => leaving.recover(),
    };
    let Leaving { rng, mut case, .. } = leaving;
    if rng.one_in(10) {
        let count = rng.pick(&[254, 255, 256, 256]);
        fill(rng, &mut case, count);
    }
    (case, action)
}

impl Leaving<'_> {
    fn own(&mut self) -> &mut Node {
        &mut self.case.table.nodes[self.i]
    }

    fn set_status(&mut self, choices: &[Status]) {
        self.own().status = self.rng.pick(choices);
    }

    fn out(&mut self) -> usize {
        let (n, within) = (self.case.table.n, self.rng.below(self.case.table.n));
        self.rng.pick(&[n, n + 1, 64, 256 + within, (1 << 32) + within, usize::MAX])
    }

    fn others(&self) -> u64 {
        below(self.case.table.n) & !bit(self.i)
    }

    /// The nearest on both sides, or any nodes, with j among them.
    fn sides_with_partner(&mut self) {
        let (others, l) = (self.others(), self.case.table.l as usize);
        let whole = View::new(Right, &self.case.table).add(self.i, Sides::EMPTY, others);
        let mut sides = whole;
        if self.rng.one_in(3) {
            let (left, right) = (self.rng.below(l + 1), self.rng.below(l + 1));
            sides = Sides { left: self.rng.members(others, left), right: self.rng.members(others, right) };
        }
        if sides.is_empty() {
            sides = whole;
        }
        self.own().sides = sides;
        self.j = self.rng.member(sides.left | sides.right);
        self.partner = self.j;
    }

    /// Faults: dead; a slot out of range.
    fn node_left(&mut self) -> Action {
        self.set_status(&[Wait, Ok, Ready]);
        for fault in self.rng.faults("- - - - 0 1") {
            match fault {
                0 => self.set_status(&[Dead]),
                _ => self.node = self.out(),
            }
        }
        Action::NodeLeft { node: self.node }
    }

    /// Faults: wait; dead; j a stranger; probed; failed; i itself; a slot out of range.
    fn suspect_faulty(&mut self) -> Action {
        self.sides_with_partner();
        self.set_status(&[Ok, Ready]);
        let (i, mark) = (self.i, bit(self.j));
        self.own().probing &= !mark;
        self.own().failed &= !mark;
        for fault in self.rng.faults("- - - 0 0 1 2 2 3 3 4 4 5 02 03 6") {
            match fault {
                0 => self.set_status(&[Wait]),
                1 => self.set_status(&[Dead]),
                2 => self.own().sides = self.own().sides.without(mark),
                3 => self.own().probing |= mark,
                4 => self.own().failed |= mark,
                5 => self.partner = i,
                _ => self.partner = self.out(),
            }
        }
        if self.rng.one_in(8) {
            let Node { sides, failed, .. } = *self.own();
            self.case.push(Message::LsProbe { to: self.j as u8, node: i as u8, sides, failed });
        }
        Action::SuspectFaulty { node: self.node, partner: self.partner }
    }

    /// Faults: dead; j not probed; i itself; a slot out of range. That j is ok or ready is none.
    fn probe_time_out(&mut self) -> Action {
        self.sides_with_partner();
        self.set_status(&[Wait, Ok, Ready]);
        let (i, mark) = (self.i, bit(self.j));
        let (granted, leased) = (self.rng.one_in(3), self.rng.one_in(2));
        let node = self.own();
        node.probing |= mark;
        node.failed &= !mark;
        node.grant = if granted { node.grant | mark } else { node.grant & !mark };
        node.lease = if leased { node.lease | mark } else { node.lease & !mark };
        if self.rng.one_in(5) {
            self.own().sides = self.own().sides.without(mark);
        }
        self.mail();
        for fault in self.rng.faults("- - - - 3 3 0 1 1 01 01 01 2 4") {
            match fault {
                0 => self.set_status(&[Dead]),
                1 => self.own().probing &= !mark,
                2 => self.partner = i,
                3 => self.case.table.nodes[self.j].status = self.rng.pick(&[Ok, Ready]),
                _ => self.partner = self.out(),
            }
        }
        Action::ProbeTimeOut { node: self.node, partner: self.partner }
    }

    /// LSProbes from i to j among others, and replies.
    fn mail(&mut self) {
        let (i, j) = (self.i, self.j);
        let other = self.rng.below(self.case.table.n);
        for (kind, from, to) in [(4, i, j), (4, i, j), (5, i, j), (4, other, j), (4, i, other), (5, j, i)] {
            if !self.rng.one_in(3) {
                let message = message(self.rng, &self.case.table, kind, to, from);
                self.case.push(message);
            }
        }
        let waiting = self.case.table.count;
        self.rng.shuffle(&mut self.case.pool[..waiting]);
    }

    /// Faults: wait; dead; j not failed; a stranger; a granted neighbour; i itself; a slot out of range.
    fn declare_dead(&mut self) -> Action {
        self.case.table.l = self.case.table.l.max(2);
        self.sides_with_partner();
        self.set_status(&[Ok, Ready]);
        let (i, sides) = (self.i, self.own().sides);
        let near = View::new(Right, &self.case.table).neighbours(i, sides);
        let far = (sides.left | sides.right) & !near.marks();
        let faults = self.rng.faults("- - - - 0 0 1 2 2 3 3 4 4 4 02 03 5 6");
        let role = self.rng.below(3);
        self.j = match (role, far) {
            (0, 1..) if faults.is_empty() => self.rng.member(far),
            (0 | 1, _) if near.1 != i => near.1,
            _ if near.0 != i => near.0,
            _ => self.j,
        };
        self.partner = self.j;
        let (mark, free) = (bit(self.j), near.include(self.j) || self.rng.one_in(4));
        let node = self.own();
        node.failed |= mark;
        node.grant = if free { node.grant & !mark } else { node.grant | mark };
        for fault in faults {
            match fault {
                0 => self.set_status(&[Wait]),
                1 => self.set_status(&[Dead]),
                2 => self.own().failed &= !mark,
                3 => self.own().sides = sides.without(mark),
                4 => self.own().grant |= mark,
                5 => self.partner = i,
                _ => self.partner = self.out(),
            }
        }
        Action::DeclareDead { node: self.node, partner: self.partner }
    }

    /// Sides of so many members, which share none.
    fn apart(&mut self, left: usize, right: usize) -> Sides {
        let others = self.others();
        let left = self.rng.members(others, left);
        Sides { left, right: self.rng.members(others & !left, right) }
    }

    /// Faults: ok; dead or ready; no left; no right; complete as full; as overlapping; probing; a slot out of range.
    fn ls_repair(&mut self) -> Action {
        let l = self.rng.pick(&[2, 3, 3]);
        self.case.table.l = l as u32;
        self.fit_l();
        let (short, other) = (l - 1, self.rng.pick(&[1, l, l]));
        let (left, right) = if self.rng.one_in(2) { (short, other) } else { (other, short) };
        let sides = self.apart(left, right);
        self.own().sides = sides;
        self.set_status(&[Wait]);
        self.own().probing = 0;
        let (others, i) = (self.others(), self.i);
        let any = self.rng.member(others);
        for fault in self.rng.faults("- - - - 0 0 1 2 3 4 4 5 5 6 6 6 02 15 26 46 7") {
            match fault {
                0 => self.set_status(&[Ok]),
                1 => self.set_status(&[Dead, Ready]),
                2 => self.own().sides.left = 0,
                3 => self.own().sides.right = 0,
                4 => self.own().sides = View::new(Right, &self.case.table).add(i, Sides::EMPTY, others),
                5 => self.own().sides = Sides { left: bit(any), right: bit(any) },
                6 => self.own().probing = bit(any),
                _ => self.node = self.out(),
            }
        }
        Action::LsRepair { node: self.node }
    }

    /// Cuts every side, also of messages, to L members.
    fn fit_l(&mut self) {
        let l = self.case.table.l;
        let fit = |sides: Sides| Sides { left: keep_up(sides.left, 0, l), right: keep_up(sides.right, 0, l) };
        self.case.table.nodes.iter_mut().for_each(|node| node.sides = fit(node.sides));
        self.case.table.count = 0;
        self.case.pool = EMPTY_POOL;
        let few = self.rng.below(4);
        fill(self.rng, &mut self.case, few);
    }

    /// One side has so many members, the other none.
    fn set_one_side(&mut self, members: usize) {
        let side = self.rng.members(self.others(), members);
        let sides = [Sides { left: side, right: 0 }, Sides { left: 0, right: side }];
        self.own().sides = self.rng.pick(&sides);
    }

    /// Faults: ok; dead or ready; the seed ok; dead or wait; a JoinReply to i; both sides; probing; a slot out of range;
    /// the seed i itself. That a JoinRequest of i waits is none, nor is a JoinReply to another.
    fn resign_node(&mut self) -> Action {
        let (i, l) = (self.i, self.case.table.l as usize);
        let members = self.rng.below(l + 1);
        self.set_one_side(members);
        self.own().probing = 0;
        self.set_status(&[Wait]);
        self.case.table.nodes[self.j].status = Ready;
        let any = self.rng.member(self.others());
        for fault in self.rng.faults("- - - 0 6 2 2 3 4 4 5 5 6 6 7 7 8 8 14 04 45 45 56 56 56 9 a") {
            match fault {
                0 => self.set_status(&[Ok]),
                1 => self.set_status(&[Dead, Ready]),
                2 => self.case.table.nodes[self.j].status = Ok,
                3 => self.case.table.nodes[self.j].status = self.rng.pick(&[Dead, Wait]),
                4 => self.answer(i),
                5 => {
                    let sides = self.apart(1, 1);
                    self.own().sides = sides;
                }
                6 => self.own().probing = bit(any),
                7 => {
                    let to = self.rng.pick(&[self.j, any]);
                    let request = message(self.rng, &self.case.table, 2, to, i);
                    self.case.push(request);
                }
                8 => self.answer(any),
                9 => self.partner = self.out(),
                _ => self.partner = i,
            }
        }
        if self.rng.one_in(12) {
            self.case.push(Message::JoinRequest { to: self.j as u8, node: i as u8, routing: 0, hops: 0 });
        }
        Action::ResignNode { node: self.node, seed: self.partner }
    }

    /// A JoinReply to a node waits.
    fn answer(&mut self, to: usize) {
        let reply = message(self.rng, &self.case.table, 3, to, self.j);
        self.case.push(reply);
    }

    /// Faults: dead; ok or ready; another ok; another ready; both sides; no side; probing; a slot out of range.
    fn recover(&mut self) -> Action {
        self.case.table.l = self.case.table.l.max(2);
        let l = self.case.table.l as usize;
        for slot in slots(self.others()) {
            self.case.table.nodes[slot].status = self.rng.pick(&[Dead, Wait]);
        }
        let members = self.rng.pick(&[1, l, l]);
        self.set_one_side(members);
        self.own().probing = 0;
        self.set_status(&[Wait]);
        let any = self.rng.member(self.others());
        for fault in self.rng.faults("- - - - 0 0 1 2 2 3 3 4 4 5 6 6 6 34 04 46 46 7") {
            match fault {
                0 => self.set_status(&[Dead]),
                1 => self.set_status(&[Ok, Ready]),
                2 => self.case.table.nodes[self.j].status = Ok,
                3 => self.case.table.nodes[self.j].status = Ready,
                4 => {
                    let sides = self.apart(1, 1);
                    self.own().sides = sides;
                }
                5 => self.own().sides = Sides::EMPTY,
                6 => self.own().probing = bit(any),
                _ => self.node = self.out(),
            }
        }
        Action::Recover { node: self.node }
    }
}

/// A departure or repair that may well be done. A node leaves seldom, so that the ring lives on.
pub fn any_leaving(rng: &mut Rng, case: &Case) -> Action {
    let (table, n) = (&case.table, case.table.n);
    let pick = |rng: &mut Rng, wanted: &dyn Fn(&Node) -> bool| {
        let set = table.marks(wanted);
        if set == 0 || rng.one_in(10) {
            rng.below(n)
        } else {
            rng.member(set)
        }
    };
    let partner =
        |rng: &mut Rng, set: u64| if set == 0 || rng.one_in(8) { rng.below(n) } else { rng.member(set) };
    let dead = table.marks(|node| node.status == Dead);
    let leaves = |node: &Node| node.sides.left | node.sides.right;
    match rng.below(16) {
        0 => Action::NodeLeft { node: pick(rng, &|node| node.status != Dead) },
        1..=4 => {
            let node = pick(rng, &|node| node.status.is_member() && leaves(node) & dead != 0);
            let known = leaves(&table.nodes[node]);
            let gone = if rng.one_in(4) { known } else { known & dead };
            Action::SuspectFaulty { node, partner: partner(rng, gone) }
        }
        5..=7 => {
            let node = pick(rng, &|node| node.status != Dead && node.probing & dead != 0);
            let probing = table.nodes[node].probing;
            let gone = if rng.one_in(4) { probing } else { probing & dead };
            Action::ProbeTimeOut { node, partner: partner(rng, gone) }
        }
        8..=10 => {
            let node = pick(rng, &|node| node.status.is_member() && leaves(node) & node.failed != 0);
            Action::DeclareDead {
                node,
                partner: partner(rng, table.nodes[node].failed & leaves(&table.nodes[node])),
            }
        }
        11..=13 => Action::LsRepair { node: pick(rng, &|node| node.status == Wait && node.probing == 0) },
        14 => {
            let node =
                pick(rng, &|node| node.status == Wait && (node.sides.left == 0 || node.sides.right == 0));
            Action::ResignNode { node, seed: pick(rng, &|node| node.status == Ready) }
        }
        _ => Action::Recover { node: pick(rng, &|node| node.status == Wait) },
    }
}
