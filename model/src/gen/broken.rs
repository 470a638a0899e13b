//! Actions that would be done but for one or two conditions.

use super::case::Case;
use super::messages::{fill, key, lookup, message};
use super::rng::Rng;
use super::tables;
use super::taking::{fitting, three};
use crate::marks::{below, bit};
use crate::reading::Right;
use crate::step::Action;
use crate::table::{Sides, Status};
use crate::view::View;

/// A table, an action on it at node i with partner j, and what is wrong.
struct Broken<'a> {
    rng: &'a mut Rng,
    case: Case,
    i: usize,
    j: usize,
    /// The slot that the action names as seed or partner.
    named: usize,
}

/// A valid table and an action that one or two conditions refuse.
pub fn broken(rng: &mut Rng) -> (Case, Action) {
    let mut case = tables::small(rng);
    let few = rng.below(3);
    fill(rng, &mut case, few);
    let i = rng.below(case.table.n);
    let j = rng.member(below(case.table.n) & !bit(i));
    let kind = rng.below(29);
    let mut broken = Broken { rng, case, i, j, named: j };
    let action = match kind {
        0 | 1 => broken.lookup(),
        2..=4 => broken.join(),
        5 | 6 => broken.request_lease(),
        7 | 8 => broken.lease_expired(),
        9..=11 => broken.grant_expired(),
        12 => broken.take_past(),
        13..=17 => broken.pair(),
        _ => broken.take(),
    };
    (broken.case, action)
}

impl Broken<'_> {
    /// One or two of `many` faults, in few cases none.
    fn faults(&mut self, many: usize) -> Vec<usize> {
        let one = self.rng.below(many);
        let other = (one + 1 + self.rng.below(many - 1)) % many;
        match self.rng.below(7) {
            0 => vec![],
            1..=3 => vec![one],
            _ => vec![one, other],
        }
    }

    fn set_status(&mut self, slot: usize, choices: &[Status]) {
        self.case.table.nodes[slot].status = self.rng.pick(choices);
    }

    fn set_sides(&mut self, sides: Sides) {
        self.case.table.nodes[self.i].sides = sides;
    }

    /// The whole leaf set of i, or one of few members.
    fn some_sides(&mut self) -> Sides {
        let others = below(self.case.table.n) & !bit(self.i);
        let few = self.rng.members(others, 1);
        let view = View::new(Right, &self.case.table);
        match self.rng.below(4) {
            0 => Sides { left: few, right: 0 },
            1 => Sides { left: 0, right: few },
            _ => view.add(self.i, Sides::EMPTY, others),
        }
    }

    /// A slot at n or beyond.
    fn out(&mut self) -> usize {
        let (n, within) = (self.case.table.n, self.rng.below(self.case.table.n));
        self.rng.pick(&[n, n + 1, 64, 255, (1 << 8) + within, (1 << 32) + within, usize::MAX])
    }

    fn lookup(&mut self) -> Action {
        let table = &self.case.table;
        let (whole, key) = (1u64 << table.m, key(self.rng, table));
        let (mut at, mut asked) = (self.i, u64::from(key));
        for fault in self.faults(4) {
            match fault {
                0 => at = self.out(),
                1 => self.case.push(lookup(&self.case.table, self.i, key)),
                2 => asked = (1 << 32) + u64::from(key),
                _ => asked = self.rng.pick(&[whole, whole + u64::from(key), u64::MAX]),
            }
        }
        Action::Lookup { at, key: asked }
    }

    fn join(&mut self) -> Action {
        use Status::{Dead, Ok, Ready, Wait};
        let (i, seed) = (self.i, self.j);
        self.set_status(i, &[Dead]);
        self.set_status(seed, &[Ready]);
        self.set_sides(Sides::EMPTY);
        for fault in self.faults(7) {
            match fault {
                0 => self.set_status(i, &[Wait, Wait, Wait, Ok, Ready]),
                1 => self.set_status(seed, &[Ok, Wait, Dead]),
                2 | 3 => {
                    let to = if self.rng.one_in(2) { seed } else { self.rng.below(self.case.table.n) };
                    let request = message(self.rng, &self.case.table, 2, to, i);
                    self.case.push(request);
                }
                4 | 5 => {
                    let sides = self.some_sides();
                    self.set_sides(sides);
                }
                _ => self.named = self.out(),
            }
        }
        Action::Join { node: i, seed: self.named }
    }

    fn request_lease(&mut self) -> Action {
        let sides = self.some_sides();
        self.set_sides(sides);
        self.set_status(self.i, &[Status::Ok]);
        self.case.table.nodes[self.i].lease &= !bit(self.i);
        let mut node = self.i;
        for fault in self.faults(5) {
            match fault {
                0 | 1 => self.set_status(self.i, &[Status::Dead, Status::Wait, Status::Wait, Status::Ready]),
                2 | 3 => self.set_sides(Sides::EMPTY),
                _ => node = self.out(),
            }
        }
        Action::RequestLease { node }
    }

    fn lease_expired(&mut self) -> Action {
        self.fit_expiry();
        self.case.table.nodes[self.i].lease |= bit(self.j);
        for fault in self.faults(4) {
            match fault {
                0 => self.set_status(self.i, &[Status::Dead, Status::Wait, Status::Wait]),
                1 => self.case.table.nodes[self.i].lease &= !bit(self.j),
                2 => {
                    self.named = self.i;
                    self.case.table.nodes[self.i].lease |= bit(self.i);
                }
                _ => self.named = self.out(),
            }
        }
        Action::LeaseExpired { node: self.i, partner: self.named }
    }

    fn grant_expired(&mut self) -> Action {
        self.fit_expiry();
        self.case.table.nodes[self.i].grant |= bit(self.j);
        self.case.table.nodes[self.j].lease &= !bit(self.i);
        self.set_status(self.j, &[Status::Dead, Status::Dead, Status::Wait, Status::Ok, Status::Ready]);
        for fault in self.faults(6) {
            match fault {
                0 => self.set_status(self.i, &[Status::Dead, Status::Wait, Status::Wait]),
                1 => self.case.table.nodes[self.i].grant &= !bit(self.j),
                2 => {
                    self.named = self.i;
                    self.case.table.nodes[self.i].grant |= bit(self.i);
                    self.case.table.nodes[self.i].lease &= !bit(self.i);
                }
                3 | 4 => {
                    self.case.table.nodes[self.j].lease |= bit(self.i);
                    self.set_status(self.j, &[Status::Dead, Status::Dead, Status::Wait, Status::Ok]);
                }
                _ => self.named = self.out(),
            }
        }
        Action::GrantExpired { node: self.i, partner: self.named }
    }

    fn fit_expiry(&mut self) {
        self.set_status(self.i, &[Status::Ok, Status::Ready]);
        if self.rng.one_in(2) {
            let sides = self.some_sides();
            self.set_sides(sides);
        }
    }

    /// A place where nothing waits.
    fn take_past(&mut self) -> Action {
        let key = key(self.rng, &self.case.table);
        self.case.push(lookup(&self.case.table, self.i, key));
        let count = self.case.table.count;
        let within = self.rng.below(count);
        let place = self.rng.pick(&[count, 256, usize::MAX, (1 << 8) + within, (1 << 32) + within]);
        self.rng.pick(&three(place))
    }

    /// One of the pair: for a Lookup at a ready node the right one, but for the faults. They are another status, a
    /// JoinRequest, a NoLegalRoute, another kind, Take, and the other of the pair.
    fn pair(&mut self) -> Action {
        let (i, j) = (self.i, self.j);
        self.set_status(i, &[Status::Ready]);
        let (mut kind, mut take, mut other) = (1, false, false);
        for fault in self.rng.faults("- 0 0 1 1 2 2 3 4 5 5 01 03 04 04 05 05 2") {
            match fault {
                0 => self.set_status(i, &[Status::Dead, Status::Wait, Status::Ok, Status::Ok]),
                1 => kind = 2,
                2 => kind = 6,
                3 => kind = self.rng.pick(&[3, 4, 5, 7, 8]),
                4 => take = true,
                _ => other = true,
            }
        }
        let message = message(self.rng, &self.case.table, kind, i, j);
        self.case.push(message);
        let place = self.case.place_of(&message).expect("it waits");
        let [taken, delivered, forwarded] = three(place);
        if take {
            return taken;
        }
        let delivers = match kind {
            1 => fitting(&self.case, place) == delivered,
            2 => self.rng.one_in(3),
            _ => !self.rng.one_in(3),
        };
        if delivers != other {
            delivered
        } else {
            forwarded
        }
    }

    /// A Take of kinds 2 to 8.
    fn take(&mut self) -> Action {
        let kind = self.rng.pick(&[2, 3, 3, 3, 4, 4, 5, 5, 6, 7, 8, 8]);
        let from = match kind {
            2 => self.join_request(),
            3 => self.join_reply(),
            4 | 5 => self.probe(),
            6 => self.no_route(),
            7 => self.asked(),
            _ => self.broadcast(),
        };
        let message = message(self.rng, &self.case.table, kind, self.i, from);
        self.case.push(message);
        Action::Take { place: self.case.place_of(&message).expect("it waits") }
    }

    fn join_request(&mut self) -> usize {
        self.set_status(self.i, &[Status::Ready]);
        let sides = self.case.table.nodes[self.i].sides;
        let (left, right) = (sides.left & !bit(self.j), sides.right & !bit(self.j));
        self.set_sides(Sides { left, right });
        let mut from = self.j;
        for fault in self.faults(3) {
            match fault {
                0 => self.set_status(self.i, &[Status::Dead, Status::Wait, Status::Ok]),
                1 => self.set_sides(Sides { left: bit(self.j), right }),
                _ => from = self.i,
            }
        }
        from
    }

    fn join_reply(&mut self) -> usize {
        let (i, j) = (self.i, self.j);
        self.set_status(i, &[Status::Wait, Status::Ok, Status::Ready]);
        self.set_sides(Sides::EMPTY);
        self.case.table.nodes[i].probing = 0;
        for fault in self.faults(3) {
            match fault {
                0 => self.set_status(i, &[Status::Dead]),
                1 => {
                    let sides = self.some_sides();
                    self.set_sides(sides);
                }
                _ => self.case.table.nodes[i].probing = bit(j),
            }
        }
        j
    }

    fn probe(&mut self) -> usize {
        let (i, mut from) = (self.i, self.j);
        self.set_status(i, &[Status::Wait, Status::Wait, Status::Ok, Status::Ready]);
        let sides = self.some_sides();
        self.set_sides(sides);
        self.case.table.nodes[i].probing |= bit(from);
        for fault in self.faults(4) {
            match fault {
                0 => self.set_status(i, &[Status::Dead]),
                1 => self.set_sides(Sides::EMPTY),
                2 => from = i,
                _ => self.case.table.nodes[i].probing &= !bit(self.j),
            }
        }
        from
    }

    fn no_route(&mut self) -> usize {
        self.set_status(self.i, &[Status::Dead, Status::Dead, Status::Wait, Status::Ok, Status::Ready]);
        self.j
    }

    fn asked(&mut self) -> usize {
        self.set_status(self.i, &[Status::Ok, Status::Ready]);
        let sides = self.some_sides();
        self.set_sides(sides);
        for fault in self.faults(2) {
            match fault {
                0 => self.set_status(self.i, &[Status::Dead, Status::Wait, Status::Wait]),
                _ => self.set_sides(Sides::EMPTY),
            }
        }
        self.j
    }

    fn broadcast(&mut self) -> usize {
        let (i, mut from) = (self.i, self.j);
        self.set_status(i, &[Status::Ok, Status::Ready]);
        let others = below(self.case.table.n) & !bit(i);
        let whole = View::new(Right, &self.case.table).add(i, Sides::EMPTY, others);
        self.set_sides(whole);
        for fault in self.faults(3) {
            match fault {
                0 => self.set_status(i, &[Status::Dead, Status::Wait, Status::Wait]),
                1 => {
                    let short = [Sides { left: 0, ..whole }, Sides { right: 0, ..whole }, Sides::EMPTY];
                    let sides = self.rng.pick(&short);
                    self.set_sides(sides);
                }
                _ => from = i,
            }
        }
        from
    }
}
