//! A walk of done steps from a start.

use super::case::Case;
use super::leaving::any_leaving;
use super::messages::key;
use super::prime::stray;
use super::rng::Rng;
use super::tables::ring;
use super::taking::taking;
use crate::marks::below;
use crate::message::EMPTY_POOL;
use crate::start::start;
use crate::step::{step, Action};
use crate::table::{Status, Table};

pub struct Walk {
    case: Case,
    left: usize,
    /// Whether nodes go away.
    leaving: bool,
}

impl Walk {
    pub fn new(rng: &mut Rng) -> Walk {
        let ring = ring(rng);
        let ids: Vec<u32> = ring.listed().iter().map(|node| node.id).collect();
        let ready = match rng.below(3) {
            0 => 1 << rng.below(ring.n),
            1 => below(ring.n),
            _ => rng.any() & below(ring.n),
        };
        let ready = if ready == 0 { 1 } else { ready };
        let mut case = Case { table: Table::BLANK, pool: EMPTY_POOL };
        start(ring.m.into(), ring.l.into(), &ids, ready, &mut case.table, &mut case.pool)
            .expect("the start is right");
        Walk { case, left: 20 + rng.below(300), leaving: rng.one_in(2) }
    }

    pub fn case(&self) -> &Case {
        &self.case
    }

    /// The next action, asked for on the table as it stands, and made if it is done.
    pub fn advance(&mut self, rng: &mut Rng) -> (Case, Action) {
        if self.left == 0 {
            *self = Walk::new(rng);
        }
        self.left -= 1;
        let before = self.case.clone();
        let mut action = any(rng, &self.case, self.leaving);
        for _ in 0..6 {
            let done = step(&mut self.case.table, &mut self.case.pool, action).is_ok();
            if done || rng.one_in(6) {
                break;
            }
            action = any(rng, &self.case, self.leaving);
        }
        (before, action)
    }
}

/// An action that may well be done, in some walks a departure or repair.
pub fn any(rng: &mut Rng, case: &Case, leaving: bool) -> Action {
    if leaving && rng.one_in(3) {
        let action = any_leaving(rng, case);
        return stray(rng, &case.table, action);
    }
    let (table, n) = (&case.table, case.table.n);
    let with = |rng: &mut Rng, wanted: Status| {
        let set = table.marks(|node| node.status == wanted);
        if set == 0 || rng.one_in(10) {
            rng.below(n)
        } else {
            rng.member(set)
        }
    };
    let partner = |rng: &mut Rng, set: u64| {
        if set == 0 || rng.one_in(4) {
            rng.below(n)
        } else {
            rng.member(set)
        }
    };
    let kinds = if table.count == 0 && !rng.one_in(20) { 9 } else { 24 };
    let action = match rng.below(kinds) {
        0 => Action::Lookup { at: rng.below(n), key: key(rng, table).into() },
        1..=3 => Action::Join { node: with(rng, Status::Dead), seed: with(rng, Status::Ready) },
        4..=6 => Action::RequestLease { node: with(rng, Status::Ok) },
        7 => {
            let node = with(rng, Status::Ready);
            Action::LeaseExpired { node, partner: partner(rng, table.nodes[node].lease) }
        }
        8 => {
            let node = with(rng, Status::Ready);
            Action::GrantExpired { node, partner: partner(rng, table.nodes[node].grant) }
        }
        9..=13 => taking(rng, case, 0),
        _ => {
            let place = rng.below(table.count.max(1));
            taking(rng, case, place)
        }
    };
    stray(rng, table, action)
}
