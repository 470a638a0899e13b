//! Validity of a table and its messages.

use crate::index::Index;
use crate::marks::{below, has};
use crate::message::{Message, Pool};
use crate::reading::{Reading, Right};
use crate::refusal::{refuse_if, Refusal};
use crate::slip::Slip;
use crate::slips;
use crate::table::{Node, Sides, Table};
use crate::view::View;

/// Whether the table is valid with this list of messages.
pub fn is_valid(table: &Table, pool: &[Message]) -> bool {
    lent(pool).is_ok_and(|pool| check(Right, table, pool, &mut Index::new()).is_ok())
}

/// The list as one of exactly 256 places.
pub(crate) fn lent(pool: &[Message]) -> Result<&Pool, Refusal> {
    pool.try_into().map_err(|_| Refusal::Invalid)
}

pub(crate) fn lent_mut(pool: &mut [Message]) -> Result<&mut Pool, Refusal> {
    pool.try_into().map_err(|_| Refusal::Invalid)
}

/// Whether M, L and the number of nodes are in range.
#[inline]
pub(crate) fn in_limits<R: Reading>(r: R, m: u32, l: u32, n: usize) -> bool {
    let tops = m == 32 || l == 8 || n == 64;
    let ranges = Table::M.contains(&m) && Table::L.contains(&l) && (1..=Table::NODES).contains(&n);
    ranges && !(r.takes(Slip::TopsRefused) && tops)
}

/// Refuses an invalid table; of a valid one notes every message in the index.
#[inline]
pub(crate) fn check<R: Reading>(r: R, table: &Table, pool: &Pool, index: &mut Index) -> Result<(), Refusal> {
    let limits = Limits::of(r, table)?;
    refuse_if(!limits.nodes_obey(table), Refusal::Invalid)?;
    for place in 0..table.count {
        refuse_if(!limits.message_obeys(&pool[place]), Refusal::Invalid)?;
        let alone = index.note(pool, place);
        let apart = r.takes(Slip::EqualNeighboursOnly) && !pool[place].equals(&pool[place.saturating_sub(1)])
            || r.takes(Slip::ValidSeesHops) && !pool[..place].contains(&pool[place]);
        refuse_if(!alone && !apart && !r.takes(Slip::EqualAccepted), Refusal::Invalid)?;
    }
    Ok(())
}

/// What the numbers and the ids of a table allow.
struct Limits<'a, R> {
    view: View<'a, R>,
    l: u32,
    n: usize,
    top: u64,
    listed: u64,
    r: R,
}

impl<'a, R: Reading> Limits<'a, R> {
    /// M, L, n and the count are in range.
    #[inline]
    fn of(r: R, table: &'a Table) -> Result<Limits<'a, R>, Refusal> {
        let Table { m, l, n, count, .. } = *table;
        let ranges = in_limits(Right, m, l, n) && count <= Table::MESSAGES;
        refuse_if(!ranges, Refusal::Invalid)?;
        let top = r.pick(Slip::IdAtN, 1 << m, (1 << m) - 1);
        let listed = r.pick(Slip::MarkPastN, !0, below(n));
        Ok(Limits { view: View::new(r, table), l, n, top, listed, r })
    }

    #[inline]
    fn nodes_obey(&self, table: &Table) -> bool {
        let (listed, unlisted) = table.nodes.split_at(table.n);
        let marks = listed.iter().enumerate().all(|(slot, node)| self.node_obeys(slot, node));
        let apart = self.r.pick(Slip::IdsMayRepeat, 0, 1);
        let rising = listed.windows(2).all(|pair| u64::from(pair[0].id) + apart <= u64::from(pair[1].id))
            || self.r.takes(Slip::IdsAnyOrder);
        let top = listed.last().is_some_and(|node| u64::from(node.id) <= self.top);
        marks && rising && top && unlisted.iter().all(|node| *node == Node::BLANK)
    }

    #[inline]
    fn node_obeys(&self, slot: usize, node: &Node) -> bool {
        let Node { sides, probing, failed, routing, lease, grant, .. } = *node;
        let r = self.r;
        let both = sides.left | sides.right;
        let not_self = r.pick(Slip::SelfInSides, 0, both)
            | r.pick(Slip::SelfInProbing, 0, probing)
            | r.pick(Slip::SelfInFailed, 0, failed)
            | r.pick(Slip::SelfInNoSet, routing | lease | grant, 0);
        let all = r.pick(Slip::MarkPastNInSides, 0, both)
            | r.pick(Slip::MarkPastNInFailed, 0, probing | failed)
            | r.pick(Slip::MarkPastNInRouting, 0, routing)
            | r.pick(Slip::MarkPastNInLease, 0, lease | grant);
        self.listed(all) && !has(not_self, slot) && self.sides_fit(sides)
    }

    #[inline]
    fn sides_fit(&self, sides: Sides) -> bool {
        let most = self.l + self.r.pick(Slip::SidePastL, 1, 0) - self.r.pick(Slip::SideAtL, 1, 0);
        if self.r.takes(Slip::SidesTogether) {
            return (sides.left | sides.right).count_ones() <= 2 * most;
        }
        sides.left.count_ones() <= most && sides.right.count_ones() <= most
    }

    #[inline]
    fn message_obeys(&self, message: &Message) -> bool {
        match *message {
            Message::Blank => self.r.takes(Slip::BlankAccepted),
            Message::Lookup { to, key, hops } => {
                self.slot(to) && self.key(key) && self.hops_fit(to.into(), key, hops)
            }
            Message::NoLegalRoute { to, key, hops } => {
                self.slot(to) && self.key(key) && self.no_hops(hops, Slip::NoRouteCarriesHops)
            }
            Message::JoinRequest { to, node, routing, hops } => {
                self.slots(to, node)
                    && self.carried(routing)
                    && self.sent(to, node)
                    && self.no_hops(hops, Slip::JoinsCountHops)
            }
            Message::JoinReply { to, owner, routing, sides } => {
                self.slots(to, owner) && self.carried(routing) && self.leaves(owner, sides)
            }
            Message::LsProbe { to, node, sides, failed }
            | Message::LsProbeReply { to, node, sides, failed } => {
                self.slots(to, node)
                    && self.carried(failed)
                    && self.leaves(node, sides)
                    && self.sent(to, node)
                    && !(self.r.takes(Slip::SenderInFailed) && has(failed, node.into()))
            }
            Message::LeaseRequest { to, node } => self.slots(to, node) && self.sent(to, node),
            Message::BroadcastLSet { to, owner, sides, .. } => {
                self.slots(to, owner) && self.leaves(owner, sides)
            }
        }
    }

    /// A Lookup's hops are at most the number of listed nodes farther from its key than its destination.
    #[inline]
    fn hops_fit(&self, to: usize, key: u32, hops: u32) -> bool {
        slips::hops_fit(&self.view, to, key, hops)
            .unwrap_or_else(|| hops == 0 || hops <= self.view.farther(to, key).count_ones())
    }

    /// Hops of another kind, which a misreading may count.
    #[inline]
    fn no_hops(&self, hops: u32, counted: Slip) -> bool {
        hops == 0 || self.r.takes(counted)
    }

    #[inline]
    fn slot(&self, slot: u8) -> bool {
        usize::from(slot) < self.n
    }

    #[inline]
    fn slots(&self, to: u8, other: u8) -> bool {
        let past = self.r.takes(Slip::SenderPastN) && usize::from(other) == self.n && self.n < Table::NODES;
        self.slot(to) && (self.slot(other) || past)
    }

    #[inline]
    fn key(&self, key: u32) -> bool {
        u64::from(key) <= self.top || self.r.takes(Slip::CarriedKeyFree)
    }

    #[inline]
    fn listed(&self, set: u64) -> bool {
        set & !self.listed == 0
    }

    #[inline]
    fn carried(&self, set: u64) -> bool {
        self.listed(set) || self.r.takes(Slip::MarkPastNCarried)
    }

    /// A carried leaf set obeys the node rules for its owner, which is listed.
    #[inline]
    fn leaves(&self, owner: u8, sides: Sides) -> bool {
        let both = sides.left | sides.right;
        self.carried(both)
            && (!has(both, owner.into()) || self.r.takes(Slip::CarriedOwnerInSide))
            && (self.sides_fit(sides) || self.r.takes(Slip::CarriedSidesFree))
    }

    /// A rule that 01 does not have.
    #[inline]
    fn sent(&self, to: u8, node: u8) -> bool {
        !(self.r.takes(Slip::SentToItself) && to == node)
    }
}
