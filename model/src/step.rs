//! A step: one of the actions on a valid table.

use crate::change::{Change, Scene};
use crate::hop::Via;
use crate::index::Index;
use crate::message::Message;
use crate::reading::{Reading, Right};
use crate::refusal::{refuse_if, Refusal};
use crate::slip::Slip;
use crate::table::{Status, Table};
use crate::valid::{check, lent_mut};
use crate::view::View;

/// One of the actions with its arguments, which may be out of range.
#[derive(Clone, Copy, Debug, PartialEq, Eq)]
pub enum Action {
    Lookup { at: usize, key: u64 },
    Join { node: usize, seed: usize },
    RequestLease { node: usize },
    LeaseExpired { node: usize, partner: usize },
    GrantExpired { node: usize, partner: usize },
    Take { place: usize },
    Deliver { place: usize },
    Forward { place: usize },
    NodeLeft { node: usize },
    SuspectFaulty { node: usize, partner: usize },
    ProbeTimeOut { node: usize, partner: usize },
    DeclareDead { node: usize, partner: usize },
    LsRepair { node: usize },
    ResignNode { node: usize, seed: usize },
    Recover { node: usize },
}

impl Action {
    /// The place of the message that the action handles, if it is one that does.
    pub fn place(self) -> Option<usize> {
        match self {
            Action::Take { place } | Action::Deliver { place } | Action::Forward { place } => Some(place),
            _ => None,
        }
    }

    /// The same action on the message of another place.
    pub fn at_place(self, place: usize) -> Action {
        match self {
            Action::Take { .. } => Action::Take { place },
            Action::Deliver { .. } => Action::Deliver { place },
            Action::Forward { .. } => Action::Forward { place },
            other => other,
        }
    }
}

/// Makes the action on a valid table, or refuses and changes nothing.
pub fn step(table: &mut Table, pool: &mut [Message], action: Action) -> Result<(), Refusal> {
    step_via(table, pool, action).map(|_| ())
}

/// As `step`. A done step that routed a Lookup or a JoinRequest to another node says where that hop came from.
pub fn step_via(table: &mut Table, pool: &mut [Message], action: Action) -> Result<Option<Via>, Refusal> {
    step_as(Right, table, pool, action)
}

#[inline]
pub fn step_as<R: Reading>(
    r: R,
    table: &mut Table,
    pool: &mut [Message],
    action: Action,
) -> Result<Option<Via>, Refusal> {
    let pool = lent_mut(pool)?;
    let mut index = Index::new();
    check(r, table, pool, &mut index)?;
    let mut change = Change::none();
    let planned = Scene { view: View::new(r, table), pool, index: &index }.plan(action, &mut change);
    let full = table.count == Table::MESSAGES && change.taken.is_none();
    let early = full && planned.is_err_and(|why| why != Refusal::OutOfRange);
    refuse_if(r.takes(Slip::FullPoolFirst) && early, Refusal::PoolFull)?;
    planned?;
    refuse_if(!change.fits(r, table.count), Refusal::PoolFull)?;
    change.carry_out(r, table, pool);
    Ok(change.via)
}

impl<R: Reading> Scene<'_, R> {
    #[inline]
    fn plan(&self, action: Action, change: &mut Change) -> Result<(), Refusal> {
        match action {
            Action::Lookup { at, key } => {
                change.at(self, self.slot(at)?);
                self.lookup(change, self.key(key)?)
            }
            Action::Join { node, seed } => {
                change.at(self, self.slot(node)?);
                self.join(change, self.partner(seed, change.node.status == Status::Dead)?)
            }
            Action::RequestLease { node } => {
                change.at(self, self.slot(node)?);
                self.request_lease(change)
            }
            Action::LeaseExpired { node, partner } => {
                change.at(self, self.slot(node)?);
                self.lease_expired(change, self.partner(partner, change.node.status.is_member())?)
            }
            Action::GrantExpired { node, partner } => {
                change.at(self, self.slot(node)?);
                self.grant_expired(change, self.partner(partner, change.node.status.is_member())?)
            }
            Action::Take { place } => self.take(change, self.place(place)?),
            Action::Deliver { place } => self.deliver(change, self.place(place)?),
            Action::Forward { place } => self.forward(change, self.place(place)?),
            Action::NodeLeft { node } => {
                change.at(self, self.slot(node)?);
                self.node_left(change)
            }
            Action::SuspectFaulty { node, partner } => {
                change.at(self, self.slot(node)?);
                self.suspect_faulty(change, self.partner(partner, change.node.status.is_member())?)
            }
            Action::ProbeTimeOut { node, partner } => {
                change.at(self, self.slot(node)?);
                self.probe_time_out(change, self.partner(partner, change.node.status != Status::Dead)?)
            }
            Action::DeclareDead { node, partner } => {
                change.at(self, self.slot(node)?);
                self.declare_dead(change, self.partner(partner, change.node.status.is_member())?)
            }
            Action::LsRepair { node } => {
                change.at(self, self.slot(node)?);
                self.ls_repair(change)
            }
            Action::ResignNode { node, seed } => {
                change.at(self, self.slot(node)?);
                self.resign_node(change, self.partner(seed, change.node.status == Status::Wait)?)
            }
            Action::Recover { node } => {
                change.at(self, self.slot(node)?);
                self.recover(change)
            }
        }
    }

    #[inline]
    fn slot(&self, slot: usize) -> Result<usize, Refusal> {
        let (r, n) = (self.view.r, self.view.table.n);
        let slot = r.pick(Slip::SlotCut, slot & 0xff, r.pick(Slip::SlotWraps, slot % n, slot));
        refuse_if(slot >= n, Refusal::OutOfRange)?;
        Ok(slot)
    }

    /// The slot of a seed or partner, for a node whose status allows the action or not.
    #[inline]
    fn partner(&self, slot: usize, allowed: bool) -> Result<usize, Refusal> {
        let (r, out) = (self.view.r, slot >= self.view.table.n);
        refuse_if(r.takes(Slip::TwoBeforeOne) && out && !allowed, Refusal::Status)?;
        refuse_if(r.takes(Slip::PartnerOutIsFive) && out, Refusal::Partner)?;
        self.slot(slot)
    }

    #[inline]
    fn key(&self, key: u64) -> Result<u32, Refusal> {
        let key = self.view.r.pick(Slip::KeyCut, key & u64::from(u32::MAX), key);
        let out = key > u64::from(self.view.ring.top()) && !self.view.r.takes(Slip::KeyWraps);
        refuse_if(out, Refusal::OutOfRange)?;
        Ok(self.view.ring.wrap(key))
    }

    #[inline]
    fn place(&self, place: usize) -> Result<usize, Refusal> {
        let place = place.wrapping_sub(self.view.r.pick(Slip::PlacesFromOne, 1, 0));
        let place = self.view.r.pick(Slip::PlaceCut, place & u32::MAX as usize, place);
        refuse_if(place >= self.view.table.count, Refusal::OutOfRange)?;
        Ok(place)
    }
}
