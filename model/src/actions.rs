//! The actions other than Take. The change stands at node i.

use crate::change::{Change, Scene};
use crate::marks::{bit, has, slots};
use crate::message::Message;
use crate::reading::Reading;
use crate::refusal::{refuse_if, Refusal};
use crate::slip::Slip;
use crate::table::{Node, Status};
use crate::view::Neighbours;

impl<R: Reading> Scene<'_, R> {
    #[inline]
    pub fn lookup(&self, change: &mut Change, key: u32) -> Result<(), Refusal> {
        let r = self.view.r;
        let hops = r.pick(Slip::HopsFromOne, 1, 0);
        let message = Message::Lookup { to: change.slot as u8, key, hops };
        let ready = change.node.status == Status::Ready;
        let dead = change.node.status == Status::Dead;
        refuse_if(r.takes(Slip::LookupNeedsReady) && !ready, Refusal::Status)?;
        refuse_if(r.takes(Slip::LookupNotAtDead) && dead, Refusal::Status)?;
        let mut waits = self.index.find(self.pool, &message).is_some();
        if r.takes(Slip::LookupSeesHops) {
            waits = self.waiting().contains(&message);
        }
        if r.takes(Slip::LookupWaitsAnywhere) {
            waits = self.waiting().iter().any(|m| matches!(m, Message::Lookup { key: k, .. } if *k == key));
        }
        refuse_if(waits && !r.takes(Slip::LookupAgainDone), Refusal::Waits)?;
        if r.takes(Slip::LookupCoveredDone) && self.view.covers(change.slot, key) {
            return Ok(());
        }
        change.send(self, message);
        Ok(())
    }

    #[inline]
    pub fn join(&self, change: &mut Change, seed: usize) -> Result<(), Refusal> {
        let (r, i, node) = (self.view.r, change.slot, change.node);
        let seed_serves = match self.view.table.nodes[seed].status {
            Status::Ready => true,
            Status::Ok => r.takes(Slip::JoinSeedOk) || r.takes(Slip::JoinSeedLive),
            Status::Wait => r.takes(Slip::JoinSeedLive),
            Status::Dead => false,
        };
        let joins = node.status == Status::Dead || r.takes(Slip::JoinFromWait) && node.status == Status::Wait;
        let allowed = joins && seed_serves;
        let waits = || self.waiting().iter().any(|message| self.is_request_of(message, i, seed));
        let full = !self.view.is_empty(node.sides);
        refuse_if(r.takes(Slip::JoinThreeBeforeTwo) && waits(), Refusal::Waits)?;
        refuse_if(r.takes(Slip::JoinFourBeforeTwo) && full, Refusal::LeafSet)?;
        refuse_if(!allowed, Refusal::Status)?;
        refuse_if(r.takes(Slip::JoinFourBeforeThree) && full, Refusal::LeafSet)?;
        refuse_if(waits(), Refusal::Waits)?;
        refuse_if(full && !r.takes(Slip::JoinAnyLeafSet), Refusal::LeafSet)?;
        refuse_if(i == seed && r.takes(Slip::JoinOfItselfIsFive), Refusal::Partner)?;
        let waiting = r.pick(Slip::JoinToOk, Status::Ok, Status::Wait);
        change.node.status = r.pick(Slip::JoinStaysDead, Status::Dead, waiting);
        if r.takes(Slip::JoinResetsRouting) {
            change.node.routing = bit(i);
        }
        if r.takes(Slip::JoinEmptiesSets) {
            change.node = Node { probing: 0, failed: 0, lease: 0, grant: 0, ..change.node };
        }
        let itself = r.pick(Slip::JoinCarriesItself, bit(i), 0);
        let routing = r.pick(Slip::JoinCarriesRouting, node.routing, itself);
        change.send(self, Message::JoinRequest { to: seed as u8, node: i as u8, routing, hops: 0 });
        Ok(())
    }

    /// A JoinRequest of i, wherever it waits.
    #[inline]
    fn is_request_of(&self, message: &Message, i: usize, seed: usize) -> bool {
        let r = self.view.r;
        let Message::JoinRequest { to, node, routing, .. } = *message else {
            return false;
        };
        let (same, there) = (usize::from(node) == i, usize::from(to) == seed);
        if r.takes(Slip::JoinWaitsEqual) {
            return same && there && routing == 0;
        }
        if r.takes(Slip::JoinWaitsOfAnyone) {
            return there;
        }
        same && (there || !r.takes(Slip::JoinWaitsAtSeed))
    }

    #[inline]
    pub fn request_lease(&self, change: &mut Change) -> Result<(), Refusal> {
        let (view, r, i, node) = (&self.view, self.view.r, change.slot, change.node);
        let allowed = match node.status {
            Status::Ok => true,
            Status::Ready => r.takes(Slip::RequestWhenReady),
            Status::Wait => r.takes(Slip::RequestWhenWait),
            Status::Dead => false,
        };
        let empty = view.is_empty(node.sides);
        refuse_if(r.takes(Slip::RequestFourBeforeTwo) && empty, Refusal::LeafSet)?;
        refuse_if(!allowed, Refusal::Status)?;
        refuse_if(empty, Refusal::LeafSet)?;
        let Neighbours(left, right) = view.neighbours(i, node.sides);
        let (first, second) = r.pick(Slip::RequestRightFirst, (right, left), (left, right));
        let leases = r.pick(Slip::RequestUnlessGranted, node.grant, node.lease);
        let lacks = |to: usize| {
            let held = has(leases, to) && !r.takes(Slip::RequestAlways);
            let spared = r.takes(Slip::RequestNotItself) && to == i
                || r.takes(Slip::RequestLeftOnly) && to != left
                || r.takes(Slip::RequestRightOnly) && to != right;
            !held && !spared
        };
        let message = |to: usize| Message::LeaseRequest { to: to as u8, node: i as u8 };
        let waits = |to: usize| lacks(to) && self.index.find(self.pool, &message(to)).is_some();
        let again = r.takes(Slip::RequestAgainIsThree) && (waits(left) || waits(right));
        refuse_if(again, Refusal::Waits)?;
        if lacks(first) {
            change.send(self, message(first));
        }
        if second != first && lacks(second) {
            change.send(self, message(second));
        }
        if r.takes(Slip::RequestToLeaves) {
            let others = node.sides.content(i) & !(bit(i) | bit(first) | bit(second));
            slots(others).filter(|&to| lacks(to)).for_each(|to| change.send(self, message(to)));
        }
        Ok(())
    }

    #[inline]
    pub fn lease_expired(&self, change: &mut Change, j: usize) -> Result<(), Refusal> {
        let (view, r, i, node) = (&self.view, self.view.r, change.slot, change.node);
        let own = i == j && !r.takes(Slip::LeaseOfOwnExpires);
        let stranger = own || !has(node.lease, j) && !r.takes(Slip::LeaseAbsentExpires);
        refuse_if(r.takes(Slip::LeaseFiveBeforeTwo) && stranger, Refusal::Partner)?;
        let serves = self.serves(node.status, Slip::LeaseExpiresAtWait, Slip::LeaseExpiresAtReady);
        refuse_if(!serves, Refusal::Status)?;
        refuse_if(stranger, Refusal::Partner)?;
        let near = view.neighbours(i, node.sides);
        let demotes = near.include(j) && !(r.takes(Slip::LeftExpiryDemotes) && near.0 != j)
            || r.takes(Slip::AnyExpiryDemotes)
            || r.takes(Slip::MemberExpiryDemotes) && has(node.sides.content(i), j);
        change.node.lease &= !r.pick(Slip::LeaseStays, 0, bit(j));
        change.node.grant &= !r.pick(Slip::LeaseTakesGrant, bit(j), 0);
        if node.status == Status::Ready && demotes && !r.takes(Slip::ExpiryKeepsReady) {
            change.node.status = r.pick(Slip::ExpiryToWait, Status::Wait, Status::Ok);
        }
        Ok(())
    }

    #[inline]
    pub fn grant_expired(&self, change: &mut Change, j: usize) -> Result<(), Refusal> {
        let (r, i, node) = (self.view.r, change.slot, change.node);
        let own = i == j && !r.takes(Slip::GrantOfOwnExpires);
        let absent = !has(node.grant, j) && !r.takes(Slip::GrantAbsentExpires);
        let stranger = own || absent || self.still_held(&node, i, j);
        refuse_if(r.takes(Slip::GrantFiveBeforeTwo) && stranger, Refusal::Partner)?;
        let serves = self.serves(node.status, Slip::GrantExpiresAtWait, Slip::GrantExpiresAtReady);
        refuse_if(!serves, Refusal::Status)?;
        refuse_if(stranger, Refusal::Partner)?;
        change.node.grant &= !r.pick(Slip::GrantStays, 0, bit(j));
        change.node.lease &= !r.pick(Slip::GrantTakesLease, bit(j), 0);
        let near = self.view.neighbours(i, node.sides).include(j);
        if r.takes(Slip::GrantDemotes) && node.status == Status::Ready && near {
            change.node.status = Status::Ok;
        }
        Ok(())
    }

    /// Whether i is in lease of j.
    #[inline]
    fn still_held(&self, node: &Node, i: usize, j: usize) -> bool {
        let r = self.view.r;
        let partner = &self.view.table.nodes[j];
        let dead = partner.status == Status::Dead;
        if r.takes(Slip::GrantIgnoresLease) || r.takes(Slip::GrantSparesDead) && dead {
            return false;
        }
        if r.takes(Slip::GrantLooksAtOwnLease) {
            return has(node.lease, j);
        }
        has(partner.lease, i) || r.takes(Slip::GrantOfDeadIsFive) && dead
    }

    /// Ok or ready. Two slips are those of the action or kind.
    #[inline]
    pub fn serves(&self, status: Status, at_wait: Slip, at_ready: Slip) -> bool {
        match status {
            Status::Dead => false,
            Status::Wait => self.view.r.takes(at_wait),
            Status::Ok => !self.view.r.takes(at_ready),
            Status::Ready => true,
        }
    }
}
