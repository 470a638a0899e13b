//! Messages that are routed: kinds 1, 2 and 6. Kind 1 has a pair of actions (T-05).

use crate::change::{Change, Scene};
use crate::hop::Via;
use crate::marks::{bit, has};
use crate::message::Message;
use crate::reading::Reading;
use crate::refusal::{refuse_if, Refusal};
use crate::slip::Slip;
use crate::table::{Node, Status};

impl<R: Reading> Scene<'_, R> {
    /// A Lookup is for Deliver and Forward.
    #[inline]
    pub(super) fn take_lookup(&self, change: &mut Change, key: u32, hops: u32) -> Result<(), Refusal> {
        let r = self.view.r;
        if r.takes(Slip::TakeTwoBeforeFive) {
            self.needs_ready(change)?;
        }
        refuse_if(!r.takes(Slip::TakeOfLookup), Refusal::Partner)?;
        self.needs_ready(change)?;
        if self.covers(change.slot, key) {
            return Ok(());
        }
        self.route(change, key, hops)
    }

    /// Delivers a Lookup, where i covers its key.
    #[inline]
    pub(crate) fn deliver(&self, change: &mut Change, place: usize) -> Result<(), Refusal> {
        let r = self.view.r;
        if r.takes(Slip::DeliverOfNoRoute) && matches!(self.pool[place], Message::NoLegalRoute { .. }) {
            self.found(change, place);
            return Ok(());
        }
        let (key, hops) = self.lookup_at(change, place)?;
        let covered = self.covers(change.slot, key);
        refuse_if(!covered && r.takes(Slip::CoverBeforeStatus), Refusal::Partner)?;
        self.pair_needs_ready(change, Slip::DeliverAtOk)?;
        if !covered && r.takes(Slip::DeliverForwards) {
            return self.route(change, key, hops);
        }
        change.via = r.pick(Slip::ViaOfDelivered, Some(Via::Leaf), None);
        refuse_if(!covered && !r.takes(Slip::DeliverUncovered), Refusal::Partner)
    }

    /// Forwards a Lookup, where i does not cover its key.
    #[inline]
    pub(crate) fn forward(&self, change: &mut Change, place: usize) -> Result<(), Refusal> {
        let r = self.view.r;
        if r.takes(Slip::ForwardOfJoin) && matches!(self.pool[place], Message::JoinRequest { .. }) {
            return self.take(change, place);
        }
        let (key, hops) = self.lookup_at(change, place)?;
        let covered = self.covers(change.slot, key);
        refuse_if(covered && r.takes(Slip::CoverBeforeStatus), Refusal::Partner)?;
        self.pair_needs_ready(change, Slip::ForwardAtOk)?;
        if covered && r.takes(Slip::ForwardDelivers) {
            return Ok(());
        }
        refuse_if(covered && !r.takes(Slip::ForwardCovered), Refusal::Partner)?;
        let stuck = r.takes(Slip::ForwardNoRouteIsFive) && self.view.next_hop(change.slot, key).is_none();
        refuse_if(stuck, Refusal::Partner)?;
        self.route(change, key, hops)
    }

    /// The key and the hops of the Lookup at a place. Another kind is refused whatever the status.
    fn lookup_at(&self, change: &mut Change, place: usize) -> Result<(u32, u32), Refusal> {
        if let Message::Lookup { key, hops, .. } = *self.found(change, place) {
            return Ok((key, hops));
        }
        if self.view.r.takes(Slip::PairTwoBeforeFive) {
            self.needs_ready(change)?;
        }
        Err(Refusal::Partner)
    }

    /// Sends a Lookup on from i with one more hop, or says that there is no legal route.
    fn route(&self, change: &mut Change, key: u32, hops: u32) -> Result<(), Refusal> {
        let (r, i) = (self.view.r, change.slot);
        let Some(hop) = self.view.next_hop(i, key) else {
            return self.no_route(change, i, key, r.pick(Slip::NoRouteCarriesHops, hops, 0));
        };
        let anew = r.pick(Slip::HopsBeginAnew, 0, hops.wrapping_add(1));
        let hops = r.pick(Slip::HopsNotCounted, hops, anew);
        change.send_on(self, key, hop, Message::Lookup { to: hop as u8, key, hops });
        Ok(())
    }

    /// As `needs_ready`; the slip is that of one of the pair.
    fn pair_needs_ready(&self, change: &Change, at_ok: Slip) -> Result<(), Refusal> {
        if change.node.status == Status::Ok && self.view.r.takes(at_ok) {
            return Ok(());
        }
        self.needs_ready(change)
    }

    fn needs_ready(&self, change: &Change) -> Result<(), Refusal> {
        let r = self.view.r;
        let routes = match change.node.status {
            Status::Ready => true,
            Status::Ok => r.takes(Slip::OkRoutes) || r.takes(Slip::LiveRoutes),
            Status::Wait => r.takes(Slip::LiveRoutes),
            Status::Dead => false,
        };
        refuse_if(!routes, Refusal::Status)
    }

    /// Whether i keeps what is for `key`.
    #[inline]
    fn covers(&self, i: usize, key: u32) -> bool {
        let routes = self.view.r.takes(Slip::HopBeforeCover) && self.view.next_hop(i, key).is_some();
        self.view.covers(i, key) && !routes
    }

    fn no_route(&self, change: &mut Change, to: usize, key: u32, hops: u32) -> Result<(), Refusal> {
        refuse_if(self.view.r.takes(Slip::NoRouteIsFive), Refusal::Partner)?;
        if !self.view.r.takes(Slip::NoRouteDropped) {
            change.send(self, Message::NoLegalRoute { to: to as u8, key, hops });
        }
        change.via = self.view.r.pick(Slip::ViaOfNoRoute, Some(Via::Leaf), None);
        Ok(())
    }

    #[inline]
    pub(super) fn take_join_request(
        &self,
        change: &mut Change,
        j: usize,
        told: u64,
        hops: u32,
    ) -> Result<(), Refusal> {
        let (view, r, i) = (&self.view, self.view.r, change.slot);
        let node = change.node;
        let member = self.is_known(&node, i, j);
        refuse_if(r.takes(Slip::JoinFiveBeforeTwo) && member, Refusal::Partner)?;
        self.needs_ready(change)?;
        refuse_if(member, Refusal::Partner)?;
        let key = r.pick(Slip::JoinCoversSlot, j as u32, view.table.id(j));
        let joined = view.add(i, node.sides, bit(j));
        change.node.sides = r.pick(Slip::JoinAddsSender, joined, node.sides);
        change.node.routing |= r.pick(Slip::JoinRoutesSender, bit(j), 0);
        if self.covers(i, key) {
            let told = r.pick(Slip::ReplyRoutingEmpty, 0, told);
            let routing = told | r.pick(Slip::ReplyCarriesRouting, node.routing, 0);
            let routing = r.pick(Slip::ReplyOwnRouting, node.routing, routing);
            let sides = r.pick(Slip::ReplyWithSender, joined, node.sides);
            change.send(self, Message::JoinReply { to: j as u8, owner: i as u8, routing, sides });
            change.via = r.pick(Slip::ViaOfReply, Some(Via::Leaf), None);
            return Ok(());
        }
        let key = view.table.id(j);
        let Some(hop) = view.next_hop(i, key) else {
            let to = r.pick(Slip::NoRouteToSender, j, i);
            return self.no_route(change, to, r.pick(Slip::NoRouteNamesSlot, j as u32, key), 0);
        };
        let gained = r.pick(Slip::ForwardKeepsRouting, 0, node.routing);
        let routing = r.pick(Slip::ForwardOwnRouting, 0, told) | gained;
        let routing = routing | r.pick(Slip::ForwardGainsItself, bit(i), 0);
        let hops = r.pick(Slip::JoinsCountHops, hops.wrapping_add(1), 0);
        let (to, node) = (hop as u8, j as u8);
        change.send_on(self, key, hop, Message::JoinRequest { to, node, routing, hops });
        Ok(())
    }

    /// Whether a join request of j is refused: j is in i's content.
    #[inline]
    fn is_known(&self, node: &Node, i: usize, j: usize) -> bool {
        let r = self.view.r;
        if r.takes(Slip::JoinOnlyFromWait) && self.view.table.nodes[j].status != Status::Wait {
            return true;
        }
        let known = node.sides.content(i) & !r.pick(Slip::JoinContentWithoutI, bit(i), 0);
        let known = known | r.pick(Slip::JoinFiveForRouting, node.routing, 0);
        has(known, j) && !r.takes(Slip::JoinOfMember)
    }

    /// A NoLegalRoute never leaves.
    pub(super) fn take_no_route(&self, change: &Change) -> Result<(), Refusal> {
        let r = self.view.r;
        let dead = change.node.status == Status::Dead;
        refuse_if(r.takes(Slip::NoRouteTwoFirst) && dead, Refusal::Status)?;
        refuse_if(!r.takes(Slip::NoRouteTaken), Refusal::Partner)
    }
}
