//! Messages that build leaf sets: kinds 3, 4 and 5.

use crate::change::{Change, Scene};
use crate::marks::{below, bit, has, slots};
use crate::message::Message;
use crate::reading::Reading;
use crate::refusal::{refuse_if, Refusal};
use crate::slip::Slip;
use crate::table::{Node, Sides, Status};
use crate::view::View;

/// What node i makes of a probe or its reply: F, S and P.
struct Heard {
    failed: u64,
    sides: Sides,
    probes: u64,
}

impl<R: Reading> Scene<'_, R> {
    #[inline]
    pub(super) fn take_join_reply(
        &self,
        change: &mut Change,
        owner: usize,
        routing: u64,
        told: Sides,
    ) -> Result<(), Refusal> {
        let (view, r, i) = (&self.view, self.view.r, change.slot);
        let node = change.node;
        self.reply_fits(&node)?;
        let content = told.content(owner) & !r.pick(Slip::ReplyWithoutOwner, bit(owner), 0);
        let added = content & !r.pick(Slip::ReplyAddsWithoutFailed, node.failed, 0);
        let added = r.pick(Slip::ReplyAddsOwnerOnly, bit(owner), added);
        let sides = r.pick(Slip::ReplyCopiesSides, told, view.add(i, node.sides, added));
        let asked = r.pick(Slip::ReplyProbesAllTold, content, sides.content(i));
        let asked = asked | r.pick(Slip::ReplyProbesRouting, routing, 0);
        let probing = r.pick(Slip::ReplyProbesOwnerOnly, bit(owner), asked) & !bit(i);
        change.node.routing = r.pick(Slip::ReplyRoutingReplaced, 0, node.routing)
            | r.pick(Slip::ReplyRoutingLost, 0, routing)
            | r.pick(Slip::ReplyContentLost, 0, content);
        change.node.sides = sides;
        change.node.probing = probing;
        change.node.failed = r.pick(Slip::ReplyKeepsFailed, node.failed, 0);
        change.node.status = r.pick(Slip::ReplyToOk, Status::Ok, node.status);
        let sent = r.pick(Slip::ReplyProbesOldSet, node.sides, sides);
        self.send_probes(change, probing, sent, r.pick(Slip::ReplyProbesOldFailed, node.failed, 0));
        Ok(())
    }

    /// A JoinReply is for a node that is not dead, with an empty leaf set and empty probing.
    fn reply_fits(&self, node: &Node) -> Result<(), Refusal> {
        let r = self.view.r;
        let known = !self.view.is_empty(node.sides) && !r.takes(Slip::ReplyAnyLeafSet);
        let busy = node.probing != 0 && !r.takes(Slip::ReplyWhileProbing);
        let dead = node.status == Status::Dead;
        refuse_if(known && r.takes(Slip::ReplyFourBeforeTwo), Refusal::LeafSet)?;
        refuse_if(busy && r.takes(Slip::ReplyFiveBeforeTwo), Refusal::Partner)?;
        refuse_if(dead || r.takes(Slip::ReplyOnlyWait) && node.status != Status::Wait, Refusal::Status)?;
        refuse_if(busy && r.takes(Slip::ReplyFiveBeforeFour), Refusal::Partner)?;
        refuse_if(known, Refusal::LeafSet)?;
        refuse_if(busy, Refusal::Partner)
    }

    /// An LSProbe from i to each of `probes`, in rising slot order.
    #[inline]
    pub(crate) fn send_probes(&self, change: &mut Change, probes: u64, sides: Sides, failed: u64) {
        let node = change.slot as u8;
        let probe = |to: usize| Message::LsProbe { to: to as u8, node, sides, failed };
        if self.view.r.takes(Slip::ProbesFalling) {
            let mut order: Vec<usize> = slots(probes).collect();
            order.reverse();
            order.into_iter().for_each(|to| change.send(self, probe(to)));
            return;
        }
        if self.view.r.takes(Slip::ProbesFromOwner) {
            let above = probes & !below(change.slot);
            slots(above).chain(slots(probes & !above)).for_each(|to| change.send(self, probe(to)));
            return;
        }
        for to in slots(probes) {
            change.send(self, probe(to));
        }
    }

    #[inline]
    pub(super) fn take_probe(
        &self,
        change: &mut Change,
        j: usize,
        told: Sides,
        lost: u64,
    ) -> Result<(), Refusal> {
        let (r, i, node) = (self.view.r, change.slot, change.node);
        self.needs_leaf_set(&node, j == i && !r.takes(Slip::ProbeFromItself))?;
        let heard = self.view.hear(i, j, told, lost);
        let probing = r.pick(Slip::ProbingReplaced, 0, node.probing) | heard.gained(r);
        self.keep(change, j, told, &heard, probing);
        let sides = r.pick(Slip::ReplyCarriesOldSet, node.sides, heard.sides);
        let failed = r.pick(Slip::ReplyCarriesOldFailed, node.failed, heard.failed);
        let failed = r.pick(Slip::ReplyCarriesNoFailed, 0, failed);
        let reply = Message::LsProbeReply { to: j as u8, node: i as u8, sides, failed };
        let answers = !r.takes(Slip::NoReply);
        if answers && !r.takes(Slip::ReplyAfterProbes) {
            change.send(self, reply);
        }
        self.send_heard(change, &node, &heard, r.pick(Slip::NoProbeToSender, bit(j), 0));
        if answers && r.takes(Slip::ReplyAfterProbes) {
            change.send(self, reply);
        }
        if r.takes(Slip::ProbeMakesOk) {
            self.settle(change, &node, &heard);
        }
        Ok(())
    }

    /// An LSProbe to each of P, but for `spared`.
    #[inline]
    fn send_heard(&self, change: &mut Change, node: &Node, heard: &Heard, spared: u64) {
        let r = self.view.r;
        let to = r.pick(Slip::ProbesToAllProbing, change.node.probing, heard.probes & !spared);
        let sides = r.pick(Slip::ProbesCarryOldSet, node.sides, heard.sides);
        let failed = r.pick(Slip::ProbesCarryOldFailed, node.failed, heard.failed);
        self.send_probes(change, to, sides, r.pick(Slip::ProbesCarryNoFailed, 0, failed));
    }

    #[inline]
    pub(super) fn take_probe_reply(
        &self,
        change: &mut Change,
        j: usize,
        told: Sides,
        lost: u64,
    ) -> Result<(), Refusal> {
        let (view, r, i, node) = (&self.view, self.view.r, change.slot, change.node);
        let asked = has(node.probing, j) || r.takes(Slip::ReplyFromAnyone);
        let lost_touch = r.takes(Slip::ReplyNotFromFailed) && has(node.failed, j);
        self.needs_leaf_set(&node, j == i || !asked || lost_touch)?;
        let heard = view.hear(i, j, told, lost);
        let gone = r.pick(Slip::ProbingLosesF, heard.failed, node.failed);
        let gone = r.pick(Slip::ProbingKeepsFailed, 0, gone) | r.pick(Slip::ProbingKeepsSender, 0, bit(j));
        let gone = gone | r.pick(Slip::ProbingLosesTold, lost, 0);
        let probing = (r.pick(Slip::ProbingReplaced, 0, node.probing) | heard.gained(r)) & !gone;
        self.keep(change, j, told, &heard, probing);
        if r.takes(Slip::ReplyAnswered) {
            let Heard { sides, failed, .. } = heard;
            change.send(self, Message::LsProbeReply { to: j as u8, node: i as u8, sides, failed });
        }
        self.send_heard(change, &node, &heard, 0);
        if r.takes(Slip::FailedEmptiedAtEnd) && probing == 0 && view.is_complete(heard.sides) {
            change.node.failed = 0;
        }
        self.settle(change, &node, &heard);
        Ok(())
    }

    /// Makes a waiting node ok that has nothing left to probe and whose leaf set overlaps or is complete.
    #[inline]
    fn settle(&self, change: &mut Change, node: &Node, heard: &Heard) {
        let r = self.view.r;
        let left = change.node.probing & !r.pick(Slip::OkJudgesOldProbing, heard.probes, 0);
        let waits = node.status == Status::Wait || r.takes(Slip::OkFromAnyStatus);
        let asks = left != 0 && !r.takes(Slip::OkWhileProbing);
        let fears = heard.failed != 0 && r.takes(Slip::OkNeedsNoFailed);
        let sides = r.pick(Slip::OkJudgesOldSet, node.sides, heard.sides);
        if waits && !asks && !fears && self.whole(sides) {
            change.node.status = r.pick(Slip::OkIsReady, Status::Ready, Status::Ok);
        }
    }

    /// Overlaps or is complete.
    fn whole(&self, sides: Sides) -> bool {
        let r = self.view.r;
        if r.takes(Slip::OkOnlyFull) {
            return sides.is_full(self.view.table.l);
        }
        let complete = self.view.is_complete(sides) && !r.takes(Slip::OkOnlyOverlap);
        self.view.overlap(sides) || complete || r.takes(Slip::OkAlways)
    }

    /// A probe is for a node that is not dead, and not wait with an empty leaf set; its sender may be wrong.
    fn needs_leaf_set(&self, node: &Node, wrong: bool) -> Result<(), Refusal> {
        let r = self.view.r;
        let (dead, wait) = (node.status == Status::Dead, node.status == Status::Wait);
        let bound = wait || r.takes(Slip::ProbeFourAnyStatus);
        let empty = self.view.is_empty(node.sides) && !r.takes(Slip::ProbeFourNever);
        refuse_if(r.takes(Slip::ProbeFiveBeforeTwo) && wrong, Refusal::Partner)?;
        refuse_if(r.takes(Slip::ProbeFourBeforeTwo) && dead && empty, Refusal::LeafSet)?;
        refuse_if(dead || wait && r.takes(Slip::ProbeNotAtWait), Refusal::Status)?;
        refuse_if(r.takes(Slip::ProbeFiveBeforeFour) && wrong, Refusal::Partner)?;
        refuse_if(bound && empty, Refusal::LeafSet)?;
        refuse_if(wrong, Refusal::Partner)
    }

    /// What a probe and its reply both leave in the node.
    fn keep(&self, change: &mut Change, j: usize, told: Sides, heard: &Heard, probing: u64) {
        let r = self.view.r;
        let node = &mut change.node;
        node.failed = r.pick(Slip::SenderStaysFailed, node.failed, heard.failed);
        node.sides = heard.sides;
        if r.takes(Slip::P2AtOnce) {
            let news = told.content(j) & !heard.failed;
            node.sides = self.view.add(change.slot, heard.sides, news);
        }
        node.routing |= r.pick(Slip::RoutingGainsNothing, 0, bit(j));
        node.routing |= r.pick(Slip::RoutingGainsContent, told.content(j), 0);
        node.routing |= r.pick(Slip::RoutingGainsProbes, heard.probes, 0);
        node.probing = probing;
    }
}

impl Heard {
    /// What probing gains.
    #[inline]
    fn gained<R: Reading>(&self, r: R) -> u64 {
        r.pick(Slip::ProbingGainsNothing, 0, self.probes)
    }
}

impl<R: Reading> View<'_, R> {
    /// F, S and P for node i when j tells its leaf set and the nodes it lost.
    #[inline]
    fn hear(&self, i: usize, j: usize, told: Sides, lost: u64) -> Heard {
        let r = self.r;
        let node = &self.table.nodes[i];
        let failed = node.failed & !bit(j);
        let sides = self.with_sender(i, j);
        let known = sides.content(i);
        let suspects = self.suspects(i, known, told.content(j), lost);
        let fresh =
            self.fresh(i, sides, told.content(j), r.pick(Slip::OldFailedLeftOut, node.failed, failed), lost);
        let busy = r.pick(Slip::ProbedAgain, 0, node.probing) | r.pick(Slip::FailedProbed, 0, failed);
        let spared = r.pick(Slip::ProbesItself, 0, bit(i)) | r.pick(Slip::SenderNotProbed, bit(j), 0);
        let probes = (suspects | fresh) & !(busy | spared);
        let failed = failed | r.pick(Slip::FailedGainsTold, lost & !bit(i), 0);
        let failed = failed | r.pick(Slip::FailedGainsSuspects, suspects & !bit(i), 0);
        Heard { failed, sides, probes }
    }

    /// S: the leaf set of i, with j added unless in it.
    #[inline]
    fn with_sender(&self, i: usize, j: usize) -> Sides {
        let r = self.r;
        let node = &self.table.nodes[i];
        let member = has(node.sides.content(i), j) && !r.takes(Slip::SenderAddedAgain);
        let barred =
            r.takes(Slip::SenderNotAdded) || r.takes(Slip::SenderNotAddedIfFailed) && has(node.failed, j);
        let sides = if member || barred { node.sides } else { self.add(i, node.sides, bit(j)) };
        let lost = r.pick(Slip::SetLosesFailed, node.failed & !bit(j), 0);
        Sides { left: sides.left & !lost, right: sides.right & !lost }
    }

    /// P1: the members of the content of S that are also in m's failed.
    #[inline]
    fn suspects(&self, i: usize, known: u64, told: u64, lost: u64) -> u64 {
        let r = self.r;
        let old = self.table.nodes[i].sides.content(i);
        let known = r.pick(Slip::P1AllTold, !0, r.pick(Slip::P1FromOldSet, old, known));
        r.pick(Slip::P1Empty, 0, known & r.pick(Slip::P1FromContent, told, lost))
    }

    /// P2: what S would gain by m's content without F.
    #[inline]
    fn fresh(&self, i: usize, sides: Sides, told: u64, failed: u64, lost: u64) -> u64 {
        let r = self.r;
        let old = self.table.nodes[i].sides.content(i);
        let left_out =
            r.pick(Slip::FailedLeftOutAfter, 0, failed) | r.pick(Slip::P2WithoutToldFailed, lost, 0);
        let news = told & !left_out;
        let wide = r.pick(Slip::P2AllTold, news, self.add(i, sides, news).content(i));
        let fresh = wide & !r.pick(Slip::P2MinusOldSet, old, sides.content(i));
        r.pick(Slip::P2Empty, 0, fresh)
    }
}
