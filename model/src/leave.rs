//! The actions of nodes that go away, and the repairs after them (T-03). The change stands at node i.

use crate::change::{Change, Scene};
use crate::marks::{bit, has};
use crate::message::Message;
use crate::reading::Reading;
use crate::refusal::{refuse_if, Refusal};
use crate::slip::Slip;
use crate::table::{Node, Sides, Status};

impl<R: Reading> Scene<'_, R> {
    #[inline]
    pub fn node_left(&self, change: &mut Change) -> Result<(), Refusal> {
        let (r, node) = (self.view.r, change.node);
        let ready = self.view.table.marks(|other| other.status == Status::Ready);
        let few = ready.count_ones() <= self.view.table.l + 1;
        let stays = node.status == Status::Dead
            || r.takes(Slip::LeftOnlyReady) && node.status != Status::Ready
            || r.takes(Slip::LeftOnlyFromMany) && few;
        refuse_if(stays, Refusal::Status)?;
        let (lease, grant) = r.pick(Slip::LeftKeepsLeases, (node.lease, node.grant), (0, 0));
        change.node = Node {
            id: node.id,
            status: r.pick(Slip::LeftWaits, Status::Wait, Status::Dead),
            sides: r.pick(Slip::LeftKeepsLeaves, node.sides, Sides::EMPTY),
            routing: r.pick(Slip::LeftRoutesItself, bit(change.slot), 0),
            failed: r.pick(Slip::LeftKeepsFailed, node.failed, 0),
            lease,
            grant,
            ..Node::BLANK
        };
        Ok(())
    }

    #[inline]
    pub fn suspect_faulty(&self, change: &mut Change, j: usize) -> Result<(), Refusal> {
        let (r, i, node) = (self.view.r, change.slot, change.node);
        let known = has(node.sides.content(i), j) || r.takes(Slip::SuspectOfAnyone);
        let wrong = j == i
            || !known
            || has(node.probing, j) && !r.takes(Slip::SuspectOfProbed)
            || has(node.failed, j) && !r.takes(Slip::SuspectOfFailed)
            || r.takes(Slip::SuspectOnlyDead) && self.view.table.nodes[j].status != Status::Dead;
        refuse_if(r.takes(Slip::SuspectFiveBeforeTwo) && wrong, Refusal::Partner)?;
        let serves = self.serves(node.status, Slip::SuspectAtWait, Slip::SuspectOnlyReady);
        refuse_if(!serves, Refusal::Status)?;
        refuse_if(wrong, Refusal::Partner)?;
        change.node.probing |= r.pick(Slip::SuspectNotProbed, 0, bit(j));
        change.node.failed |= r.pick(Slip::SuspectIsFailed, bit(j), 0);
        if !r.takes(Slip::SuspectInSilence) {
            self.send_probes(change, bit(j), node.sides, r.pick(Slip::SuspectTellsNothing, 0, node.failed));
        }
        Ok(())
    }

    #[inline]
    pub fn probe_time_out(&self, change: &mut Change, j: usize) -> Result<(), Refusal> {
        let (r, i, node) = (self.view.r, change.slot, change.node);
        let partner = &self.view.table.nodes[j];
        let lost =
            partner.status == Status::Dead || partner.status == Status::Wait && partner.sides.is_empty();
        let wrong = j == i
            || !has(node.probing, j) && !r.takes(Slip::TimeOutOfAnyone)
            || r.takes(Slip::TimeOutOnlyDead) && !lost;
        refuse_if(r.takes(Slip::TimeOutFiveBeforeTwo) && wrong, Refusal::Partner)?;
        let barred = r.takes(Slip::TimeOutNotAtWait) && node.status == Status::Wait;
        refuse_if(node.status == Status::Dead || barred, Refusal::Status)?;
        refuse_if(wrong, Refusal::Partner)?;
        change.node.probing &= !r.pick(Slip::TimeOutStaysProbed, 0, bit(j));
        change.node.lease &= !r.pick(Slip::TimeOutKeepsLease, 0, bit(j));
        change.node.grant &= !r.pick(Slip::TimeOutTakesGrant, bit(j), 0);
        change.node.failed |= r.pick(Slip::TimeOutNotFailed, 0, bit(j));
        change.lost = Some(j);
        let held = r.pick(Slip::TimeOutLooksAtLease, node.lease, node.grant);
        let member = has(node.sides.left | node.sides.right, j);
        if member && (!has(held, j) || r.takes(Slip::TimeOutDespiteGrant)) {
            change.node.sides = node.sides.without(bit(j));
            change.node.status = r.pick(Slip::TimeOutStatusStays, node.status, Status::Wait);
        } else if r.takes(Slip::TimeOutAlwaysWaits) {
            change.node.status = Status::Wait;
        }
        Ok(())
    }

    #[inline]
    pub fn declare_dead(&self, change: &mut Change, j: usize) -> Result<(), Refusal> {
        let (r, i, node) = (self.view.r, change.slot, change.node);
        let near = self.view.neighbours(i, node.sides);
        let bound = near.include(j) && !(r.takes(Slip::DeclareLeftOnly) && near.0 != j)
            || r.takes(Slip::DeclareNoneGranted);
        let wrong = !has(node.failed, j) && !r.takes(Slip::DeclareUnfailed)
            || !has(node.sides.content(i), j) && !r.takes(Slip::DeclareStranger)
            || bound && has(node.grant, j) && !r.takes(Slip::DeclareDespiteGrant);
        refuse_if(r.takes(Slip::DeclareFiveBeforeTwo) && wrong, Refusal::Partner)?;
        let serves = self.serves(node.status, Slip::DeclareAtWait, Slip::DeclareOnlyReady);
        refuse_if(!serves, Refusal::Status)?;
        refuse_if(wrong, Refusal::Partner)?;
        change.node.sides = node.sides.without(bit(j));
        if r.takes(Slip::DeclareOneSide) {
            change.node.sides = Sides { left: node.sides.left & !bit(j), ..node.sides };
        }
        change.node.status = r.pick(Slip::DeclareStatusStays, node.status, Status::Wait);
        change.node.failed &= !r.pick(Slip::DeclareTakesFailed, bit(j), 0);
        change.node.lease &= !r.pick(Slip::DeclareTakesLease, bit(j), 0);
        change.node.grant &= !r.pick(Slip::DeclareTakesGrant, bit(j), 0);
        Ok(())
    }

    #[inline]
    pub fn ls_repair(&self, change: &mut Change) -> Result<(), Refusal> {
        let (view, r, i, node) = (&self.view, self.view.r, change.slot, change.node);
        let Sides { left, right } = node.sides;
        let whole = match r.takes(Slip::RepairBelowFull) {
            true => node.sides.is_full(view.table.l),
            false => view.is_complete(node.sides),
        };
        let hollow = left == 0 || right == 0;
        let unfit = hollow && !r.takes(Slip::RepairOfOneSide) || whole && !r.takes(Slip::RepairOfComplete);
        let busy = node.probing != 0 && !r.takes(Slip::RepairWhileProbing);
        let waits = node.status == Status::Wait || r.takes(Slip::RepairAtOk) && node.status == Status::Ok;
        self.repairs(waits, false, unfit, busy, [Slip::RepairFourBeforeTwo, Slip::RepairFiveBeforeFour])?;
        let (mut lm, mut rm) = (view.leftmost(i, node.sides), view.rightmost(i, node.sides));
        if r.takes(Slip::RepairNearEnds) {
            let near = view.neighbours(i, node.sides);
            (lm, rm) = (near.0, near.1);
        }
        if r.takes(Slip::RepairEndsExchanged) {
            std::mem::swap(&mut lm, &mut rm);
        }
        let short = |side: u64| side.count_ones() < view.table.l || r.takes(Slip::RepairBothEnds);
        let ends = match (short(left), short(right)) {
            (true, true) => bit(lm) | bit(rm),
            (true, false) => bit(lm),
            _ => bit(rm),
        };
        self.repair_by(change, ends, Slip::RepairTellsNothing);
        Ok(())
    }

    #[inline]
    pub fn resign_node(&self, change: &mut Change, n: usize) -> Result<(), Refusal> {
        let (view, r, i, node) = (&self.view, self.view.r, change.slot, change.node);
        let seed = view.table.nodes[n].status;
        let serves = seed == Status::Ready || r.takes(Slip::ResignToOk) && seed == Status::Ok;
        let waits = node.status == Status::Wait || r.takes(Slip::ResignAtOk) && node.status == Status::Ok;
        let both = node.sides.left != 0 && node.sides.right != 0 && !r.takes(Slip::ResignOfBothSides);
        let unfit = both || r.takes(Slip::ResignOnlyEmpty) && !node.sides.is_empty();
        let busy = node.probing != 0 && !r.takes(Slip::ResignWhileProbing);
        let answered = self.waiting().iter().any(|message| self.answers(message, i));
        refuse_if(r.takes(Slip::ResignThreeBeforeTwo) && answered, Refusal::Waits)?;
        let slips = [Slip::ResignFourBeforeThree, Slip::ResignFiveBeforeFour];
        self.repairs(waits && serves, answered, unfit, busy, slips)?;
        let (lease, grant) = r.pick(Slip::ResignKeepsLeases, (node.lease, node.grant), (0, 0));
        let routing = r.pick(Slip::ResignRoutesNothing, 0, bit(i));
        change.node = Node {
            id: node.id,
            status: r.pick(Slip::ResignDies, Status::Dead, Status::Wait),
            routing: r.pick(Slip::ResignKeepsRouting, node.routing, routing),
            failed: r.pick(Slip::ResignKeepsFailed, node.failed, 0),
            lease,
            grant,
            ..Node::BLANK
        };
        let routing = r.pick(Slip::ResignCarriesItself, bit(i), 0);
        change.send(self, Message::JoinRequest { to: n as u8, node: i as u8, routing, hops: 0 });
        Ok(())
    }

    /// Whether a JoinReply to i waits, by this message.
    fn answers(&self, message: &Message, i: usize) -> bool {
        let r = self.view.r;
        match *message {
            Message::JoinReply { to, .. } => {
                (usize::from(to) == i || r.takes(Slip::ResignThreeOfAnyone))
                    && !r.takes(Slip::ResignThreeNever)
            }
            Message::JoinRequest { node, .. } => {
                usize::from(node) == i && r.takes(Slip::ResignThreeForRequest)
            }
            _ => false,
        }
    }

    #[inline]
    pub fn recover(&self, change: &mut Change) -> Result<(), Refusal> {
        let (view, r, i, node) = (&self.view, self.view.r, change.slot, change.node);
        let Sides { left, right } = node.sides;
        let others = view.table.marks(|other| match other.status {
            Status::Ready => !r.takes(Slip::RecoverOwnStatus),
            Status::Ok => !(r.takes(Slip::RecoverOwnStatus) || r.takes(Slip::RecoverAmongOk)),
            _ => false,
        });
        let waits =
            node.status == Status::Wait || r.takes(Slip::RecoverAtDead) && node.status == Status::Dead;
        let unfit = left == 0 && right == 0 || left != 0 && right != 0 && !r.takes(Slip::RecoverOfBothSides);
        let busy = node.probing != 0 && !r.takes(Slip::RecoverWhileProbing);
        let slips = [Slip::RecoverFourBeforeTwo, Slip::RecoverFiveBeforeFour];
        self.repairs(waits && others == 0, false, unfit, busy, slips)?;
        let near = view.neighbours(i, node.sides);
        let (lm, rm) = (view.leftmost(i, node.sides), view.rightmost(i, node.sides));
        let (lm, rm) = r.pick(Slip::RecoverNearEnd, (near.0, near.1), (lm, rm));
        let end = if left == 0 { rm } else { lm };
        let ends = r.pick(Slip::RecoverProbesLeaves, left | right, bit(end));
        change.node.status = r.pick(Slip::RecoverIsOk, Status::Ok, Status::Wait);
        self.repair_by(change, ends, Slip::RecoverTellsNothing);
        Ok(())
    }

    /// The refusals of the three repairs. The slips: 4 before what comes first, and 5 before 4.
    fn repairs(
        &self,
        fits: bool,
        waits: bool,
        unfit: bool,
        busy: bool,
        slips: [Slip; 2],
    ) -> Result<(), Refusal> {
        let [four, five] = slips.map(|slip| self.view.r.takes(slip));
        let after_two = matches!(slips[0], Slip::ResignFourBeforeThree);
        refuse_if(four && unfit && !after_two, Refusal::LeafSet)?;
        refuse_if(!fits, Refusal::Status)?;
        refuse_if(four && unfit, Refusal::LeafSet)?;
        refuse_if(waits, Refusal::Waits)?;
        refuse_if(five && busy, Refusal::Partner)?;
        refuse_if(unfit, Refusal::LeafSet)?;
        refuse_if(busy, Refusal::Partner)
    }

    /// Probes these members of the leaf set.
    fn repair_by(&self, change: &mut Change, ends: u64, tells_nothing: Slip) {
        let node = change.node;
        let ends = ends & !bit(change.slot);
        change.node.probing |= ends;
        self.send_probes(change, ends, node.sides, self.view.r.pick(tells_nothing, 0, node.failed));
    }
}
