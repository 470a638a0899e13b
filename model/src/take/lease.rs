//! Messages about leases: kinds 7 and 8.

use crate::change::{Change, Scene};
use crate::marks::{bit, has};
use crate::message::Message;
use crate::reading::Reading;
use crate::refusal::{refuse_if, Refusal};
use crate::slip::Slip;
use crate::table::{Node, Sides, Status};
use crate::view::Neighbours;

impl<R: Reading> Scene<'_, R> {
    #[inline]
    pub(super) fn take_lease_request(&self, change: &mut Change, j: usize) -> Result<(), Refusal> {
        let (view, r, i) = (&self.view, self.view.r, change.slot);
        let sides = change.node.sides;
        let empty = view.is_empty(sides) && !r.takes(Slip::RequestToEmpty);
        refuse_if(r.takes(Slip::AskedFourBeforeTwo) && empty, Refusal::LeafSet)?;
        let serves = self.serves(change.node.status, Slip::AskedAtWait, Slip::AskedAtReady);
        refuse_if(!serves, Refusal::Status)?;
        refuse_if(empty, Refusal::LeafSet)?;
        let near = self.grants(&change.node, i, j);
        refuse_if(r.takes(Slip::StrangerIsFive) && !near, Refusal::Partner)?;
        if near && !r.takes(Slip::GrantNotKept) || r.takes(Slip::GrantToAnyone) {
            change.node.grant |= bit(j);
        } else if r.takes(Slip::GrantTakenBack) {
            change.node.grant &= !bit(j);
        }
        let granted = r.takes(Slip::FlagOfGranted) && has(change.node.grant, j);
        let grant = (near || granted || r.takes(Slip::FlagAlwaysSet)) && !r.takes(Slip::FlagNeverSet);
        let sides = r.pick(Slip::BroadcastWithSender, view.add(i, sides, bit(j)), sides);
        change.send(self, Message::BroadcastLSet { to: j as u8, owner: i as u8, sides, grant });
        Ok(())
    }

    /// Whether j is left or right neighbour of i.
    #[inline]
    fn grants(&self, node: &Node, i: usize, j: usize) -> bool {
        let r = self.view.r;
        let near = self.view.neighbours(i, node.sides);
        if r.takes(Slip::GrantToMembers) {
            return has(node.sides.content(i), j);
        }
        let barred = r.takes(Slip::GrantLeftOnly) && near.0 != j
            || r.takes(Slip::GrantNotToItself) && i == j
            || r.takes(Slip::GrantNotToFailed) && has(node.failed, j);
        near.include(j) && !barred || r.takes(Slip::AnyoneIsGranted)
    }

    #[inline]
    pub(super) fn take_broadcast(
        &self,
        change: &mut Change,
        j: usize,
        told: Sides,
        grant: bool,
    ) -> Result<(), Refusal> {
        let (view, r, i) = (&self.view, self.view.r, change.slot);
        let node = change.node;
        let sides = self.with_news(&node, i, j, told);
        self.broadcast_fits(change, j, r.pick(Slip::CompleteAfterAdding, sides, node.sides))?;
        let (old, new) = (view.neighbours(i, node.sides), view.neighbours(i, sides));
        change.node.sides = sides;
        change.node.routing |= r.pick(Slip::BroadcastGainsRouting, told.content(j), 0);
        change.node.failed &= !r.pick(Slip::BroadcastClearsFailed, bit(j), 0);
        let near = r.pick(Slip::LeaseFromOldNeighbour, old, new).include(j) || r.takes(Slip::LeaseFromAnyone);
        let barred = r.takes(Slip::LeaseLeftOnly) && new.0 != j;
        if (grant || r.takes(Slip::LeaseWithoutFlag)) && near && !barred {
            change.node.lease = r.pick(Slip::LeaseReplaced, 0, node.lease) | bit(j);
        } else if r.takes(Slip::LeaseLostWithoutFlag) && !grant {
            change.node.lease &= !bit(j);
        }
        let lease = r.pick(Slip::ReadyBeforeGain, node.lease, change.node.lease);
        let unfit = r.takes(Slip::ReadyOnlyWithFlag) && !grant
            || r.takes(Slip::ReadyOnlyByNeighbour) && !new.include(j);
        if self.holds(old, new, lease) && self.stays(old, new) && !unfit {
            change.node.status = Status::Ready;
        } else if r.takes(Slip::BroadcastDemotes) {
            change.node.status = Status::Ok;
        }
        Ok(())
    }

    /// The leaf set of i with m's content without failed.
    #[inline]
    fn with_news(&self, node: &Node, i: usize, j: usize, told: Sides) -> Sides {
        let r = self.view.r;
        let told = told.content(j) & !r.pick(Slip::BroadcastWithoutOwner, bit(j), 0);
        let told = r.pick(Slip::BroadcastAddsOwnerOnly, bit(j), told);
        let news = told & !r.pick(Slip::BroadcastAddsFailed, 0, node.failed);
        self.view.add(i, node.sides, r.pick(Slip::BroadcastAddsNothing, 0, news))
    }

    /// A BroadcastLSet is for a node that is ok or ready, with a complete leaf set, from another.
    fn broadcast_fits(&self, change: &Change, j: usize, judged: Sides) -> Result<(), Refusal> {
        let r = self.view.r;
        let own = j == change.slot && !r.takes(Slip::BroadcastFromItself);
        let part = match r.takes(Slip::BroadcastFourIfEmpty) {
            true => self.view.is_empty(judged),
            false => !self.view.is_complete(judged) && !r.takes(Slip::BroadcastFourNever),
        };
        refuse_if(part && r.takes(Slip::BroadcastFourBeforeTwo), Refusal::LeafSet)?;
        refuse_if(own && r.takes(Slip::BroadcastFiveBeforeTwo), Refusal::Partner)?;
        let status = change.node.status;
        let taken = status.is_member() || status == Status::Wait && r.takes(Slip::BroadcastAtWait);
        refuse_if(!taken, Refusal::Status)?;
        refuse_if(own && r.takes(Slip::BroadcastFiveBeforeFour), Refusal::Partner)?;
        refuse_if(part, Refusal::LeafSet)?;
        refuse_if(own, Refusal::Partner)
    }

    /// Whether both new neighbours are in lease.
    #[inline]
    fn holds(&self, old: Neighbours, new: Neighbours, lease: u64) -> bool {
        let r = self.view.r;
        let wanted = r.pick(Slip::ReadyByOldNeighbours, old, new).marks();
        let lacking = wanted & !lease;
        lacking == 0
            || r.takes(Slip::ReadyWithOneLease) && lacking != wanted
            || r.takes(Slip::ReadyWithoutLeases)
    }

    /// Whether the new neighbours equal the old ones.
    #[inline]
    fn stays(&self, old: Neighbours, new: Neighbours) -> bool {
        let r = self.view.r;
        new == old
            || r.takes(Slip::ReadyWhenChanged)
            || r.takes(Slip::ReadyByOldNeighbours)
            || r.takes(Slip::ReadyWhenSwapped) && new.marks() == old.marks()
            || r.takes(Slip::ReadyWhenLeftSame) && new.0 == old.0
    }
}
