//! Take, by kind of message, and the pair for Lookups. The change stands at the destination i.

mod lease;
mod probe;
mod route;

use crate::change::{Change, Scene};
use crate::message::Message;
use crate::reading::Reading;
use crate::refusal::Refusal;

impl<R: Reading> Scene<'_, R> {
    /// Handles the message of a place that is in range.
    #[inline]
    pub(crate) fn take(&self, change: &mut Change, place: usize) -> Result<(), Refusal> {
        match *self.found(change, place) {
            Message::Lookup { key, hops, .. } => self.take_lookup(change, key, hops),
            Message::JoinRequest { node, routing, hops, .. } => {
                self.take_join_request(change, node.into(), routing, hops)
            }
            Message::JoinReply { owner, routing, sides, .. } => {
                self.take_join_reply(change, owner.into(), routing, sides)
            }
            Message::LsProbe { node, sides, failed, .. } => {
                self.take_probe(change, node.into(), sides, failed)
            }
            Message::LsProbeReply { node, sides, failed, .. } => {
                self.take_probe_reply(change, node.into(), sides, failed)
            }
            Message::LeaseRequest { node, .. } => self.take_lease_request(change, node.into()),
            Message::BroadcastLSet { owner, sides, grant, .. } => {
                self.take_broadcast(change, owner.into(), sides, grant)
            }
            Message::NoLegalRoute { .. } | Message::Blank => self.take_no_route(change),
        }
    }

    /// The message of a place, which goes if the step is done.
    #[inline]
    fn found(&self, change: &mut Change, place: usize) -> &Message {
        let message = &self.pool[place];
        change.at(self, message.to());
        change.taken = Some(place);
        message
    }
}
