//! What waits for a node (T-06), by a walk of all the places.

use crate::index::Index;
use crate::message::Message;
use crate::reading::{Reading, Right};
use crate::refusal::{refuse_if, Refusal};
use crate::slip::Slip;
use crate::table::{Status, Table};
use crate::valid::{check, lent};

/// The place of the first message for the node of a slot, if one waits for it. 10 for an invalid table, 1 for a
/// slot that is not listed.
pub fn first_waiting(table: &Table, pool: &[Message], slot: u64) -> Result<Option<usize>, Refusal> {
    first_waiting_as(Right, table, pool, slot)
}

pub fn first_waiting_as<R: Reading>(
    r: R,
    table: &Table,
    pool: &[Message],
    slot: u64,
) -> Result<Option<usize>, Refusal> {
    check(r, table, lent(pool)?, &mut Index::new())?;
    let slot = r.pick(Slip::PolledSlotCut, slot % (1 << 32), slot);
    let slots = table.n + r.pick(Slip::PolledSlotAtN, 1, 0);
    let slots = r.pick(Slip::PolledSlotTo64, Table::NODES, slots) as u64;
    refuse_if(slot >= slots, Refusal::OutOfRange)?;
    let looked_at = r.pick(Slip::BlankPlacesWait, Table::MESSAGES, table.count);
    let mut found = None;
    for (place, message) in pool[..looked_at].iter().enumerate() {
        if is_for(r, table, message, slot) && (found.is_none() || r.takes(Slip::LastForFirst)) {
            found = Some(place + r.pick(Slip::FirstFromOne, 1, 0));
        }
    }
    refuse_if(found.is_none() && r.takes(Slip::NoneIsRefused), Refusal::OutOfRange)?;
    Ok(found)
}

/// Whether the message waits for the node of the slot.
fn is_for<R: Reading>(r: R, table: &Table, message: &Message, slot: u64) -> bool {
    let fields = message.fields();
    let to = r.pick(Slip::NamedForDestination, fields.node_or_key, fields.to);
    let lookup = matches!(message, Message::Lookup { .. });
    let is = |status: Status| table.nodes.get(slot as usize).is_some_and(|node| node.status == status);
    let other = !lookup && r.takes(Slip::OnlyLookupsWait)
        || is(Status::Dead) && r.takes(Slip::NoneForDead)
        || !is(Status::Ready) && r.takes(Slip::NoneUnlessReady);
    u64::from(to) == slot && !other
}
