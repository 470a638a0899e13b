//! The start.

use crate::marks::{below, bit, has};
use crate::message::{Message, EMPTY_POOL};
use crate::reading::{Reading, Right};
use crate::refusal::{refuse_if, Refusal};
use crate::ring::Ring;
use crate::slip::Slip;
use crate::slips;
use crate::table::{Node, Sides, Status, Table};
use crate::valid::{in_limits, lent_mut};
use crate::view::View;

/// Starts the nodes of `ready` as ready and the others as dead, or refuses and changes nothing.
pub fn start(
    m: u64,
    l: u64,
    ids: &[u32],
    ready: u64,
    table: &mut Table,
    pool: &mut [Message],
) -> Result<(), Refusal> {
    start_as(Right, m, l, ids, ready, table, pool)
}

pub fn start_as<R: Reading>(
    r: R,
    m: u64,
    l: u64,
    ids: &[u32],
    ready: u64,
    table: &mut Table,
    pool: &mut [Message],
) -> Result<(), Refusal> {
    let pool = lent_mut(pool)?;
    let (m, l) = r.pick(Slip::StartLimitsExchanged, (l, m), (m, l));
    let narrow =
        |number: u64| u32::try_from(number).unwrap_or(r.pick(Slip::StartNumbersCut, number as u32, 0));
    let (bits, most) = (narrow(m), narrow(l));
    let counts = in_limits(r, bits, most, ids.len());
    let sorted = slips::sorted(r, ids);
    let ids = sorted.as_deref().unwrap_or(ids);
    let apart = r.pick(Slip::StartIdsRepeat, 0, 1);
    let rising = ids.windows(2).all(|pair| u64::from(pair[0]) + apart <= u64::from(pair[1]));
    if r.takes(Slip::StartTenBeforeEight) {
        refuse_if(!rising || ready == 0, Refusal::Invalid)?;
    }
    refuse_if(!counts, Refusal::Header)?;
    let ring = Ring::read(r, bits);
    let fits = ids.last().is_some_and(|&id| id <= ring.top()) || r.takes(Slip::StartIdsFree);
    let listed = below(ids.len());
    let known = ready & !listed == 0 || r.takes(Slip::StartMarksDropped);
    let some = ready & listed != 0 || r.takes(Slip::StartNoneReady);
    refuse_if(!rising || !fits || !known || !some, Refusal::Invalid)?;
    *table = filled(r, bits, most, ids, ready & listed);
    *pool = EMPTY_POOL;
    Ok(())
}

fn filled<R: Reading>(r: R, m: u32, l: u32, ids: &[u32], ready: u64) -> Table {
    let mut table = Table { m, l, n: ids.len(), ..Table::BLANK };
    for (node, &id) in table.nodes.iter_mut().zip(ids) {
        node.id = id;
    }
    let listed = table;
    let view = View::new(r, &listed);
    for slot in 0..table.n {
        let leaves = view.add(slot, Sides::EMPTY, r.pick(Slip::StartAllLeaves, below(table.n), ready));
        let node = table.nodes[slot];
        table.nodes[slot] = if has(ready, slot) {
            member(&view, slot, node, leaves, ready)
        } else {
            other(r, slot, node, leaves, ready)
        };
    }
    table
}

/// A member of A.
fn member<R: Reading>(view: &View<R>, slot: usize, node: Node, sides: Sides, ready: u64) -> Node {
    let r = view.r;
    let near = view.neighbours(slot, sides).marks();
    let own = r.pick(Slip::StartLeaseNotOwn, bit(slot), 0);
    let leases = r.pick(Slip::StartWithoutLeases, 0, ready) & !own;
    let leases = r.pick(Slip::StartLeasesOfNeighbours, near, leases);
    let listed = r.pick(Slip::StartRoutingAll, below(view.table.n), ready);
    Node {
        status: r.pick(Slip::StartOk, Status::Ok, Status::Ready),
        sides,
        routing: listed & !r.pick(Slip::StartRoutingNotOwn, bit(slot), 0),
        lease: r.pick(Slip::StartWithoutLease, 0, leases),
        grant: r.pick(Slip::StartWithoutGrant, 0, leases),
        ..node
    }
}

/// A node that is not in A.
fn other<R: Reading>(r: R, slot: usize, node: Node, leaves: Sides, ready: u64) -> Node {
    let own = r.pick(Slip::StartDeadRouteNothing, 0, bit(slot));
    let lease = r.pick(Slip::StartDeadLease, bit(slot), 0);
    Node {
        status: r.pick(Slip::StartOthersWait, Status::Wait, Status::Dead),
        sides: r.pick(Slip::StartDeadKnow, leaves, Sides::EMPTY),
        routing: r.pick(Slip::StartDeadRouteReady, ready, own),
        lease,
        grant: lease,
        ..node
    }
}
