//! Whether a table is settled.

use crate::index::Index;
use crate::marks::{bit, first_down, first_up, slots};
use crate::message::Message;
use crate::reading::{Reading, Right};
use crate::refusal::Refusal;
use crate::slip::Slip;
use crate::slips;
use crate::table::{Status, Table};
use crate::valid::{check, lent};
use crate::view::{Neighbours, View};

/// Whether a valid table is settled.
pub fn settled(table: &Table, pool: &[Message]) -> Result<bool, Refusal> {
    settled_as(Right, table, pool)
}

pub fn settled_as<R: Reading>(r: R, table: &Table, pool: &[Message]) -> Result<bool, Refusal> {
    check(r, table, lent(pool)?, &mut Index::new())?;
    let ready = table.marks(|node| node.status == Status::Ready);
    let between = table.marks(|node| match node.status {
        Status::Wait => !r.takes(Slip::SettledWithWait),
        Status::Ok => !r.takes(Slip::SettledWithOk),
        _ => false,
    });
    let some = ready != 0 || r.takes(Slip::SettledWhenAllDead);
    let view = View::new(r, table);
    let calm = slots(ready).all(|slot| stands(&view, slot, ready))
        || r.takes(Slip::SettledByOne) && slots(ready).any(|slot| stands(&view, slot, ready));
    Ok(some && between == 0 && calm && !slips::unsettles(&view, ready))
}

/// The neighbours of a ready node are the next ready ids up and down, and it holds no ready node as failed.
fn stands<R: Reading>(view: &View<R>, slot: usize, ready: u64) -> bool {
    let r = view.r;
    let node = &view.table.nodes[slot];
    let ring = r.pick(Slip::SettledAmongListed, view.table.marks(|_| true), ready) & !bit(slot);
    let next = match ring {
        0 => Neighbours(slot, slot),
        others => Neighbours(first_up(others, slot), first_down(others, slot)),
    };
    let have = view.neighbours(slot, node.sides);
    let near = (have.0 == next.0 || r.takes(Slip::SettledRightOnly))
        && (have.1 == next.1 || r.takes(Slip::SettledLeftOnly))
        || r.takes(Slip::SettledAnyNeighbours)
        || r.takes(Slip::SettledAloneAnyhow) && ready == bit(slot);
    let feared = r.pick(Slip::SettledFailedEmpty, !0, r.pick(Slip::SettledFailedFree, 0, ready));
    near && node.failed & feared == 0
}
