//! What a done step changes. It is planned first and carried out only when nothing refuses it.

use crate::hop::Via;
use crate::index::Index;
use crate::message::{Message, Pool};
use crate::reading::Reading;
use crate::slip::Slip;
use crate::slips;
use crate::table::{Node, Table};
use crate::view::View;

/// A valid table with its messages, looked at to plan a step.
pub(crate) struct Scene<'a, R> {
    pub view: View<'a, R>,
    pub pool: &'a Pool,
    pub index: &'a Index,
}

impl<R: Reading> Scene<'_, R> {
    pub fn waiting(&self) -> &[Message] {
        &self.pool[..self.view.table.count]
    }
}

/// One node's new content, the messages that go and those that are added.
pub(crate) struct Change {
    pub slot: usize,
    pub node: Node,
    pub taken: Option<usize>,
    /// The node whose waiting LSProbes from this one go.
    pub lost: Option<usize>,
    /// Where the hop came from, if the step routes to another node.
    pub via: Option<Via>,
    /// The number that a misreading gives the waiting message that is met, by its place.
    met: Option<(usize, u32)>,
    added: [Message; Change::MOST],
    len: usize,
    fresh: usize,
    sent: usize,
}

impl Change {
    /// A probe is answered by one reply and at most 4L probes. What a misreading sends beyond is dropped.
    const MOST: usize = 2 + 4 * 8;

    #[inline]
    pub fn none() -> Change {
        Change {
            slot: 0,
            node: Node::BLANK,
            taken: None,
            lost: None,
            via: None,
            met: None,
            added: [Message::Blank; Change::MOST],
            len: 0,
            fresh: 0,
            sent: 0,
        }
    }

    /// The change will be at `slot`, which is listed.
    #[inline]
    pub fn at<R: Reading>(&mut self, scene: &Scene<R>, slot: usize) {
        self.slot = slot;
        self.node = scene.view.table.nodes[slot];
    }

    /// Sends a message on for `key` to a hop, and notes where that came from.
    #[inline]
    pub fn send_on<R: Reading>(&mut self, scene: &Scene<R>, key: u32, hop: usize, message: Message) {
        let (r, waiting) = (scene.view.r, self.fresh);
        self.send(scene, message);
        let silent = r.takes(Slip::ViaLostAtEqual) && self.fresh == waiting
            || r.takes(Slip::ViaNotOfJoins) && matches!(message, Message::JoinRequest { .. });
        self.via = if silent { None } else { Some(scene.view.via(self.slot, key, hop)) };
    }

    /// Adds the message unless an equal one waits, which stays as it is.
    #[inline]
    pub fn send<R: Reading>(&mut self, scene: &Scene<R>, message: Message) {
        let r = scene.view.r;
        self.sent += 1;
        let waits = scene.index.find(scene.pool, &message);
        let mut fresh = waits.is_none() || r.takes(Slip::EqualKept);
        self.met =
            waits.and_then(|place| slips::met(r, &scene.pool[place], &message).map(|hops| (place, hops)));
        if let Some(equal) = slips::held_equal(r, scene.waiting(), &message) {
            fresh = !equal;
        }
        self.fresh += usize::from(fresh);
        if (fresh || r.takes(Slip::EqualMovesToEnd)) && self.len < Change::MOST {
            self.added[self.len] = message;
            self.len += 1;
        }
    }

    /// Whether the pool after the step holds at most 256.
    #[inline]
    pub fn fits<R: Reading>(&self, r: R, count: usize) -> bool {
        let stay = count - usize::from(self.taken.is_some() && !r.takes(Slip::SixBeforeRemoval));
        let more = r.pick(Slip::SixCountsEqual, self.sent, self.fresh);
        if r.takes(Slip::SixDropsRest) {
            return true;
        }
        stay + more <= Table::MESSAGES - r.pick(Slip::SixAt255, 1, 0)
    }

    /// Closes up the messages that stay when LSProbes go; the answer is how many do.
    #[inline]
    fn drop_lost<R: Reading>(&self, r: R, pool: &mut Pool, count: usize) -> usize {
        let Some(j) = self.lost else {
            return count;
        };
        let mut stayed = 0;
        for place in 0..count {
            if slips::goes(r, &pool[place], self.slot, j)
                && !(r.takes(Slip::TimeOutTakesOne) && stayed < place)
            {
                continue;
            }
            pool[stayed] = pool[place];
            stayed += 1;
        }
        stayed
    }

    /// Changes the node, removes the message taken, then adds, and blanks the places past the count.
    #[inline]
    pub fn carry_out<R: Reading>(&self, r: R, table: &mut Table, pool: &mut Pool) {
        table.nodes[self.slot] = self.node;
        let mut count = table.count;
        if let Some((place, hops)) = self.met {
            pool[place] = pool[place].with_hops(hops);
        }
        let taken = self.taken.filter(|_| !r.takes(Slip::TakenStays));
        if let Some(place) = taken {
            if r.takes(Slip::RemovalSwaps) {
                pool[place] = pool[count - 1];
            } else {
                pool.copy_within(place + 1..count, place);
            }
            count -= 1;
        }
        count = self.drop_lost(r, pool, count);
        let stayed = count;
        for message in &self.added[..self.len] {
            if !r.is_right() && count == Table::MESSAGES {
                break;
            }
            if r.takes(Slip::EqualMovesToEnd) {
                if let Some(place) = pool[..count].iter().position(|other| other.equals(message)) {
                    pool.copy_within(place + 1..count, place);
                    count -= 1;
                }
            }
            pool[count] = *message;
            count += 1;
        }
        if r.takes(Slip::AddAtFront) {
            pool[..count].rotate_right(count - stayed);
        }
        if let (true, Some(place)) = (r.takes(Slip::AddedAtGap), taken) {
            pool[place..count].rotate_right(count - stayed);
        }
        pool[count..].fill(Message::Blank);
        table.count = count;
    }
}
