//! Joins in turn: whether a table is safe to join, and what is said of a Join that is not in turn. The test is that of
//! crates/join_laws/specs/Safe, clause by clause, as it is read here. Of that definition it is proved that it passes exactly where
//! nobody is wait and the nine clauses hold, and what follows then (docs/CLAIMS.md, Join in turn); of this program nothing is proved.

use crate::driver::ActionWords;
use crate::print;
use crate::rules::Rules;
use crate::table::{members, Message, Names, Node, Table};

const JOIN: u64 = 2;
const PROVED: &str = "Proved is one holder for joins in turn (join_laws, docs/CLAIMS.md)";

/// What keeps a table from being safe to join, the first of each kind; nothing where it is safe.
pub fn hindrances(table: &Table) -> Vec<String> {
    let turn = Turn { rules: Rules(table), names: Names::new(table.ids()) };
    let nodes = [turn.waiting(), turn.one(), turn.members(), turn.known(), turn.trusting(), turn.joiner()];
    let mail = table.messages.iter().zip(0..).find_map(|(message, place)| turn.mail(message, place));
    nodes.into_iter().flatten().chain(mail).collect()
}

/// `safe to join`, or that it is not, and the first reason.
pub fn told(table: &Table) -> String {
    match hindrances(table).first() {
        None => "safe to join".to_string(),
        Some(first) => format!("not safe to join: {first}"),
    }
}

/// What is said of a Join that is done where the table is not safe; nothing of any other action.
pub fn warning(action: ActionWords, before: &Table) -> Option<String> {
    let first = hindrances(before).into_iter().next().filter(|_| action[0] == JOIN)?;
    let waits = before.nodes.iter().any(|node| node.status == Node::WAIT);
    let what = if waits { "this join is not in turn" } else { "the table is not safe to join" };
    Some(format!("{what}: {first}. {PROVED}; the step is done all the same"))
}

struct Turn<'a> {
    rules: Rules<'a>,
    names: Names,
}

impl Turn<'_> {
    fn name(&self, slot: u32) -> String {
        self.names.of(slot)
    }

    /// `65, which is ok`.
    fn named(&self, slot: u32) -> String {
        format!("{}, which is {}", self.name(slot), self.rules.node(slot).status_word())
    }

    fn slots(&self) -> std::ops::Range<u32> {
        0..self.rules.0.nodes.len() as u32
    }

    /// The first two slots of which something is to be said.
    fn pair(&self, says: impl Fn(u32, u32) -> Option<String>) -> Option<String> {
        self.slots().find_map(|x| self.slots().find_map(|y| says(x, y)))
    }

    fn waits(&self, slot: u32) -> bool {
        self.rules.node(slot).status == Node::WAIT
    }

    fn dead(&self, slot: u32) -> bool {
        self.rules.node(slot).status == Node::DEAD
    }

    /// Ok or ready.
    fn up(&self, slot: u32) -> bool {
        self.rules.node(slot).status >= Node::OK
    }

    fn filled(&self, slot: u32) -> bool {
        !self.rules.is_empty(slot)
    }

    fn way_up(&self, from: u32, to: u32) -> u32 {
        self.rules.fall(self.rules.id(to), self.rules.id(from))
    }

    fn way_down(&self, from: u32, to: u32) -> u32 {
        self.rules.fall(self.rules.id(from), self.rules.id(to))
    }

    /// The side of x on which nobody is as close as y; none where x guards against y.
    fn lacks(&self, x: u32, y: u32) -> Option<&'static str> {
        let node = self.rules.node(x);
        let left = members(node.left()).any(|u| self.way_up(x, u) <= self.way_up(x, y));
        let right = members(node.right()).any(|u| self.way_down(x, u) <= self.way_down(x, y));
        match (left, right) {
            (true, true) => None,
            (false, true) => Some("left side"),
            (true, false) => Some("right side"),
            (false, false) => Some("left or right side"),
        }
    }

    /// That x does not guard against y, in words.
    fn unguarded(&self, x: u32, y: u32) -> Option<String> {
        self.lacks(x, y)
            .map(|side| format!("{} has nobody on its {side} as close as {}", self.name(x), self.named(y)))
    }

    /// Nobody is wait.
    fn waiting(&self) -> Option<String> {
        let waiting = self.rules.with_status(|status| status == Node::WAIT);
        let them: Vec<String> = waiting.into_iter().map(|slot| self.name(slot)).collect();
        let verb = if them.len() == 1 { "is" } else { "are" };
        (!them.is_empty()).then(|| format!("{} {verb} wait", them.join(" and ")))
    }

    /// 1. At most one node is wait.
    fn one(&self) -> Option<String> {
        let says = |i, j| format!("{} and {} are both wait (clause 1)", self.name(i), self.name(j));
        self.pair(|i, j| (i != j && self.waits(i) && self.waits(j)).then(|| says(i, j)))
    }

    /// 2. x up, or x wait and not empty; e up, e not x: x guards against e.
    fn members(&self) -> Option<String> {
        let takes_part = |x| self.up(x) || self.waits(x) && self.filled(x);
        let says = |x, e| self.unguarded(x, e).map(|what| format!("{what} (clause 2)"));
        self.pair(|x, e| if takes_part(x) && self.up(e) && e != x { says(x, e) } else { None })
    }

    /// 3. x not dead, y in a side of x: y is not dead, and x guards against y.
    fn known(&self) -> Option<String> {
        let beside = |x, y: u32| (self.rules.node(x).left() | self.rules.node(x).right()) >> y & 1 == 1;
        let says = |x, y| {
            let dead =
                self.dead(y).then(|| format!("the leaf set of {} holds {}", self.name(x), self.named(y)));
            dead.or_else(|| self.unguarded(x, y)).map(|what| format!("{what} (clause 3)"))
        };
        self.pair(|x, y| if !self.dead(x) && beside(x, y) { says(x, y) } else { None })
    }

    /// 4. Every node's failed is empty.
    fn trusting(&self) -> Option<String> {
        let failed = |i| self.rules.node(i).failed();
        let says = |i| format!("{} holds {} for failed (clause 4)", self.name(i), self.names.all(failed(i)));
        self.slots().find(|i| failed(*i) != 0).map(says)
    }

    /// 4. i wait and not empty, e up: e is in probing of i, or e guards against i.
    fn joiner(&self) -> Option<String> {
        let unprobed = |i, e: u32| self.rules.node(i).probing() >> e & 1 == 0;
        let says = |i, e| self.unguarded(e, i).map(|what| format!("{what} and does not probe it (clause 4)"));
        let asked = |i, e| self.waits(i) && self.filled(i) && self.up(e) && unprobed(i, e);
        self.pair(|i, e| if asked(i, e) { says(i, e) } else { None })
    }

    /// 5 to 9, of a message.
    fn mail(&self, message: &Message, place: u32) -> Option<String> {
        let (at, from) = (message.at, message.word);
        let what = match message.kind {
            Message::JOIN_REQUEST => self.outside(from).map(|what| (5, what)),
            Message::JOIN_REPLY => {
                let blank = self.waits(at) && !self.filled(at);
                let strange = || if blank { self.strange(message) } else { None };
                self.outside(at).or_else(strange).map(|what| (6, what))
            }
            Message::PROBE => self.gone(from).map(|what| (7, what)),
            Message::PROBE_REPLY => {
                self.gone(from).or_else(|| self.unguarded(from, at)).map(|what| (8, what))
            }
            Message::BROADCAST => {
                let dead = members(carried(message)).find(|y| self.dead(*y));
                dead.map(|y| (9, format!("it names {}", self.named(y))))
            }
            _ => None,
        };
        let (clause, what) = what?;
        let message = print::message(message, &self.names);
        Some(format!("{message} (place {place}) waits, and {what} (clause {clause})"))
    }

    /// A node that is neither wait nor has a leaf set.
    fn outside(&self, slot: u32) -> Option<String> {
        let joins = self.waits(slot) || self.filled(slot);
        (!joins).then(|| format!("{} is not joining", self.name(slot)))
    }

    fn gone(&self, slot: u32) -> Option<String> {
        self.dead(slot).then(|| format!("{} is dead", self.name(slot)))
    }

    /// A JoinReply that names a node which is not up, or nobody as close to its destination as one that is up.
    fn strange(&self, reply: &Message) -> Option<String> {
        let (at, all) = (reply.at, carried(reply));
        if let Some(y) = members(all).find(|y| !self.up(*y)) {
            return Some(format!("it names {}", self.named(y)));
        }
        let above = |e| members(all).any(|u| self.way_up(at, u) <= self.way_up(at, e));
        let below = |e| members(all).any(|u| self.way_down(at, u) <= self.way_down(at, e));
        let missed = self.slots().find(|e| self.up(*e) && !(above(*e) && below(*e)));
        missed.map(|e| format!("it names nobody as close to {} as {}", self.name(at), self.named(e)))
    }
}

/// The content that a message carries: its sides and its owner.
fn carried(message: &Message) -> u64 {
    message.sets[1] | message.sets[2] | 1 << message.owner
}

#[cfg(test)]
mod tests {
    use super::*;
    use crate::parse::{self, Text};

    fn said(text: &str) -> Vec<String> {
        match parse::text(text) {
            Ok(Text::Table(table)) => hindrances(&table),
            other => panic!("no table but {other:?}"),
        }
    }

    const TWO: &str = "ring M=8 L=1\nnode 17 ready left 65 right 65\nnode 65 ready left 17 right 17\n";

    #[test]
    fn a_ring_that_is_whole_is_safe() {
        assert_eq!(said(TWO), [""; 0]);
        assert_eq!(said("ring M=8 L=1\nnode 17 ready\nnode 65 dead\n"), [""; 0]);
    }

    #[test]
    fn each_clause_is_told() {
        let stranger = "node 95 ready left 17 right 65\n";
        let both = "node 95 wait\nnode 120 wait\n";
        let behind = "node 95 wait left 17 right 65\n";
        let dead = "node 95 dead\nLSProbe from 95 at 17\n";
        let cases = [
            (format!("{TWO}node 95 wait\n"), "95 is wait"),
            (format!("{TWO}{both}"), "95 and 120 are both wait (clause 1)"),
            (format!("{TWO}{stranger}"), "17 has nobody on its right side as close as 95, which is ready (clause 2)"),
            ("ring M=8 L=1\nnode 17 ready left 65 right 65\nnode 65 dead\n".to_string(),
             "the leaf set of 17 holds 65, which is dead (clause 3)"),
            (TWO.replace("node 65 ready", "  failed 65\nnode 65 ready"), "17 holds 65 for failed (clause 4)"),
            (format!("{TWO}{behind}"), "17 has nobody on its right side as close as 95, which is wait and does not probe it (clause 4)"),
            (format!("{TWO}node 95 dead\nJoinRequest from 95 at 17\n"),
             "JoinRequest from 95 at 17 (place 0) waits, and 95 is not joining (clause 5)"),
            (format!("{TWO}node 95 wait\nnode 120 dead\nJoinReply owner 120 at 95\n"),
             "JoinReply owner 120 at 95 (place 0) waits, and it names 120, which is dead (clause 6)"),
            (format!("{TWO}node 95 wait\nJoinReply owner 65 at 95\n"),
             "JoinReply owner 65 at 95 (place 0) waits, and it names nobody as close to 95 as 17, which is ready (clause 6)"),
            (format!("{TWO}{dead}"), "LSProbe from 95 at 17 (place 0) waits, and 95 is dead (clause 7)"),
            (format!("{TWO}node 95 wait left 17 right 65\nLSProbeReply from 17 at 95\n"),
             "LSProbeReply from 17 at 95 (place 0) waits, and 17 has nobody on its right side as close as 95, which is wait (clause 8)"),
            (format!("{TWO}node 95 dead\nBroadcastLSet owner 17 at 65 left 95\n"),
             "BroadcastLSet owner 17 at 65 left 95 (place 0) waits, and it names 95, which is dead (clause 9)"),
        ];
        for (text, wanted) in cases {
            let said = said(&text);
            assert!(said.iter().any(|line| line == wanted), "{wanted}\nis not said of\n{text}but {said:?}");
        }
    }

    #[test]
    fn a_join_alone_is_warned_of() {
        let Ok(Text::Table(table)) = parse::text(&format!("{TWO}node 95 wait\nnode 120 dead\n")) else {
            panic!()
        };
        assert!(warning([JOIN, 3, 0], &table)
            .is_some_and(|said| said.starts_with("this join is not in turn: 95 is wait. ")));
        assert_eq!(warning([1, 0, 3], &table), None);
    }
}
