//! Why an action is refused: for each action 01's conditions in their order, as they are read here. Where the number that they
//! give is not the proved code's, no reason is given. A new action asks for a line in `rule`; without one its refusals are told
//! by their number alone.

use crate::action::{DELIVER, FORWARD};
use crate::driver::ActionWords;
use crate::print;
use crate::table::{Message, Node};
use crate::why::Why;

/// A number and why it is answered.
type Reason = Option<(u32, String)>;

impl Why<'_> {
    /// Why an action is refused with this number; empty where the rules as read here say otherwise.
    pub fn refused(&self, action: ActionWords, number: u32) -> String {
        if number == 6 {
            return format!("{} messages wait; a step leaves 256 at most", self.table().messages.len());
        }
        match self.rule(action) {
            Some((rule, reason)) if rule == number => reason,
            _ => String::new(),
        }
    }

    fn rule(&self, action: ActionWords) -> Reason {
        let [number, x, y] = action;
        match number {
            1 => self.slot(x).or_else(|| self.key(y)).or_else(|| self.lookup(x as u32, y as u32)),
            2 => self.slot(x).or_else(|| self.slot(y)).or_else(|| self.join(x as u32, y as u32)),
            3 => self.slot(x).or_else(|| self.request_lease(x as u32)),
            4 => self.slot(x).or_else(|| self.slot(y)).or_else(|| self.lease_expired(x as u32, y as u32)),
            5 => self.slot(x).or_else(|| self.slot(y)).or_else(|| self.grant_expired(x as u32, y as u32)),
            6 => self.place(x).or_else(|| self.take(&self.table().messages[x as usize])),
            DELIVER => self.place(x).or_else(|| self.deliver(x as usize)),
            FORWARD => self.place(x).or_else(|| self.forward(x as usize)),
            9 | 13 | 15 => self.slot(x).or_else(|| self.departs(number, x as u32)),
            10..=12 | 14 => {
                self.slot(x).or_else(|| self.slot(y)).or_else(|| self.parts(number, x as u32, y as u32))
            }
            _ => None,
        }
    }

    fn slot(&self, slot: u64) -> Reason {
        let count = self.table().nodes.len() as u64;
        (slot >= count).then(|| {
            (1, format!("slot {slot} is not listed; the slots are 0 to {}", count.saturating_sub(1)))
        })
    }

    fn key(&self, key: u64) -> Reason {
        let last = self.rules.last();
        (key > last.into()).then(|| (1, format!("key {key} is out of range; keys are 0 to {last}")))
    }

    fn place(&self, place: u64) -> Reason {
        let count = self.table().messages.len() as u64;
        let are = match count {
            0 => "no message waits".to_string(),
            _ => format!("the places are 0 to {}", count - 1),
        };
        (place >= count).then(|| (1, format!("no message at place {place}; {are}")))
    }

    /// 2, unless the status is one of these.
    fn asks(&self, slot: u32, wanted: &[u32], by: &str) -> Reason {
        let status = self.rules.node(slot).status;
        let words: Vec<&str> = wanted.iter().map(|status| Node::STATUSES[*status as usize]).collect();
        let reason = || {
            format!(
                "{} is {}; {by} asks for a node that is {}",
                self.name(slot),
                self.status(slot),
                words.join(" or ")
            )
        };
        (!wanted.contains(&status)).then(|| (2, reason()))
    }

    fn not_empty(&self, slot: u32, by: &str) -> Reason {
        let reason = || format!("{} has an empty leaf set; {by} asks for one that is not", self.name(slot));
        self.rules.is_empty(slot).then(|| (4, reason()))
    }

    fn lookup(&self, slot: u32, key: u32) -> Reason {
        let equal = self.found(|m| m.equals(&Message::lookup(key, slot)));
        equal.first().map(|equal| (3, format!("{equal} waits (01, Lookup)")))
    }

    fn join(&self, slot: u32, seed: u32) -> Reason {
        let asked = || self.found(|m| m.kind == Message::JOIN_REQUEST && m.word == slot);
        let asked = || asked().first().map(|asked| (3, format!("{asked} waits (01, Join)")));
        let full = || {
            let reason =
                || format!("{}: {}; Join asks for an empty one", self.name(slot), self.leaf_set(slot));
            (!self.rules.is_empty(slot)).then(|| (4, reason()))
        };
        self.asks(slot, &[Node::DEAD], "Join")
            .or_else(|| self.asks(seed, &[Node::READY], "Join's seed"))
            .or_else(asked)
            .or_else(full)
    }

    fn request_lease(&self, slot: u32) -> Reason {
        self.asks(slot, &[Node::OK], "RequestLease").or_else(|| self.not_empty(slot, "RequestLease"))
    }

    fn lease_expired(&self, slot: u32, other: u32) -> Reason {
        let by = "LeaseExpired";
        self.asks(slot, &[Node::OK, Node::READY], by).or_else(|| self.differ(slot, other, by)).or_else(|| {
            let held = self.rules.node(slot).lease() >> other & 1 == 1;
            (!held).then(|| (5, format!("{} holds no lease of {} ({by})", self.name(slot), self.name(other))))
        })
    }

    fn grant_expired(&self, slot: u32, other: u32) -> Reason {
        let by = "GrantExpired";
        let pair = (self.name(slot), self.name(other));
        let given = self.rules.node(slot).grant() >> other & 1 == 1;
        let held = self.rules.node(other).lease() >> slot & 1 == 1;
        let reason = match (given, held) {
            (false, _) => Some(format!("{} gave {} no grant ({by})", pair.0, pair.1)),
            (true, true) => {
                Some(format!("{} still holds the lease of {}; that ends first ({by})", pair.1, pair.0))
            }
            (true, false) => None,
        };
        self.asks(slot, &[Node::OK, Node::READY], by)
            .or_else(|| self.differ(slot, other, by))
            .or(reason.map(|reason| (5, reason)))
    }

    fn differ(&self, slot: u32, other: u32, by: &str) -> Reason {
        (slot == other).then(|| (5, format!("{by} asks for two nodes that differ")))
    }

    /// T-03's actions of one node.
    fn departs(&self, number: u64, slot: u32) -> Reason {
        match number {
            9 => self.alive(slot, "NodeLeft"),
            13 => self.repair(slot),
            _ => self.recover(slot),
        }
    }

    /// T-03's actions of two nodes.
    fn parts(&self, number: u64, slot: u32, other: u32) -> Reason {
        match number {
            10 => self.suspect(slot, other),
            11 => self.time_out(slot, other),
            12 => self.declare(slot, other),
            _ => self.resign(slot, other),
        }
    }

    /// 5, unless the other node is in a set of the node, or where it is in one.
    fn partner(&self, slot: u32, other: u32, set: u64, is_in: bool, says: &str) -> Reason {
        let reason = || format!("{} {says} {}", self.name(other), self.name(slot));
        ((set >> other & 1 == 1) != is_in).then(|| (5, reason()))
    }

    fn suspect(&self, slot: u32, other: u32) -> Reason {
        let (by, node) = ("SuspectFaulty", self.rules.node(slot));
        let partner = |set, is_in, says| self.partner(slot, other, set, is_in, says);
        self.asks(slot, &[Node::OK, Node::READY], by)
            .or_else(|| self.differ(slot, other, by))
            .or_else(|| partner(self.rules.content(slot), true, "is not in the leaf set of"))
            .or_else(|| partner(node.probing(), false, "is probed already by"))
            .or_else(|| partner(node.failed(), false, "is held for failed already by"))
    }

    fn time_out(&self, slot: u32, other: u32) -> Reason {
        let by = "ProbeTimeOut";
        let probing = self.rules.node(slot).probing();
        self.alive(slot, by)
            .or_else(|| self.differ(slot, other, by))
            .or_else(|| self.partner(slot, other, probing, true, "is not probed by"))
    }

    fn declare(&self, slot: u32, other: u32) -> Reason {
        let (by, node) = ("DeclareDead", self.rules.node(slot));
        let partner = |set, is_in, says| self.partner(slot, other, set, is_in, says);
        let sides = [self.rules.left_neighbour(slot), self.rules.right_neighbour(slot)];
        let granted = sides.contains(&other) && node.grant() >> other & 1 == 1;
        let (name, them) = (self.name(slot), self.name(other));
        let ends = format!(
            "{them} is a neighbour of {name} with a grant; that ends first: `grant expired {name} {them}`"
        );
        self.asks(slot, &[Node::OK, Node::READY], by)
            .or_else(|| partner(node.failed(), true, "is not held for failed by"))
            .or_else(|| partner(self.rules.content(slot), true, "is not in the leaf set of"))
            .or_else(|| granted.then_some((5, ends)))
    }

    /// 5, where the node probes somebody.
    fn idle(&self, slot: u32, by: &str) -> Reason {
        let probing = self.rules.node(slot).probing();
        let them = || format!("{} still probes {} ({by})", self.name(slot), self.names.all(probing));
        (probing != 0).then(|| (5, them()))
    }

    /// 4, with what the leaf set is.
    fn leaf(&self, slot: u32, asks: &str) -> (u32, String) {
        (4, format!("{}: {}; {asks}", self.name(slot), self.leaf_set(slot)))
    }

    /// How many sides of the leaf set have members.
    fn sides(&self, slot: u32) -> usize {
        let node = self.rules.node(slot);
        [node.left(), node.right()].iter().filter(|side| **side != 0).count()
    }

    fn repair(&self, slot: u32) -> Reason {
        let asks = "LSRepair asks for one that is not complete, with members on both sides";
        let short = self.sides(slot) == 2 && !self.rules.complete(slot);
        self.asks(slot, &[Node::WAIT], "LSRepair")
            .or_else(|| (!short).then(|| self.leaf(slot, asks)))
            .or_else(|| self.idle(slot, "LSRepair"))
    }

    fn resign(&self, slot: u32, seed: u32) -> Reason {
        let by = "ResignNode";
        let replied = self.found(|m| m.kind == Message::JOIN_REPLY && m.at == slot);
        self.asks(slot, &[Node::WAIT], by)
            .or_else(|| self.asks(seed, &[Node::READY], "ResignNode's seed"))
            .or_else(|| replied.first().map(|reply| (3, format!("{reply} waits ({by})"))))
            .or_else(|| (self.sides(slot) == 2).then(|| self.leaf(slot, "ResignNode asks for an empty side")))
            .or_else(|| self.idle(slot, by))
    }

    fn recover(&self, slot: u32) -> Reason {
        let by = "Recover";
        let up = self.rules.with_status(|status| status == Node::OK || status == Node::READY);
        let asks = "Recover asks for one side with members, and one without";
        let others = |up: &u32| {
            format!("{} is {}; Recover asks that no node is ok or ready", self.name(*up), self.status(*up))
        };
        self.asks(slot, &[Node::WAIT], by)
            .or_else(|| up.first().map(|up| (2, others(up))))
            .or_else(|| (self.sides(slot) != 1).then(|| self.leaf(slot, asks)))
            .or_else(|| self.idle(slot, by))
    }

    pub fn take(&self, message: &Message) -> Reason {
        let (at, from) = (message.at, message.word);
        let own = |from: u32| (from == at).then(|| (5, format!("it comes from {} itself", self.name(at))));
        match message.kind {
            Message::LOOKUP => Some((5, "a Lookup is delivered or sent on, never taken (T-05)".to_string())),
            Message::JOIN_REQUEST => {
                self.asks(at, &[Node::READY], "a JoinRequest (01, Take 2)").or_else(|| self.known(at, from))
            }
            Message::JOIN_REPLY => self.take_reply(at),
            Message::PROBE => {
                self.alive(at, "an LSProbe (01, Take 4)").or_else(|| self.probed(at)).or_else(|| own(from))
            }
            Message::PROBE_REPLY => {
                let heard = || self.heard(at, from);
                self.alive(at, "an LSProbeReply (01, Take 5)")
                    .or_else(|| self.probed(at))
                    .or_else(|| own(from))
                    .or_else(heard)
            }
            Message::NO_LEGAL_ROUTE => Some((5, "a NoLegalRoute is never taken (01, Take 6)".to_string())),
            Message::LEASE_REQUEST => {
                let by = "a LeaseRequest (01, Take 7)";
                self.asks(at, &[Node::OK, Node::READY], by).or_else(|| self.not_empty(at, by))
            }
            _ => self.take_broadcast(at, message.owner),
        }
    }

    /// 5 on another kind, then 2 unless ready.
    fn is_lookup(&self, message: &Message, by: &str) -> Reason {
        let other = || format!("{} is no Lookup ({by})", print::message(message, &self.names));
        let other = (message.kind != Message::LOOKUP).then(|| (5, other()));
        other.or_else(|| self.asks(message.at, &[Node::READY], by))
    }

    fn deliver(&self, place: usize) -> Reason {
        let message = &self.table().messages[place];
        self.is_lookup(message, "Deliver, T-05").or_else(|| {
            let (at, key, rules) = (message.at, message.word, &self.rules);
            let covers = format!("{} to {}", rules.right_cover(at), rules.left_cover(at));
            let reason = || format!("{} covers {covers}, not {key}: `forward {place}`", self.name(at));
            (!rules.covers(at, key)).then(|| (5, reason()))
        })
    }

    fn forward(&self, place: usize) -> Reason {
        let message = &self.table().messages[place];
        self.is_lookup(message, "Forward, T-05").or_else(|| {
            let (at, key) = (message.at, message.word);
            let reason = || format!("{} covers {key}: `deliver {place}`", self.name(at));
            self.rules.covers(at, key).then(|| (5, reason()))
        })
    }

    fn alive(&self, slot: u32, by: &str) -> Reason {
        self.asks(slot, &[Node::WAIT, Node::OK, Node::READY], by)
    }

    fn known(&self, slot: u32, from: u32) -> Reason {
        let known = self.rules.content(slot) >> from & 1 == 1;
        known.then(|| {
            (5, format!("{} is in the leaf set of {} (01, Take 2)", self.name(from), self.name(slot)))
        })
    }

    fn probed(&self, slot: u32) -> Reason {
        let waits = self.rules.node(slot).status == Node::WAIT && self.rules.is_empty(slot);
        waits.then(|| (4, format!("{} waits with an empty leaf set (01, Take 4)", self.name(slot))))
    }

    fn heard(&self, slot: u32, from: u32) -> Reason {
        let probed = self.rules.node(slot).probing() >> from & 1 == 1;
        (!probed).then(|| (5, format!("{} does not probe {} (01, Take 5)", self.name(slot), self.name(from))))
    }

    fn take_reply(&self, at: u32) -> Reason {
        let full = || {
            format!(
                "{}: {}; a JoinReply asks for an empty one (01, Take 3)",
                self.name(at),
                self.leaf_set(at)
            )
        };
        let probes = || format!("{} probes already (01, Take 3)", self.name(at));
        self.alive(at, "a JoinReply (01, Take 3)")
            .or_else(|| (!self.rules.is_empty(at)).then(|| (4, full())))
            .or_else(|| (self.rules.node(at).probing() != 0).then(|| (5, probes())))
    }

    fn take_broadcast(&self, at: u32, owner: u32) -> Reason {
        let by = "a BroadcastLSet (01, Take 8)";
        let short = || {
            let (name, status, leaf_set) = (self.name(at), self.status(at), self.leaf_set(at));
            format!("{name} is {status}: {leaf_set}; {by} asks for a complete one")
        };
        self.asks(at, &[Node::OK, Node::READY], by)
            .or_else(|| (!self.rules.complete(at)).then(|| (4, short())))
            .or_else(|| (owner == at).then(|| (5, format!("it is {}'s own (01, Take 8)", self.name(at)))))
    }
}

#[cfg(test)]
mod tests {
    use super::*;
    use crate::action;
    use crate::parse::{self, Text};
    use crate::words::lines;

    /// Refusals of T-03 as the change request has them: an action on a table, the number, a part of the reason.
    const DEPARTURES: &[(&str, u32, &str)] = &[
        ("node left 40", 2, "40 is dead"),
        ("suspect faulty 20 5", 2, "20 is wait"),
        ("suspect faulty 5 5", 5, "two nodes that differ"),
        ("suspect faulty 5 40", 5, "40 is not in the leaf set of 5"),
        ("suspect faulty 5 20", 5, "20 is probed already by 5"),
        ("suspect faulty 5 30", 5, "30 is held for failed already by 5"),
        ("probe time out 40 5", 2, "40 is dead"),
        ("probe time out 5 10", 5, "10 is not probed by 5"),
        ("declare dead 20 5", 2, "20 is wait"),
        ("declare dead 5 10", 5, "10 is not held for failed by 5"),
        ("declare dead 5 40", 5, "40 is not in the leaf set of 5"),
        ("declare dead 5 30", 5, "that ends first: `grant expired 5 30`"),
        ("ls repair 5", 2, "5 is ready"),
        ("ls repair 30", 4, "members on both sides"),
        ("ls repair 20", 5, "20 still probes 10"),
        ("resign node 20 at 40", 2, "40 is dead"),
        ("resign node 10 at 5", 3, "JoinReply owner 5 at 10 (place 0) waits"),
        ("resign node 20 at 5", 4, "asks for an empty side"),
        ("recover 20", 2, "5 is ready; Recover asks that no node is ok or ready"),
        ("recover slot 9", 1, "slot 9 is not listed"),
    ];

    #[test]
    fn departures_are_refused_as_they_should() {
        let text = "ring M=6 L=2\n\
            node 5 ready left 10 20 right 30 probing 20 failed 30 40 grant 30\n\
            node 10 wait\nnode 20 wait left 30 right 10 probing 10\nnode 30 wait left 5\nnode 40 dead\n\
            JoinReply owner 5 at 10\n";
        let Ok(Text::Table(table)) = parse::text(text) else { panic!("no table") };
        let why = Why::new(&table);
        for (words, number, part) in DEPARTURES {
            let action = action::action(&mut lines(words).remove(0), &why.names).unwrap();
            let told = why.rule(action);
            assert!(
                told.as_ref().is_some_and(|(rule, reason)| rule == number && reason.contains(part)),
                "{words}: {told:?}"
            );
        }
    }
}
