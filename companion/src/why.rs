//! Reasons: why a node is not ready and a table is not settled; `refusals` has why an action is refused. The rule of 01 is named, with
//! the numbers of the table. The answer itself is the proved code's.

use crate::rules::Rules;
use crate::table::{members, Message, Names, Node, Table};

pub struct Why<'a> {
    pub rules: Rules<'a>,
    pub names: Names,
}

impl<'a> Why<'a> {
    pub fn new(table: &'a Table) -> Why<'a> {
        Why { rules: Rules(table), names: Names::new(table.ids()) }
    }

    pub fn table(&self) -> &Table {
        self.rules.0
    }

    pub fn name(&self, slot: u32) -> String {
        self.names.of(slot)
    }

    pub fn status(&self, slot: u32) -> String {
        self.rules.node(slot).status_word()
    }

    /// `leaf set 2 of 4 a side`, or each side where they differ.
    pub fn leaf_set(&self, slot: u32) -> String {
        let node = self.rules.node(slot);
        let (left, right, most) = (node.left().count_ones(), node.right().count_ones(), self.table().l);
        if left == right {
            return format!("leaf set {left} of {most} a side");
        }
        format!("leaf set {left} of {most} on the left, {right} of {most} on the right")
    }

    /// Why a node is not ready, or that it is.
    pub fn node(&self, slot: u32) -> String {
        let (name, status) = (self.name(slot), self.rules.node(slot).status);
        let why = match status {
            Node::DEAD => "it takes part in nothing until it joins (01, Join)".to_string(),
            Node::WAIT => self.waits(slot),
            Node::OK => self.is_ok(slot),
            _ => return format!("{name} is ready"),
        };
        let word =
            if status == Node::WAIT { "waits".to_string() } else { format!("is {}", self.status(slot)) };
        format!("{name} {word}: {why}")
    }

    /// Places of waiting messages, with their names.
    pub fn found(&self, wanted: impl Fn(&Message) -> bool) -> Vec<String> {
        let messages = self.table().messages.iter().zip(0u32..).filter(|(message, _)| wanted(message));
        messages
            .map(|(message, place)| {
                format!("{} (place {place})", crate::print::message(message, &self.names))
            })
            .collect()
    }

    /// Messages of a kind, each with what keeps it from being taken, if something does.
    fn held_up(&self, wanted: impl Fn(&Message) -> bool) -> Option<String> {
        let first = self.table().messages.iter().find(|message| wanted(message))?;
        let all = self.found(wanted).join(", ");
        let why = self.take(first).map(|(_, reason)| format!(", and is not taken: {reason}"));
        Some(format!("{all} waits{}", why.unwrap_or_default()))
    }

    fn waits(&self, slot: u32) -> String {
        let id = self.rules.id(slot);
        if let Some(asked) = self.held_up(|m| m.kind == Message::JOIN_REQUEST && m.word == slot) {
            return format!("its request is not answered: {asked}");
        }
        if let Some(replied) = self.held_up(|m| m.kind == Message::JOIN_REPLY && m.at == slot) {
            return format!("its reply is not taken: {replied}");
        }
        if self.rules.node(slot).probing() != 0 {
            return self.unheard(slot);
        }
        if let Some(lost) = self.held_up(|m| m.kind == Message::NO_LEGAL_ROUTE && m.word == id) {
            return format!("its request met no legal route: {lost}");
        }
        if self.rules.is_empty(slot) {
            return "no message of its join waits, and its leaf set is empty".to_string();
        }
        let leaf_set = self.leaf_set(slot);
        if self.rules.complete(slot) || self.rules.overlap(slot) {
            let rule = "ok comes with an LSProbeReply alone, and none waits for it (01, Take 5)";
            return format!("{leaf_set}, all heard from; {rule}");
        }
        let rule = "ok comes with the last LSProbeReply where both sides are full or overlap (01, Take 5)";
        format!("{leaf_set}, and no node on both sides; {rule}")
    }

    /// Of a node that probes: from whom it has not heard.
    fn unheard(&self, slot: u32) -> String {
        let them = self.names.all(self.rules.node(slot).probing());
        let asked = |m: &Message| m.kind == Message::PROBE && m.word == slot;
        let replied = |m: &Message| m.kind == Message::PROBE_REPLY && m.at == slot;
        let on_way = match self.held_up(|m| asked(m) || replied(m)) {
            None => "no probe of it and no reply waits".to_string(),
            Some(held_up) => held_up,
        };
        format!("it has not heard from {them} (probing); {on_way}")
    }

    fn is_ok(&self, slot: u32) -> String {
        let leaf_set = self.leaf_set(slot);
        if !self.rules.complete(slot) {
            let rule =
                "a BroadcastLSet, which brings the lease, is taken only with a complete one (01, Take 8)";
            return format!("{leaf_set}; {rule}");
        }
        let asked = |m: &Message| m.kind == Message::LEASE_REQUEST && m.word == slot;
        let granted = |m: &Message| m.kind == Message::BROADCAST && m.at == slot;
        let unasked = || format!("none is asked for: `request lease {}`", self.name(slot));
        let on_way = self.held_up(|m| asked(m) || granted(m)).unwrap_or_else(unasked);
        let sides = [self.rules.left_neighbour(slot), self.rules.right_neighbour(slot)];
        let lacking = sides.iter().fold(0, |set, side| set | 1 << side) & !self.rules.node(slot).lease();
        if lacking == 0 {
            let rule = "becomes ready with the next BroadcastLSet that leaves its neighbours (01, Take 8)";
            return format!("it holds both leases, and {rule}; {on_way}");
        }
        let them: Vec<String> = members(lacking).map(|side| self.name(side)).collect();
        let plural = if them.len() > 1 { "s" } else { "" };
        format!("{leaf_set}, no lease of its neighbour{plural} {} (01, Take 8); {on_way}", them.join(" and "))
    }

    /// The rules of a settled table that this one breaks.
    pub fn not_settled(&self) -> Vec<String> {
        let ready = self.rules.ready();
        let mut broken = Vec::new();
        if ready.is_empty() {
            broken.push("no node is ready (01, Settled)".to_string());
        }
        let joining = self.rules.with_status(|status| status == Node::WAIT || status == Node::OK);
        broken.extend(joining.into_iter().map(|slot| self.node(slot)));
        for slot in ready {
            broken.extend(self.beside(slot));
        }
        broken
    }

    /// What keeps a ready node from being as a settled table has it.
    fn beside(&self, slot: u32) -> Vec<String> {
        let (up, down) = self.rules.next_ready(slot);
        let name = self.name(slot);
        let sides = [
            ("left", "up", self.rules.left_neighbour(slot), up),
            ("right", "down", self.rules.right_neighbour(slot), down),
        ];
        let wrong = sides.into_iter().filter(|(_, _, is, wanted)| is != wanted);
        let wrong = wrong.map(|(side, way, is, wanted)| {
            let (is, wanted) = (self.name(is), self.name(wanted));
            format!("{name}: its {side} neighbour is {is}, the next ready id {way} the ring is {wanted} (01, Settled)")
        });
        let failed = members(self.rules.node(slot).failed())
            .filter(|other| self.rules.node(*other).status == Node::READY);
        let failed = failed.map(|other| {
            format!("{name}: {}, which is ready, is in its failed (01, Settled)", self.name(other))
        });
        wrong.chain(failed).collect()
    }
}

#[cfg(test)]
mod tests {
    use super::*;

    /// 17, 65 and 95 are ready with L = 4, and 120 has this status, with a leaf set of the three.
    fn small(status: u32, messages: Vec<Message>) -> Table {
        let node = |id, status, side| Node { id, status, sets: [side, side, 0, 0, 15, 15, 15] };
        let nodes = vec![
            node(17, 3, 14),
            node(65, 3, 13),
            node(95, 3, 11),
            Node { id: 120, status, sets: [7, 7, 0, 0, 15, 0, 0] },
        ];
        Table { m: 8, l: 4, nodes, messages }
    }

    #[test]
    fn a_node_that_is_ok_is_told_by_its_leaf_set() {
        let table = small(Node::OK, vec![]);
        let said = Why::new(&table).node(3);
        let both =
            "120 is ok: leaf set 3 of 4 a side, no lease of its neighbours 17 and 95 (01, Take 8); none";
        assert!(said.starts_with(both), "{said}");
        let mut short = small(Node::OK, vec![]);
        short.nodes[3].sets[..2].copy_from_slice(&[1, 4]);
        let said = Why::new(&short).node(3);
        assert!(said.starts_with("120 is ok: leaf set 1 of 4 a side; "), "{said}");
        let full = Table { l: 3, ..table };
        let said = Why::new(&full).node(3);
        assert!(
            said.starts_with(
                "120 is ok: leaf set 3 of 3 a side, no lease of its neighbours 17 and 95 (01, Take 8); none"
            ),
            "{said}"
        );
        assert!(Why::new(&full).not_settled().len() > 2);
    }

    #[test]
    fn a_message_that_is_held_up_is_told_with_its_rule() {
        let request = Message { kind: Message::JOIN_REQUEST, at: 0, word: 3, ..Message::default() };
        let mut table = small(Node::WAIT, vec![request]);
        table.nodes[0].status = Node::OK;
        let said = Why::new(&table).node(3);
        let wanted = "120 waits: its request is not answered: JoinRequest from 120 at 17 (place 0) waits, \
                      and is not taken: 17 is ok; a JoinRequest";
        assert!(said.starts_with(wanted), "{said}");
    }
}
