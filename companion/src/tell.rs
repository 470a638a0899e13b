//! A done step in a sentence.

use crate::action;
use crate::driver::{ActionWords, Via};
use crate::rules::Rules;
use crate::table::{so_far, Message, Names, Node, Table};

/// What a step did, with the nodes whose status it changed.
pub fn step(action: ActionWords, before: &Table, after: &Table, via: Option<Via>) -> String {
    let names = Names::new(before.ids());
    let handled = action::on_messages().any(|row| row.number == action[0]);
    let message =
        usize::try_from(action[1]).ok().and_then(|place| before.messages.get(place)).filter(|_| handled);
    let told = Told { before, after, via, names: &names };
    let sentence = match message {
        Some(message) => told.handled(message),
        None => told.asked(action),
    };
    sentence + &told.becomes()
}

struct Told<'a> {
    before: &'a Table,
    after: &'a Table,
    /// How a message was routed, if one was.
    via: Option<Via>,
    names: &'a Names,
}

impl Told<'_> {
    fn name(&self, slot: u32) -> String {
        self.names.of(slot)
    }

    /// The messages that were not there.
    fn added(&self) -> Vec<&Message> {
        self.after.messages.iter().filter(|message| !self.before.messages.contains(message)).collect()
    }

    /// Where new messages of a kind go.
    fn sent(&self, kind: u32) -> Vec<String> {
        self.added()
            .iter()
            .filter(|message| message.kind == kind)
            .map(|message| self.name(message.at))
            .collect()
    }

    fn becomes(&self) -> String {
        let pairs = self.before.nodes.iter().zip(&self.after.nodes).zip(0..);
        let changed = pairs.filter(|((old, new), _)| old.status != new.status);
        changed
            .map(|((_, new), slot)| format!("; {} becomes {}", self.name(slot), new.status_word()))
            .collect()
    }

    fn asked(&self, words: ActionWords) -> String {
        let says = action::row(words[0]).map_or("a step is made", |row| row.says);
        let asked = self.sent(Message::LEASE_REQUEST);
        match says {
            "NODE asks its neighbours for a lease" if asked.is_empty() => action::fill(
                "NODE holds the leases of its neighbours already, or has asked for them",
                words,
                self.names,
            ),
            says => action::fill(says, words, self.names),
        }
    }

    fn handled(&self, message: &Message) -> String {
        let (at, from) = (self.name(message.at), self.name(message.word));
        match message.kind {
            Message::LOOKUP => self.routed(message, &format!("the lookup of {}", message.word), "delivered"),
            Message::JOIN_REQUEST => {
                self.routed(message, &format!("the request of {from}"), "answered with its leaf set")
            }
            Message::JOIN_REPLY => {
                let probed = self.sent(Message::PROBE).join(" ");
                format!("{at} takes in {} and its leaf set, and probes {probed}", self.name(message.owner))
            }
            Message::PROBE => self.heard(message, &format!("{at} hears the probe of {from} and replies")),
            Message::PROBE_REPLY => self.heard(message, &format!("{at} hears from {from}")),
            Message::LEASE_REQUEST => self.granted(message),
            Message::BROADCAST => self.broadcast(message),
            _ => format!("{at} takes {}", crate::print::message(message, self.names)),
        }
    }

    /// A lookup or a join request: it ends at its destination, goes on, or meets no legal route.
    fn routed(&self, message: &Message, what: &str, end: &str) -> String {
        let at = self.name(message.at);
        let added = self.added();
        let hops = |new: &Message| match new.kind {
            Message::LOOKUP => format!(", {}", so_far(new.hops)),
            _ => String::new(),
        };
        let to = added.iter().find(|new| new.kind == message.kind).map(|new| (self.name(new.at), hops(new)));
        match (self.via.map(Via::words), to) {
            (Some(by), Some((to, hops))) => format!("{at} sends {what} on to {to}, {by}{hops}"),
            (Some(by), None) => format!("{at} sends {what} on, {by}, and it meets its equal"),
            (None, _) if added.iter().any(|new| new.kind == Message::NO_LEGAL_ROUTE) => {
                format!("{at} knows no legal route for {what}")
            }
            (None, _) => format!("{at} covers it: {what} is {end}"),
        }
    }

    /// A probe or its reply: who comes into the leaf set, and who is probed then.
    fn heard(&self, message: &Message, begin: &str) -> String {
        let content = |table: &Table| Rules(table).content(message.at);
        let came = content(self.after) & !content(self.before);
        let left = content(self.before) & !content(self.after);
        let probed = self.sent(Message::PROBE);
        let mut parts = vec![begin.to_string()];
        if came != 0 {
            parts.push(format!("takes in {}", self.names.all(came)));
        }
        if left != 0 {
            parts.push(format!("lets go {}", self.names.all(left)));
        }
        if !probed.is_empty() {
            parts.push(format!("probes {}", probed.join(" ")));
        }
        parts.join(", ")
    }

    fn granted(&self, message: &Message) -> String {
        let (at, from, rules) = (self.name(message.at), self.name(message.word), Rules(self.before));
        let sides = [rules.left_neighbour(message.at), rules.right_neighbour(message.at)];
        match sides.contains(&message.word) {
            true => format!("{at} grants {from} a lease"),
            false => format!("{at} is no neighbour of {from}, and tells it its leaf set without a lease"),
        }
    }

    fn broadcast(&self, message: &Message) -> String {
        let (at, owner) = (self.name(message.at), self.name(message.owner));
        let lease = |table: &Table| table.nodes.get(message.at as usize).map_or(0, Node::lease);
        let gained = lease(self.after) & !lease(self.before) != 0;
        match (message.flag == 1, gained) {
            (true, true) => format!("{at} has the lease of {owner}"),
            (true, false) => format!(
                "{at} hears the leaf set of {owner}, whose lease it has, or which is no neighbour any more"
            ),
            (false, _) => format!("{at} hears the leaf set of {owner}, without a lease"),
        }
    }
}
