//! What differs between two tables, by the names of nodes.

use crate::print;
use crate::table::{members, Names, Node, Table};
use std::collections::HashMap;

/// A line for each number, node and message that differs.
pub fn between(before: &Table, after: &Table) -> Vec<String> {
    let names = [before, after].map(|table| Names::new(table.ids()));
    let mut lines = Vec::new();
    for (name, old, new) in [("M", before.m, after.m), ("L", before.l, after.l)] {
        if old != new {
            lines.push(format!("{name}: {old} becomes {new}"));
        }
    }
    lines.extend(nodes(before, after, &names));
    lines.extend(messages(before, after, &names));
    lines
}

fn nodes(before: &Table, after: &Table, names: &[Names; 2]) -> Vec<String> {
    if before.ids() == after.ids() {
        let pairs = before.nodes.iter().zip(&after.nodes).zip(0..).filter(|((old, new), _)| old != new);
        return pairs.filter_map(|((old, new), slot)| node(&names[0].of(slot), old, new, names)).collect();
    }
    let mut old: HashMap<String, &Node> = named(before, &names[0]).into_iter().collect();
    let mut lines = Vec::new();
    for (name, new) in named(after, &names[1]) {
        match old.remove(&name) {
            None => lines.push(format!("{name}: new, {}", new.status_word())),
            Some(old) => lines.extend(node(&name, old, new, names)),
        }
    }
    let gone = named(before, &names[0]).into_iter().filter(|(name, _)| old.contains_key(name));
    lines.extend(gone.map(|(name, _)| format!("{name}: gone")));
    lines
}

fn named<'a>(table: &'a Table, names: &Names) -> Vec<(String, &'a Node)> {
    table.nodes.iter().zip(0..).map(|(node, slot)| (names.of(slot), node)).collect()
}

fn node(name: &str, old: &Node, new: &Node, names: &[Names; 2]) -> Option<String> {
    let mut parts = Vec::new();
    if old.status != new.status {
        parts.push(format!("{} becomes {}", old.status_word(), new.status_word()));
    }
    for (set, (old, new)) in Node::SETS.iter().zip(old.sets.iter().zip(new.sets)) {
        let [old, new] = [(*old, &names[0]), (new, &names[1])]
            .map(|(set, names)| members(set).map(|slot| names.of(slot)).collect::<Vec<_>>());
        let lacks = |all: &[String], these: &[String]| -> Vec<String> {
            these.iter().filter(|name| !all.contains(name)).cloned().collect()
        };
        for (verb, moved) in [("loses", lacks(&new, &old)), ("gains", lacks(&old, &new))] {
            if !moved.is_empty() {
                parts.push(format!("{set} {verb} {}", moved.join(" ")));
            }
        }
    }
    (!parts.is_empty()).then(|| format!("{name}: {}", parts.join("; ")))
}

fn messages(before: &Table, after: &Table, names: &[Names; 2]) -> Vec<String> {
    let texts = |table: &Table, names: &Names| -> Vec<String> {
        table.messages.iter().map(|message| print::message(message, names)).collect()
    };
    let (old, new) = (texts(before, &names[0]), texts(after, &names[1]));
    let lines: Vec<String> =
        unmatched(&old, &new, "gone from").chain(unmatched(&new, &old, "new at")).collect();
    if lines.is_empty() && old != new {
        return vec!["the same messages wait in another order".to_string()];
    }
    lines
}

/// The messages that the other list does not hold.
fn unmatched<'a>(
    these: &'a [String],
    others: &'a [String],
    verb: &'a str,
) -> impl Iterator<Item = String> + 'a {
    let others: std::collections::HashSet<&String> = others.iter().collect();
    let these = these.iter().zip(0..).filter(move |(message, _)| !others.contains(message));
    these.map(move |(message, place)| format!("{verb} place {place}: {message}"))
}

#[cfg(test)]
mod tests {
    use super::*;
    use crate::table::Message;

    fn table(ids: &[u32]) -> Table {
        let nodes = ids.iter().map(|id| Node { id: *id, status: 3, sets: [0; 7] }).collect();
        Table { m: 8, l: 1, nodes, messages: vec![] }
    }

    #[test]
    fn tables_of_other_nodes_are_compared_by_id() {
        let (mut old, mut new) = (table(&[17, 65]), table(&[17, 18, 65]));
        old.nodes[0].sets[0] = 2;
        new.nodes[0].sets[0] = 4;
        new.nodes[2].status = 0;
        assert_eq!(between(&old, &new), ["18: new, ready", "65: ready becomes dead"]);
        assert_eq!(between(&new, &old), ["65: dead becomes ready", "18: gone"]);
    }

    #[test]
    fn messages_are_compared_by_their_words() {
        let (mut old, mut new) = (table(&[17, 65]), table(&[17, 65]));
        let (one, two) = (Message::lookup(80, 0), Message::lookup(81, 1));
        (old.messages, new.messages) = (vec![one, two], vec![two, one]);
        assert_eq!(between(&old, &new), ["the same messages wait in another order"]);
        new.messages = vec![two];
        assert_eq!(between(&old, &new), ["gone from place 0: Lookup 80 at 17"]);
        assert_eq!(between(&old, &old), [""; 0]);
    }
}
