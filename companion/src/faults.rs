//! Why a file, a table or a start is refused with 7 to 10: the first rule that it breaks, as it is read here.

use crate::driver::Start;
use crate::form::{Field, Form, RECORD};
use crate::print;
use crate::rules::Rules;
use crate::table::{members, Message, Names, Node, Table};

const HEADER: usize = 32;

/// Of a file that the proved code refuses with this number; empty where no rule as read here says why.
pub fn of_file(bytes: &[u8], number: u32) -> String {
    let found = header(bytes).or_else(|| crate::file::read(bytes).and_then(|table| of_table(&table)));
    told(found, number)
}

/// Of a start that is refused with this number.
pub fn of_start(start: &Start, number: u32) -> String {
    let Start { m, l, ready, ids } = start;
    let table = |m: u64| Table {
        m: m as u32,
        l: 1,
        nodes: ids.iter().map(|id| blank(*id)).collect(),
        messages: vec![],
    };
    let found = ranges(*m, *l, ids.len() as u64, 0).or_else(|| {
        let named = Names::new(ids.clone());
        let strange = members(*ready).find(|slot| *slot as usize >= ids.len());
        let strange = strange.map(|slot| (10, format!("{} is not listed", named.of(slot))));
        let none = (*ready == 0).then(|| (10, "no node is ready; a start asks for one at least".to_string()));
        rising(&table(*m)).or(strange).or(none)
    });
    told(found, number)
}

fn blank(id: u32) -> Node {
    Node { id, ..Node::default() }
}

/// The reason, if it is one for this number.
fn told(found: Option<(u32, String)>, number: u32) -> String {
    found.filter(|(rule, _)| *rule == number).map(|(_, reason)| reason).unwrap_or_default()
}

fn header(bytes: &[u8]) -> Option<(u32, String)> {
    if bytes.len() < HEADER {
        return Some((7, format!("it has {} bytes; a table file has 32 at least", bytes.len())));
    }
    let word =
        |k: usize| bytes[4 * k..4 * k + 4].iter().rev().fold(0u64, |word, byte| word << 8 | u64::from(*byte));
    let last = || (word(7) != 0).then(|| (8, format!("the header's last word is {}, not 0", word(7))));
    let (n, m) = (word(2), word(3));
    let total = 32 + 64 * n + 56 * m;
    let counts = format!("{n} nodes and {m} messages");
    let wants = [("offset of nodes", word(4), 32), ("offset of messages", word(5), 32 + 64 * n)];
    let offset = || wants.iter().find(|(_, is, wanted)| is != wanted);
    let offset =
        || offset().map(|(name, is, wanted)| (9, format!("the {name} is {is}; for {counts} it is {wanted}")));
    let length = || {
        let (told, real) = (word(6), bytes.len() as u64);
        (told != total || real != total).then(|| {
            (
                9,
                format!(
                    "for {counts} the total is {total}; the header says {told}, the file has {real} bytes"
                ),
            )
        })
    };
    ranges(word(0), word(1), n, m).or_else(last).or_else(offset).or_else(length)
}

fn ranges(m: u64, l: u64, n: u64, messages: u64) -> Option<(u32, String)> {
    let limits = [
        ("M", m, 2, 32),
        ("L", l, 1, 8),
        ("the number of nodes", n, 1, 64),
        ("the number of messages", messages, 0, 256),
    ];
    let out = limits.iter().find(|(_, is, least, most)| is < least || is > most);
    out.map(|(name, is, least, most)| (8, format!("{name} is {is}; it is {least} to {most}")))
}

/// The first rule of validity that a table breaks.
pub fn of_table(table: &Table) -> Option<(u32, String)> {
    let names = Names::new(table.ids());
    let nodes = || table.nodes.iter().zip(0..).find_map(|(node, slot)| of_node(table, node, slot, &names));
    let messages = || {
        table.messages.iter().zip(0..).find_map(|(message, place)| of_message(table, message, place, &names))
    };
    ranges(table.m.into(), table.l.into(), table.nodes.len() as u64, table.messages.len() as u64)
        .or_else(|| rising(table))
        .or_else(|| nodes().or_else(messages).map(|reason| (10, reason)))
}

fn rising(table: &Table) -> Option<(u32, String)> {
    let size = 1u64 << table.m.min(32);
    let large = table.nodes.iter().find(|node| u64::from(node.id) >= size);
    let large = large.map(|node| format!("id {} is not below 2^{}, {size}", node.id, table.m));
    let pair = table.nodes.windows(2).zip(1..).find(|(pair, _)| pair[0].id >= pair[1].id);
    let pair = pair.map(|(pair, slot)| {
        format!("ids do not rise: {} in slot {slot} stands after {}", pair[1].id, pair[0].id)
    });
    large.or(pair).map(|reason| (10, reason))
}

fn of_node(table: &Table, node: &Node, slot: u32, names: &Names) -> Option<String> {
    let name = names.of(slot);
    if node.status > Node::READY {
        return Some(format!("{name} has status {}; it is 0 to 3", node.status));
    }
    Node::SETS.iter().zip(node.sets).enumerate().find_map(|(nth, (set, members))| {
        let own = (nth < 4).then_some(slot);
        let most = (nth < 2).then_some(table.l);
        of_set(table, members, own, most, names).map(|what| format!("{set} of {name} {what}"))
    })
}

/// What a set breaks: marks below n, not its owner's, at most so many.
fn of_set(table: &Table, set: u64, owner: Option<u32>, most: Option<u32>, names: &Names) -> Option<String> {
    let strange = members(set).find(|slot| *slot as usize >= table.nodes.len());
    let strange = || strange.map(|slot| format!("marks slot {slot}, which is not listed"));
    let own = || {
        owner
            .filter(|slot| *slot < 64 && set >> slot & 1 == 1)
            .map(|slot| format!("holds {} itself", names.of(slot)))
    };
    let many = most
        .filter(|most| set.count_ones() > *most)
        .map(|most| format!("holds {}; L is {most}", set.count_ones()));
    strange().or_else(own).or(many)
}

fn of_message(table: &Table, message: &Message, place: usize, names: &Names) -> Option<String> {
    let what = of_fields(table, message, names).or_else(|| {
        let equal = table.messages[..place].iter().position(|other| other.equals(message))?;
        Some(format!("is equal to that at place {equal}"))
    })?;
    Some(format!("the message at place {place}, {}, {what}", print::message(message, names)))
}

fn of_fields(table: &Table, message: &Message, names: &Names) -> Option<String> {
    let form = Form::of(message);
    if form.name == RECORD.name {
        let kind = message.kind;
        let hops = (1..=8).contains(&kind) && Form::of(&Message { hops: 0, ..*message }).name != RECORD.name;
        let lacks = if hops {
            "has hops, which Lookups alone have"
        } else {
            "has a field that its kind lacks, or a flag that is not 0 or 1"
        };
        return Some(if (1..=8).contains(&kind) {
            lacks.to_string()
        } else {
            format!("has kind {kind}; it is 1 to 8")
        });
    }
    let count = table.nodes.len();
    let slot =
        |slot: u32| (slot as usize >= count).then(|| format!("names slot {slot}, which is not listed"));
    form.fields.iter().find_map(|field| match *field {
        Field::Key => {
            let size = 1u64 << table.m.min(32);
            (u64::from(message.word) >= size)
                .then(|| format!("has key {}; keys are below {size}", message.word))
        }
        Field::At => slot(message.at),
        Field::From | Field::FromOwner => slot(message.word),
        Field::Owner => slot(message.owner),
        Field::Hops => {
            let most = Rules(table).farther(message.at, message.word);
            (message.hops as usize > most).then(|| {
                format!(
                    "has made {} hops; it has {most} at most, as many as nodes are farther from {} than {}",
                    message.hops,
                    message.word,
                    names.of(message.at)
                )
            })
        }
        Field::Set(nth) => {
            let side = Message::SETS[nth] == "left" || Message::SETS[nth] == "right";
            let (owner, most) = (side.then_some(message.owner), side.then_some(table.l));
            let what = of_set(table, message.sets[nth], owner, most, names);
            what.map(|what| format!("carries a {} that {what}", Message::SETS[nth]))
        }
        _ => None,
    })
}

#[cfg(test)]
mod tests {
    use super::*;

    #[test]
    fn starts_are_told_by_their_rule() {
        let start = |m, l, ready, ids: &[u32]| Start { m, l, ready, ids: ids.to_vec() };
        let said = [
            (start(33, 1, 1, &[17]), 8, "M is 33; it is 2 to 32"),
            (start(8, 9, 1, &[17]), 8, "L is 9; it is 1 to 8"),
            (start(8, 1, 1, &[18, 17]), 10, "ids do not rise: 17 in slot 1 stands after 18"),
            (start(8, 1, 1, &[17, 17]), 10, "ids do not rise: 17 in slot 1 stands after 17"),
            (start(8, 1, 1, &[17, 256]), 10, "id 256 is not below 2^8, 256"),
            (start(8, 1, 0, &[17]), 10, "no node is ready; a start asks for one at least"),
            (start(8, 1, 2, &[17]), 10, "slot 1 is not listed"),
            (start(8, 1, 1, &[17]), 10, ""),
        ];
        for (start, number, reason) in said {
            assert_eq!(of_start(&start, number), reason);
        }
    }

    #[test]
    fn files_are_told_by_their_rule() {
        assert_eq!(of_file(&[0; 31], 7), "it has 31 bytes; a table file has 32 at least");
        assert_eq!(of_file(&[0; 32], 8), "M is 0; it is 2 to 32");
        let mut bytes = crate::file::write(&Table { m: 8, l: 1, nodes: vec![blank(17)], messages: vec![] });
        bytes.push(0);
        let said = "for 1 nodes and 0 messages the total is 96; the header says 96, the file has 97 bytes";
        assert_eq!(of_file(&bytes, 9), said);
    }

    #[test]
    fn records_are_told_by_their_rule() {
        let node = |sets| Node { id: 17, status: 3, sets };
        let table = |nodes, messages| Table { m: 8, l: 1, nodes, messages };
        let of = |table: Table| of_table(&table).unwrap_or_default().1;
        assert_eq!(of(table(vec![node([1, 0, 0, 0, 0, 0, 0])], vec![])), "left of 17 holds 17 itself");
        assert_eq!(
            of(table(vec![node([0, 0, 0, 0, 4, 0, 0])], vec![])),
            "routing of 17 marks slot 2, which is not listed"
        );
        let lookup = Message::lookup(80, 0);
        let twice = table(vec![node([0; 7])], vec![lookup, lookup]);
        assert_eq!(of(twice), "the message at place 1, Lookup 80 at 17, is equal to that at place 0");
        let far = table(vec![node([0; 7])], vec![Message::lookup(256, 0)]);
        assert_eq!(of(far), "the message at place 0, Lookup 256 at 17, has key 256; keys are below 256");
    }

    #[test]
    fn hops_are_told_by_their_rule() {
        let nodes = || [17, 18, 65, 95].map(blank).to_vec();
        let table = |messages| Table { m: 8, l: 1, nodes: nodes(), messages };
        let of = |table: Table| of_table(&table).unwrap_or_default().1;
        let made = |hops, message: Message| Message { hops, ..message };
        for (slot, most) in [(0, 0), (1, 1), (2, 3), (3, 2)] {
            let lookup = Message::lookup(80, slot);
            assert_eq!(of(table(vec![made(most, lookup)])), "");
            assert!(of(table(vec![made(most + 1, lookup)])).contains(&format!("; it has {most} at most, as")));
        }
        let far = "the message at place 0, Lookup 80 at 95 hops 3, has made 3 hops; it has 2 at most, as many as nodes are farther from 80 than 95";
        assert_eq!(of(table(vec![made(3, Message::lookup(80, 3))])), far);
        let twice = table(vec![Message::lookup(80, 2), made(1, Message::lookup(80, 2))]);
        assert_eq!(of(twice), "the message at place 1, Lookup 80 at 65 hops 1, is equal to that at place 0");
        let lost = made(1, Message { kind: Message::NO_LEGAL_ROUTE, ..Message::lookup(80, 2) });
        let said =
            "the message at place 0, message 6 at 65 word 80 hops 1, has hops, which Lookups alone have";
        assert_eq!(of(table(vec![lost])), said);
    }
}
