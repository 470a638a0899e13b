//! What a table says of keys and lookups, found by asking the proved code.

use crate::action::{self, DELIVER, FORWARD};
use crate::driver::{Driver, Via};
use crate::file;
use crate::rules::Rules;
use crate::table::{Message, Names, Node, Table};
use crate::trouble::Trouble;
use std::collections::HashMap;

/// Keys from one to another, rising, both held.
#[derive(Clone, Copy, Debug, PartialEq, Eq)]
pub struct Arc {
    pub from: u32,
    pub to: u32,
}

/// A waiting lookup followed as the only message.
pub struct Journey {
    pub key: u32,
    /// The hops that it carries.
    pub so_far: u32,
    /// Slots: where it waits, then where each routing takes it.
    pub path: Vec<u32>,
    /// How each routing was made.
    pub via: Vec<Via>,
    pub end: End,
}

#[derive(Clone, Copy, Debug, PartialEq, Eq)]
pub enum End {
    Delivered,
    NoLegalRoute,
    NotReady,
}

/// What handling a lookup does to it.
enum Fate {
    Routed(u32, Via),
    Ended(End),
}

/// Asks about the tables of one plan: what a node covers follows from its slot and its sides, so it is asked once for these.
pub struct Survey<'a> {
    pub driver: &'a mut Driver,
    known: HashMap<(u32, u64, u64), Arc>,
}

impl<'a> Survey<'a> {
    pub fn new(driver: &'a mut Driver) -> Survey<'a> {
        Survey { driver, known: HashMap::new() }
    }

    /// What each node covers; nothing where it is not ready.
    pub fn arcs(&mut self, table: &Table) -> Result<Vec<Option<Arc>>, Trouble> {
        let arc = |(node, slot): (&Node, u32)| {
            if node.status != Node::READY {
                return Ok(None);
            }
            let sides = (slot, node.left(), node.right());
            if let Some(arc) = self.known.get(&sides) {
                return Ok(Some(*arc));
            }
            let arc = Asked { driver: self.driver, table }.arc(slot)?;
            self.known.insert(sides, arc);
            Ok(Some(arc))
        };
        table.nodes.iter().zip(0..).map(arc).collect()
    }

    /// The ready nodes that deliver a key.
    pub fn holders(&mut self, table: &Table, key: u32) -> Result<Vec<u32>, Trouble> {
        let mut holders = Vec::new();
        for slot in Rules(table).ready() {
            if (Asked { driver: self.driver, table }).covers(slot, key)? {
                holders.push(slot);
            }
        }
        Ok(holders)
    }

    /// For each waiting message the action that handles it now, as it is written; empty where none is done.
    pub fn offers(&mut self, table: &Table) -> Result<Vec<String>, Trouble> {
        let (names, file) = (Names::new(table.ids()), file::write(table));
        let mut offers = vec![String::new(); table.messages.len()];
        for (offer, place) in offers.iter_mut().zip(0..) {
            for row in action::on_messages() {
                let words = [row.number, place, 0];
                if self.driver.step(words, &file)?.number == 0 {
                    *offer = action::written(words, &names);
                    break;
                }
            }
        }
        Ok(offers)
    }

    pub fn journeys(&mut self, table: &Table) -> Result<Vec<Journey>, Trouble> {
        let lookups = table.messages.iter().filter(|message| message.kind == Message::LOOKUP);
        lookups.map(|lookup| Asked { driver: self.driver, table }.journey(lookup)).collect()
    }
}

/// One table, of which the proved code is asked.
struct Asked<'a> {
    driver: &'a mut Driver,
    table: &'a Table,
}

impl Asked<'_> {
    /// The arc of a ready node. Its ends are asked where 01's formula puts them, and searched for if they are not there.
    fn arc(&mut self, slot: u32) -> Result<Arc, Trouble> {
        let rules = Rules(self.table);
        let (from, to, last) = (rules.right_cover(slot), rules.left_cover(slot), rules.last());
        let (id, whole) = (rules.id(slot), rules.fall(to, from) == last);
        let (before, after) = (from.wrapping_sub(1) & last, to.wrapping_add(1) & last);
        let inside = self.covers(slot, from)? && self.covers(slot, to)?;
        if inside && !whole && !self.covers(slot, before)? && !self.covers(slot, after)? {
            return Ok(Arc { from, to });
        }
        self.search(id, slot)
    }

    /// The arc of a ready node: all of the ring, or less than half of it above the id and less than half below. The id is
    /// in it unless the right side alone is empty; then the arc begins above the id.
    fn search(&mut self, id: u32, slot: u32) -> Result<Arc, Trouble> {
        let (half, last) = (1u32 << (self.table.m - 1), Rules(self.table).last());
        let up = |by: u32| id.wrapping_add(by) & last;
        let down = |by: u32| id.wrapping_sub(by) & last;
        if self.covers(slot, up(half))? {
            return Ok(Arc { from: up(1), to: id });
        }
        if !self.covers(slot, id)? {
            return Ok(Arc { from: up(1), to: up(self.last_covered(slot, 1, half, up)?) });
        }
        let (rise, fall) = (self.last_covered(slot, 0, half, up)?, self.last_covered(slot, 0, half, down)?);
        Ok(Arc { from: down(fall), to: up(rise) })
    }

    /// The last covered step from `within`, covered, towards `beyond`, which is not.
    fn last_covered(
        &mut self,
        slot: u32,
        mut within: u32,
        mut beyond: u32,
        key: impl Fn(u32) -> u32,
    ) -> Result<u32, Trouble> {
        while beyond - within > 1 {
            let middle = within + (beyond - within) / 2;
            if self.covers(slot, key(middle))? {
                within = middle;
            } else {
                beyond = middle;
            }
        }
        Ok(within)
    }

    /// Whether the node delivers a lookup of the key.
    fn covers(&mut self, slot: u32, key: u32) -> Result<bool, Trouble> {
        let file = file::write(&self.table.with_only(Message::lookup(key, slot)));
        match self.driver.step([DELIVER, 0, 0], &file)?.number {
            0 => Ok(true),
            2 | 5 => Ok(false),
            number => Err(Trouble::refused(number)),
        }
    }

    fn journey(&mut self, lookup: &Message) -> Result<Journey, Trouble> {
        let (mut path, mut via) = (vec![lookup.at], vec![]);
        loop {
            let at = path[path.len() - 1];
            match self.handled(&Message { at, ..*lookup })? {
                Fate::Routed(to, how) => {
                    path.push(to);
                    via.push(how);
                }
                Fate::Ended(end) => {
                    return Ok(Journey { key: lookup.word, so_far: lookup.hops, path, via, end })
                }
            }
        }
    }

    /// Handles a lookup as the only message: it is delivered, or else sent on.
    fn handled(&mut self, lookup: &Message) -> Result<Fate, Trouble> {
        if self.covers(lookup.at, lookup.word)? {
            return Ok(Fate::Ended(End::Delivered));
        }
        let file = file::write(&self.table.with_only(*lookup));
        let reply = self.driver.step([FORWARD, 0, 0], &file)?;
        match reply.number {
            0 => fate(&file::known(&reply.file)?, reply.via),
            2 => Ok(Fate::Ended(End::NotReady)),
            number => Err(Trouble::refused(number)),
        }
    }
}

/// What became of the only message, a lookup that was sent on.
fn fate(after: &Table, via: Option<Via>) -> Result<Fate, Trouble> {
    match (after.messages.first(), via) {
        (Some(message), Some(via)) if message.kind == Message::LOOKUP => Ok(Fate::Routed(message.at, via)),
        (Some(message), None) if message.kind == Message::NO_LEGAL_ROUTE => {
            Ok(Fate::Ended(End::NoLegalRoute))
        }
        _ => Err(Trouble::Failed("a lookup that was sent on is neither routed nor lost".to_string())),
    }
}

/// The keys that no arc holds, and those that two or more hold, as arcs, rising.
pub fn unshared(arcs: &[Option<Arc>], last: u32) -> (Vec<Arc>, Vec<Arc>) {
    let arcs: Vec<Arc> = arcs.iter().flatten().copied().collect();
    let mut bounds: Vec<u32> = vec![0];
    bounds.extend(arcs.iter().flat_map(|arc| [arc.from, arc.to.wrapping_add(1) & last]));
    bounds.sort_unstable();
    bounds.dedup();
    let holds = |key: u32| {
        let within = |arc: &&Arc| key.wrapping_sub(arc.from) & last <= arc.to.wrapping_sub(arc.from) & last;
        arcs.iter().filter(within).count().min(2)
    };
    let mut found: [Vec<Arc>; 3] = Default::default();
    let ends = bounds.iter().skip(1).map(|bound| bound - 1).chain([last]);
    for (from, to) in bounds.iter().copied().zip(ends) {
        let list = &mut found[holds(from)];
        match list.last_mut() {
            Some(arc) if from > 0 && arc.to == from - 1 => arc.to = to,
            _ => list.push(Arc { from, to }),
        }
    }
    let [none, _, several] = found;
    (none, several)
}

#[cfg(test)]
mod tests {
    use super::*;

    #[test]
    fn keys_of_nobody_and_of_two() {
        let arc = |from, to| Some(Arc { from, to });
        let worked = [arc(185, 17), arc(18, 41), arc(42, 80), arc(81, 184), None];
        assert_eq!(unshared(&worked, 255), (vec![], vec![]));
        let (none, two) = unshared(&[arc(200, 17), arc(18, 50), arc(42, 80)], 255);
        assert_eq!((none, two), (vec![Arc { from: 81, to: 199 }], vec![Arc { from: 42, to: 50 }]));
        assert_eq!(unshared(&[None], 255).0, [Arc { from: 0, to: 255 }]);
        assert_eq!(unshared(&[arc(18, 17), arc(66, 65)], 255).1, [Arc { from: 0, to: 255 }]);
    }
}
