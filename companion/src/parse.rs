//! Text as a table or a start.

use crate::driver::Start;
use crate::form::{Field, Form, RECORD};
use crate::table::{Message, Names, Node, Table};
use crate::trouble::Fault;
use crate::words::{lines, number, Line};

/// What a text describes.
#[derive(Debug, PartialEq, Eq)]
pub enum Text {
    Table(Table),
    Start(Start),
}

pub fn text(text: &str) -> Result<Text, Fault> {
    let mut lines = lines(text);
    let Some((first, rest)) = lines.split_first_mut() else {
        return Err(Line::new(1, vec![]).fault("a text begins with `ring` or `start`"));
    };
    match first.take("`ring` or `start`")? {
        "ring" => table(first, rest).map(Text::Table),
        "start" => {
            let made = start(first)?;
            nothing_more(rest)?;
            Ok(Text::Start(made))
        }
        _ => Err(first.fault("a text begins with `ring` or `start`")),
    }
}

fn nothing_more(rest: &mut [Line]) -> Result<(), Fault> {
    match rest.first_mut() {
        None => Ok(()),
        Some(line) => {
            line.take("a word")?;
            Err(line.fault("a start is one line and stands alone"))
        }
    }
}

/// The words after `start` or `new`: M, L, the ready nodes, and the others: `dead` with those that are not ready, in any
/// order, or `ids` with all, in slot order.
pub fn start(line: &mut Line) -> Result<Start, Fault> {
    let m = line.take_setting("M", u64::MAX)?;
    let l = line.take_setting("L", u64::MAX)?;
    line.take_exactly("ready")?;
    if line.rest().contains(&"ids") {
        return in_slots(line, m, l);
    }
    let ready = ids(line)?;
    let mut all = ready.clone();
    if line.peek().is_some() {
        line.take_exactly("dead")?;
        all.extend(ids(line)?);
        line.end()?;
    }
    all.sort_unstable();
    let marks = all.iter().zip(0..).filter(|(id, _)| ready.contains(id)).map(|(_, slot)| slot);
    let ready = marks.fold(0, |set, slot| set | 1u64.checked_shl(slot).unwrap_or(0));
    Ok(Start { m, l, ready, ids: all })
}

fn in_slots(line: &mut Line, m: u64, l: u64) -> Result<Start, Fault> {
    let mut rest = line.clone();
    while rest.peek().is_some_and(|word| word != "ids") {
        rest.take("`ids`")?;
    }
    rest.take_exactly("ids")?;
    let listed = ids(&mut rest)?;
    rest.end()?;
    let ready = set(line, &Names::new(listed.clone()))?;
    line.take_exactly("ids")?;
    Ok(Start { m, l, ready, ids: listed })
}

/// Ids, as far as words begin with a digit.
fn ids(line: &mut Line) -> Result<Vec<u32>, Fault> {
    let mut ids = Vec::new();
    while line.peek().is_some_and(|word| word != "dead") {
        ids.push(line.take_u32("an id")?);
    }
    Ok(ids)
}

/// A node that is listed.
pub fn listed(line: &mut Line, names: &Names) -> Result<u32, Fault> {
    let slot = node(line, names)?;
    if slot as usize >= names.count() {
        return Err(line.fault("no such slot"));
    }
    Ok(slot)
}

/// A node: its id, or `slot` and its slot.
pub fn node(line: &mut Line, names: &Names) -> Result<u32, Fault> {
    if line.peek() == Some("slot") {
        line.take("`slot`")?;
        return line.take_u32("a slot");
    }
    let id = line.take_u32("a node's id")?;
    names.slot(id).map_err(|what| line.fault(what))
}

fn table(first: &mut Line, rest: &mut [Line]) -> Result<Table, Fault> {
    let m = first.take_setting("M", u32::MAX.into())? as u32;
    let l = first.take_setting("L", u32::MAX.into())? as u32;
    first.end()?;
    let names = Names::new(ids_of(rest)?);
    let mut reader = Reader { names, table: Table { m, l, ..Table::default() }, given: vec![] };
    rest.iter_mut().try_for_each(|line| reader.line(line))?;
    Ok(reader.table)
}

/// The ids of all nodes, which sets may name before their node's line.
fn ids_of(lines: &[Line]) -> Result<Vec<u32>, Fault> {
    let nodes = lines.iter().filter(|line| line.peek() == Some("node"));
    let id = |line: &Line| {
        let mut line = line.clone();
        line.take_exactly("node")?;
        line.take_u32("an id")
    };
    nodes.map(id).collect()
}

struct Reader<'a> {
    names: Names,
    table: Table,
    /// The sets that the last node has been given.
    given: Vec<&'a str>,
}

impl<'a> Reader<'a> {
    fn line(&mut self, line: &mut Line<'a>) -> Result<(), Fault> {
        let word = line.peek().unwrap_or_default();
        if word == "node" {
            self.node(line)?;
        }
        if word == "node" || Node::SETS.contains(&word) {
            return self.sets(line);
        }
        self.table.messages.push(message(line, &self.names)?);
        Ok(())
    }

    fn node(&mut self, line: &mut Line) -> Result<(), Fault> {
        line.take_exactly("node")?;
        if !self.table.messages.is_empty() {
            return Err(line.fault("nodes stand before messages"));
        }
        let id = line.take_u32("an id")?;
        self.table.nodes.push(Node { id, status: status(line)?, ..Node::default() });
        self.given.clear();
        Ok(())
    }

    /// Sets of the last node, to the end of the line.
    fn sets(&mut self, line: &mut Line<'a>) -> Result<(), Fault> {
        while line.peek().is_some() {
            let name = line.take("a set")?;
            let place = Node::SETS.iter().position(|set| *set == name);
            let place = place.ok_or_else(|| {
                line.fault(&format!("no node and no set; sets are {}", Node::SETS.join(", ")))
            })?;
            let between = !self.table.messages.is_empty();
            let Some(node) = self.table.nodes.last_mut().filter(|_| !between) else {
                return Err(line.fault("a set stands after its node and before messages"));
            };
            once(&mut self.given, name, line)?;
            node.sets[place] = set(line, &self.names)?;
        }
        Ok(())
    }
}

fn status(line: &mut Line) -> Result<u32, Fault> {
    let word = line.take("a status")?;
    let status = Node::STATUSES.iter().position(|status| *status == word);
    let status =
        status.map(|number| number as u32).or_else(|| number(word, u32::MAX.into()).map(|n| n as u32));
    status.ok_or_else(|| line.fault(&format!("no status; it is {}, or a number", Node::STATUSES.join(", "))))
}

/// Nodes, as far as the line names nodes.
fn set(line: &mut Line, names: &Names) -> Result<u64, Fault> {
    let mut set = 0;
    let is_node = |word: &str| word == "slot" || word.starts_with(|first: char| first.is_ascii_digit());
    while line.peek().is_some_and(is_node) {
        let slot = node(line, names)?;
        let mark = 1u64.checked_shl(slot).ok_or_else(|| line.fault("a set holds slots 0 to 63"))?;
        if set & mark != 0 {
            return Err(line.fault("twice in this set"));
        }
        set |= mark;
    }
    Ok(set)
}

fn message(line: &mut Line, names: &Names) -> Result<Message, Fault> {
    let name = line.take("a line")?;
    let (form, kind) = match Form::named(name) {
        Some(found) => found,
        None if name == RECORD.name => (&RECORD, line.take_u32("a kind")?),
        None => return Err(line.fault("no `node`, no set of a node and no message begins so")),
    };
    let mut message = Message { kind, ..Message::default() };
    let mut given = Vec::new();
    if form.fields.contains(&Field::Key) {
        message.word = line.take_u32("a key")?;
        given.push("");
    }
    while line.peek().is_some() {
        let word = line.take("a field")?;
        let field = form.fields.iter().find(|field| field.keyword() == word);
        let field = field.ok_or_else(|| line.fault(&format!("{} has no such field here", form.name)))?;
        once(&mut given, word, line)?;
        fill(&mut message, *field, line, names)?;
    }
    let missing = |field: &&Field| form.needs(**field) && !given.contains(&field.keyword());
    match form.fields.iter().find(missing) {
        Some(field) => Err(line.fault(&format!("after this `{}` and a node are missing", field.keyword()))),
        None => Ok(message),
    }
}

fn fill(message: &mut Message, field: Field, line: &mut Line, names: &Names) -> Result<(), Fault> {
    match field {
        Field::Key => message.word = line.take_u32("a key")?,
        Field::From => message.word = node(line, names)?,
        Field::FromOwner => {
            message.word = node(line, names)?;
            message.owner = message.word;
        }
        Field::Owner => message.owner = node(line, names)?,
        Field::At => message.at = node(line, names)?,
        Field::Granted => message.flag = 1,
        Field::Set(place) => message.sets[place] = set(line, names)?,
        Field::Word => message.word = line.take_u32("a number")?,
        Field::Flag => message.flag = line.take_u32("a number")?,
        Field::Hops => message.hops = line.take_u32("a number")?,
    }
    Ok(())
}

/// Notes that a field is given, or faults where it was.
fn once<'a>(given: &mut Vec<&'a str>, name: &'a str, line: &Line) -> Result<(), Fault> {
    if given.contains(&name) {
        return Err(line.fault("given twice"));
    }
    given.push(name);
    Ok(())
}
