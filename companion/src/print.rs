//! A table as text, in the one way that the companion writes it.

use crate::form::{Field, Form, RECORD};
use crate::table::{Message, Names, Node, Table};

pub fn table(table: &Table) -> String {
    let names = Names::new(table.ids());
    let mut text = format!("ring M={} L={}\n", table.m, table.l);
    for part in table.nodes.iter().map(|node| self::node(node, &names)) {
        text += "\n";
        text += &part;
    }
    if !table.messages.is_empty() {
        text += "\n";
    }
    for message in &table.messages {
        text += &self::message(message, &names);
        text += "\n";
    }
    text
}

fn node(node: &Node, names: &Names) -> String {
    let mut text = format!("node {} {}\n", node.id, node.status_word());
    for (name, set) in Node::SETS.iter().zip(node.sets) {
        if set != 0 {
            text += &format!("  {name} {}\n", names.all(set));
        }
    }
    text
}

pub fn message(message: &Message, names: &Names) -> String {
    let form = Form::of(message);
    let mut text = form.name.to_string();
    if form.name == RECORD.name {
        text += &format!(" {}", message.kind);
    }
    for field in form.fields {
        if let Some(value) = value(*field, form, message, names) {
            for word in [field.keyword(), &value].iter().filter(|word| !word.is_empty()) {
                text += &format!(" {word}");
            }
        }
    }
    text
}

/// What follows the field's word, or nothing where the field is left out.
fn value(field: Field, form: &Form, message: &Message, names: &Names) -> Option<String> {
    let unless_zero = |number: u32| (number != 0).then(|| number.to_string());
    match field {
        Field::Key => Some(message.word.to_string()),
        Field::From | Field::FromOwner => Some(names.of(message.word)),
        Field::Owner => (form.needs(field) || message.owner != 0).then(|| names.of(message.owner)),
        Field::At => Some(names.of(message.at)),
        Field::Granted => (message.flag == 1).then(String::new),
        Field::Set(place) => Some(message.sets[place]).filter(|set| *set != 0).map(|set| names.all(set)),
        Field::Word => unless_zero(message.word),
        Field::Flag => unless_zero(message.flag),
        Field::Hops => unless_zero(message.hops),
    }
}
