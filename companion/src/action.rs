//! The actions of the bench, one row each, in words with nodes by id.

use crate::driver::ActionWords;
use crate::parse::node;
use crate::table::Names;
use crate::trouble::Fault;
use crate::words::Line;

/// One action: its number at the driver; how it is written, where capitals are arguments; the arguments as the driver's two
/// words; and what it says, in a sentence with the same capitals.
pub struct Row {
    pub number: u64,
    pub form: &'static str,
    pub words: &'static [&'static str],
    pub says: &'static str,
}

/// Every action that the proved code knows. KEY, PLACE: numbers; all other capitals: nodes.
pub const ROWS: &[Row] = &[
    Row {
        number: 1,
        form: "lookup KEY at NODE",
        words: &["NODE", "KEY"],
        says: "a lookup of KEY begins at NODE",
    },
    Row {
        number: 2,
        form: "join NODE at SEED",
        words: &["NODE", "SEED"],
        says: "NODE asks SEED to be let in",
    },
    Row {
        number: 3,
        form: "request lease NODE",
        words: &["NODE"],
        says: "NODE asks its neighbours for a lease",
    },
    Row {
        number: 4,
        form: "lease expired NODE PARTNER",
        words: &["NODE", "PARTNER"],
        says: "the lease that NODE holds of PARTNER ends",
    },
    Row {
        number: 5,
        form: "grant expired NODE PARTNER",
        words: &["NODE", "PARTNER"],
        says: "the grant that NODE gave PARTNER ends",
    },
    Row {
        number: 6,
        form: "take PLACE",
        words: &["PLACE"],
        says: "the message at place PLACE is taken, unless it is a lookup",
    },
    Row {
        number: DELIVER,
        form: "deliver PLACE",
        words: &["PLACE"],
        says: "the lookup at place PLACE is delivered where it waits",
    },
    Row {
        number: FORWARD,
        form: "forward PLACE",
        words: &["PLACE"],
        says: "the lookup at place PLACE is sent on",
    },
    Row {
        number: 9,
        form: "node left NODE",
        words: &["NODE"],
        says: "NODE is switched off and forgets everything",
    },
    Row {
        number: 10,
        form: "suspect faulty NODE PARTNER",
        words: &["NODE", "PARTNER"],
        says: "NODE suspects PARTNER and probes it",
    },
    Row {
        number: 11,
        form: "probe time out NODE PARTNER",
        words: &["NODE", "PARTNER"],
        says: "NODE has waited long enough for PARTNER and holds it for failed",
    },
    Row {
        number: 12,
        form: "declare dead NODE PARTNER",
        words: &["NODE", "PARTNER"],
        says: "NODE declares PARTNER dead and lets it go",
    },
    Row {
        number: 13,
        form: "ls repair NODE",
        words: &["NODE"],
        says: "NODE probes the far ends of its leaf set to fill it",
    },
    Row {
        number: 14,
        form: "resign node NODE at SEED",
        words: &["NODE", "SEED"],
        says: "NODE gives its sets up and asks SEED to be let in again",
    },
    Row {
        number: 15,
        form: "recover NODE",
        words: &["NODE"],
        says: "NODE probes the far end of the one side that it has",
    },
];

/// The two that handle a lookup: at a ready node one of them is done.
pub const DELIVER: u64 = 7;
pub const FORWARD: u64 = 8;

/// The words of a form.
fn form(row: &Row) -> impl Iterator<Item = &'static str> {
    row.form.split(' ')
}

fn is_argument(word: &str) -> bool {
    word.starts_with(|first: char| first.is_ascii_uppercase())
}

/// The words of a form before its first argument.
pub fn opening(row: &Row) -> Vec<&'static str> {
    form(row).take_while(|word| !is_argument(word)).collect()
}

/// The actions that handle a waiting message.
pub fn on_messages() -> impl Iterator<Item = &'static Row> {
    ROWS.iter().filter(|row| row.words == ["PLACE"])
}

pub fn row(number: u64) -> Option<&'static Row> {
    ROWS.iter().find(|row| row.number == number)
}

/// Whether an action begins with this word.
pub fn begins(word: &str) -> bool {
    ROWS.iter().any(|row| form(row).next() == Some(word))
}

/// Takes an action from a line, whose next word begins one.
pub fn action(line: &mut Line, names: &Names) -> Result<ActionWords, Fault> {
    let first = line.peek().unwrap_or_default();
    let all = |row: &&Row| opening(row).iter().zip(line.rest()).all(|(wanted, word)| wanted == word);
    let same = |row: &&Row| form(row).next() == Some(first);
    let Some(row) = ROWS.iter().filter(same).find(all).or_else(|| ROWS.iter().find(same)) else {
        line.take("an action")?;
        return Err(line.fault("no action begins so"));
    };
    let mut words = [row.number, 0, 0];
    for wanted in form(row) {
        if !is_argument(wanted) {
            line.take_exactly(wanted)?;
            continue;
        }
        let value = match wanted {
            "KEY" => line.take_number("a key", u64::MAX)?,
            "PLACE" => line.take_number("a place", u64::MAX)?,
            _ => u64::from(node(line, names)?),
        };
        if let Some(at) = row.words.iter().position(|word| *word == wanted) {
            words[1 + at] = value;
        }
    }
    Ok(words)
}

/// A form or a sentence of an action with its arguments filled in.
pub fn fill(text: &str, action: ActionWords, names: &Names) -> String {
    let Some(row) = row(action[0]) else {
        return format!("action {}", action[0]);
    };
    let told = |word: &str| match row.words.iter().position(|name| *name == word) {
        Some(at) if word == "KEY" || word == "PLACE" => action[1 + at].to_string(),
        Some(at) => names.of(u32::try_from(action[1 + at]).unwrap_or(u32::MAX)),
        None => word.to_string(),
    };
    text.split(' ').map(told).collect::<Vec<_>>().join(" ")
}

/// An action as it is written.
pub fn written(action: ActionWords, names: &Names) -> String {
    fill(row(action[0]).map_or("", |row| row.form), action, names)
}

#[cfg(test)]
mod tests {
    use super::*;
    use crate::words::lines;

    #[test]
    fn every_row_is_read_as_it_is_written() {
        let names = Names::new(vec![17, 18, 65]);
        for row in ROWS {
            let words: ActionWords = [row.number, 2, if row.words.len() > 1 { 1 } else { 0 }];
            let text = written(words, &names);
            let mut line = lines(&text).remove(0);
            assert_eq!(action(&mut line, &names), Ok(words), "{text}");
            assert!(line.end().is_ok());
            let used = |text: &str| row.words.iter().all(|word| text.split(' ').any(|other| other == *word));
            assert!(used(row.form) && used(row.says), "{}", row.form);
        }
    }

    #[test]
    fn numbers_rise() {
        assert!(ROWS.windows(2).all(|pair| pair[0].number < pair[1].number));
    }
}
