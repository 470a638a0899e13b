//! Plans: actions in turn, one a line, and what else may stand between them.

use crate::action::{self, ROWS};
use crate::driver::ActionWords;
use crate::table::Names;
use crate::trouble::Fault;
use crate::words::{lines, Line};

/// What a line of a plan asks for.
#[derive(Debug, PartialEq, Eq)]
pub enum Ask {
    Step(ActionWords),
    /// The action, then what is needed until the node of its first word is ready.
    UntilReady(ActionWords),
    Drain,
    Settled,
    List,
}

/// A line as it was written, and what it asks for.
#[derive(Debug, PartialEq, Eq)]
pub struct Asked {
    pub words: String,
    pub ask: Ask,
}

/// What stands for itself: the word, and what it asks for.
const OTHERS: [(&str, Ask); 3] = [("drain", Ask::Drain), ("settled", Ask::Settled), ("list", Ask::List)];

const JOIN: u64 = 2;

/// The plan of a text, a line each.
pub fn plan(text: &str, names: &Names) -> Result<Vec<Asked>, Fault> {
    lines(text).into_iter().map(|line| asked(line, names)).collect()
}

/// Whether a plan in words begins with this one.
pub fn begins(word: &str) -> bool {
    action::begins(word) || OTHERS.iter().any(|(other, _)| *other == word)
}

/// Takes what a line asks for, to its end.
pub fn asked(mut line: Line, names: &Names) -> Result<Asked, Fault> {
    let ask = ask(&mut line, names)?;
    line.end()?;
    Ok(Asked { words: line.text(), ask })
}

fn ask(line: &mut Line, names: &Names) -> Result<Ask, Fault> {
    let first = line.peek().unwrap_or_default();
    if let Some((_, ask)) = OTHERS.into_iter().find(|(other, _)| *other == first) {
        line.take("an action")?;
        return Ok(ask);
    }
    if !begins(first) {
        line.take("an action")?;
        return Err(line.fault(&no_action()));
    }
    let words = action::action(line, names)?;
    if words[0] == JOIN && line.peek() == Some("until") {
        line.take_exactly("until")?;
        line.take_exactly("ready")?;
        return Ok(Ask::UntilReady(words));
    }
    Ok(Ask::Step(words))
}

fn no_action() -> String {
    let rows = ROWS.iter().map(|row| action::opening(row).join(" "));
    let all: Vec<String> = rows.chain(OTHERS.iter().map(|(word, _)| word.to_string())).collect();
    let (last, rest) = all.split_last().map_or(("", &[][..]), |(last, rest)| (last.as_str(), rest));
    format!("no action; it is {} or {last}", rest.join(", "))
}

/// The forms of a plan's lines, for help.
pub fn forms() -> Vec<(String, String)> {
    let rows = ROWS.iter().map(|row| (row.form.to_string(), row.says.to_string()));
    let more = [
        ("join NODE at SEED until ready", "the join, and what is needed until NODE is ready"),
        ("drain", "the oldest message whose step is done, until none is"),
        ("settled", "says whether the table is settled, and if not, why"),
        ("list", "the listing, with the path of each lookup"),
    ];
    rows.chain(more.map(|(form, says)| (form.to_string(), says.to_string()))).collect()
}

#[cfg(test)]
mod tests {
    use super::*;

    fn names() -> Names {
        Names::new(vec![17, 18, 65, 95])
    }

    #[test]
    fn a_plan_is_read() {
        let asked = plan(
            "# first\njoin 17 at 18 until ready\r\n\ndrain # all\ntake 0\nlookup 80 at slot 9",
            &names(),
        )
        .unwrap();
        let asks: Vec<&Ask> = asked.iter().map(|asked| &asked.ask).collect();
        let wanted = [Ask::UntilReady([2, 0, 1]), Ask::Drain, Ask::Step([6, 0, 0]), Ask::Step([1, 9, 80])];
        assert_eq!(asks, wanted.iter().collect::<Vec<_>>());
        assert_eq!(asked[1].words, "drain");
    }

    #[test]
    fn a_bad_word_is_named() {
        let fault =
            |text| plan(text, &names()).map(|_| ()).map_err(|fault| (fault.line, fault.word)).unwrap_err();
        assert_eq!(fault("jion 17 at 18"), (1, "jion".to_string()));
        assert_eq!(fault("drain\njoin 17 at 19"), (2, "19".to_string()));
        assert_eq!(fault("take 1_7"), (1, "1_7".to_string()));
        assert_eq!(fault("take １７"), (1, "１７".to_string()));
        assert_eq!(fault("drain now"), (1, "now".to_string()));
        assert_eq!(fault("request leave 17"), (1, "leave".to_string()));
    }
}
