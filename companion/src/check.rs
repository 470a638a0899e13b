//! `check`: a contractor's rehearsal, judged by the proved checker, with what is wrong where it is bad.
//!
//! A rehearsal is a text: `from FILE`, then a line `ACTION => FILE` for each step, with the table file that is said to result. Files
//! are looked for beside the text.

use crate::args::Given;
use crate::change;
use crate::desk::Desk;
use crate::driver::{ActionWords, Verdict};
use crate::faults;
use crate::file;
use crate::files;
use crate::plan::{self, Ask};
use crate::table::{Names, Table};
use crate::trouble::{Fault, Refusal, Trouble};
use crate::turn;
use crate::why::Why;
use crate::words::{lines, Line};
use std::ffi::{OsStr, OsString};
use std::path::Path;

/// A step as it is claimed: the action in words, and the file that is said to result.
struct Claim<'a> {
    words: Line<'a>,
    stated: OsString,
}

pub fn check(desk: &mut Desk, given: &Given) -> Result<(), Trouble> {
    let [path] = given.exactly(["REHEARSAL"])?;
    let text = files::text(path, &files::read(path)?)?;
    let bad = |fault: Fault| Trouble::Bad(files::name(path), fault);
    let (start, claims) = claims(&text, path).map_err(bad)?;
    let mut good = desk.bytes(&start)?;
    if desk.driver()?.begin_rehearsal(&good)? != Verdict::Accepted {
        let number = desk.driver()?.load(&good)?.number;
        let refusal = Refusal { number, of: files::name(&start), reason: faults::of_file(&good, number) };
        return Err(Trouble::No(format!("bad start\n   {refusal}")));
    }
    let names = Names::new(file::known(&good)?.ids());
    let steps =
        claims.into_iter().map(|claim| step(claim, &names)).collect::<Result<Vec<_>, _>>().map_err(bad)?;
    let mut warnings = String::new();
    for (nth, (said, action, path)) in steps.iter().enumerate() {
        let stated = desk.bytes(path)?;
        let verdict = desk.driver()?.next_of_rehearsal(*action, &stated);
        let reason = |_| format!("step {} is one too many; 1,000 are looked at", nth + 1);
        if let Verdict::Bad(number) = verdict.map_err(|trouble| trouble.of(said, reason))? {
            let what = what_is_wrong(desk, &good, *action, &stated, path)?;
            return Err(Trouble::No(format!("bad step {number}: {said}\n   {what}")));
        }
        if let Some(warning) = turn::warning(*action, &file::known(&good)?) {
            warnings += &format!("   warning: step {}, {said}: {warning}\n", nth + 1);
        }
        good = stated;
    }
    let count = steps.len();
    let plural = if count == 1 { "" } else { "s" };
    files::print(format!("accepted, {count} step{plural}\n{warnings}").as_bytes())
}

/// The file to start with, and the claims.
fn claims<'a>(text: &'a str, path: &OsStr) -> Result<(OsString, Vec<Claim<'a>>), Fault> {
    let mut lines = lines(text).into_iter();
    let Some(mut first) = lines.next() else {
        return Err(Line::new(1, vec![]).fault("a rehearsal begins with `from` and the name of a table"));
    };
    first.take_exactly("from")?;
    let start = beside(path, first.take("the name of a table")?);
    first.end()?;
    let claim = |mut line: Line<'a>| {
        let words = line.until("=>")?;
        let stated = beside(path, line.take("the name of the table that results")?);
        line.end()?;
        Ok(Claim { words, stated })
    };
    Ok((start, lines.map(claim).collect::<Result<_, _>>()?))
}

/// A name, looked for in the folder of the rehearsal.
fn beside(path: &OsStr, name: &str) -> OsString {
    let folder = Path::new(path).parent().filter(|_| path != "-").unwrap_or(Path::new(""));
    folder.join(name).into_os_string()
}

fn step(claim: Claim, names: &Names) -> Result<(String, ActionWords, OsString), Fault> {
    let fault = claim.words.fault("one action is expected");
    let asked = plan::asked(claim.words, names)?;
    match asked.ask {
        Ask::Step(action) => Ok((asked.words, action, claim.stated)),
        _ => Err(fault),
    }
}

/// The refusal of a bad step, or how the stated table differs from the one that results.
fn what_is_wrong(
    desk: &mut Desk,
    good: &[u8],
    action: ActionWords,
    stated: &[u8],
    path: &OsStr,
) -> Result<String, Trouble> {
    let name = files::name(path);
    let reply = desk.driver()?.step(action, good)?;
    if reply.number != 0 {
        let reason = Why::new(&file::known(good)?).refused(action, reply.number);
        return Ok(Refusal { number: reply.number, of: String::new(), reason }.to_string());
    }
    let result = file::known(&reply.file)?;
    let load = desk.driver()?.load(stated)?;
    if load.number != 0 {
        let reason = faults::of_file(stated, load.number);
        return Ok(format!("it is done, but {}", Refusal { number: load.number, of: name, reason }));
    }
    let said: Table = file::known(&load.result)?;
    let lines = change::between(&result, &said);
    Ok(format!("it is done, but gives another table than {name}, in which:\n   {}", lines.join("\n   ")))
}

#[cfg(test)]
mod tests {
    use super::*;

    #[test]
    fn a_rehearsal_is_read() {
        let text = "\u{23} ours\nfrom a.table\nlookup 80 at 17 => b.table # first\r\n";
        let (start, claims) = claims(text, OsStr::new("folder/plan")).unwrap();
        assert_eq!(start, "folder/a.table");
        assert_eq!(claims[0].stated, "folder/b.table");
        let names = Names::new(vec![17]);
        let step = step(claims.into_iter().next().unwrap(), &names).unwrap();
        assert_eq!((step.0.as_str(), step.1), ("lookup 80 at 17", [1, 0, 80]));
    }

    #[test]
    fn a_bad_line_is_named() {
        let said = |text| {
            claims(text, OsStr::new("-")).map(|_| ()).map_err(|fault| (fault.line, fault.word)).unwrap_err()
        };
        assert_eq!(said(""), (1, "(nothing)".to_string()));
        assert_eq!(said("form a"), (1, "form".to_string()));
        assert_eq!(said("from a\ntake 0 = b"), (2, "b".to_string()));
        assert_eq!(said("from a\ntake 0 =>"), (2, "=>".to_string()));
    }
}
