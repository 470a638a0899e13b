//! The listing of the proved code, with the path of each lookup as text.

use crate::driver::Driver;
use crate::file;
use crate::survey::{End, Journey, Survey};
use crate::table::{Names, Table};
use crate::trouble::Trouble;

/// The listing with a last column, the path. It is the listing's own: the same lookups, ends and routings.
pub fn listing(driver: &mut Driver, table: &Table) -> Result<String, Trouble> {
    let said = driver.listing(&file::write(table))?;
    let journeys = Survey::new(driver).journeys(table)?;
    let names = Names::new(table.ids());
    let mut lines = said.lines();
    let mut text = format!("{} path\n", lines.next().unwrap_or_default());
    let lines: Vec<&str> = lines.collect();
    if lines.len() != journeys.len() {
        return Err(differs(&said));
    }
    for (line, journey) in lines.iter().zip(&journeys) {
        if **line != fields(journey, &names) {
            return Err(differs(line));
        }
        text += &format!("{line} {}\n", path(journey, table, &names));
    }
    Ok(text)
}

fn differs(line: &str) -> Trouble {
    Trouble::Failed(format!("the path of a lookup is not that of the listing: {line}"))
}

/// The listing's line.
fn fields(journey: &Journey, names: &Names) -> String {
    let [first, last] = [journey.path.first(), journey.path.last()].map(|slot| names.of(*slot.unwrap_or(&0)));
    let to = if journey.end == End::Delivered { &last } else { "-" };
    format!("{} {first} {to} {} {}", journey.key, journey.path.len() - 1, via(journey))
}

/// A letter for each routing, `-` where there is none.
pub fn via(journey: &Journey) -> String {
    match journey.via.as_slice() {
        [] => "-".to_string(),
        via => via.iter().map(|via| via.letter()).collect(),
    }
}

/// `17>95>65`, and why it is delivered nowhere.
pub fn path(journey: &Journey, table: &Table, names: &Names) -> String {
    let path: Vec<String> = journey.path.iter().map(|slot| names.of(*slot)).collect();
    let last = journey.path.last().copied().unwrap_or(0);
    let why = match journey.end {
        End::Delivered => String::new(),
        End::NoLegalRoute => " (no legal route)".to_string(),
        End::NotReady => format!(" ({} is {})", names.of(last), table.nodes[last as usize].status_word()),
    };
    path.join(">") + &why
}
