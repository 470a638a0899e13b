//! Water records as comma-separated values: key, month, rain, evapotranspiration, runoff, the last three in tenths of a
//! millimetre. A first line may name the columns, then in any order. Semicolons and tabs separate too, and quotes are left out.

use crate::trouble::Fault;
use crate::words::number;

const COLUMNS: [&str; 5] = ["key", "month", "rain", "evapotranspiration", "runoff"];

/// The records, each with its line.
pub fn records(text: &str) -> Result<Vec<(usize, [u64; 5])>, Fault> {
    let lines = text
        .lines()
        .zip(1..)
        .filter(|(line, _)| !line.trim().is_empty() && !line.trim_start().starts_with('#'));
    let mut lines = lines.map(|(line, nth)| (nth, cells(line))).peekable();
    let mut order = [0, 1, 2, 3, 4];
    if let Some((nth, names)) =
        lines.next_if(|(_, cells)| cells[0].starts_with(|first: char| first.is_alphabetic()))
    {
        order = columns(nth, &names)?;
    }
    lines.map(|(nth, cells)| record(nth, &cells, order).map(|record| (nth, record))).collect()
}

fn cells(line: &str) -> Vec<&str> {
    line.split([',', ';', '\t']).map(|cell| cell.trim().trim_matches('"').trim()).collect()
}

/// Where each column stands.
fn columns(line: usize, names: &[&str]) -> Result<[usize; 5], Fault> {
    let fault = |word: &str, what: String| Fault { line, word: word.to_string(), what };
    if let Some(strange) = names.iter().find(|name| !COLUMNS.contains(&name.to_lowercase().as_str())) {
        return Err(fault(strange, format!("no column; they are {}", COLUMNS.join(", "))));
    }
    let mut order = [0; 5];
    for (column, place) in COLUMNS.iter().zip(&mut order) {
        let mut at = names.iter().zip(0..).filter(|(name, _)| name.to_lowercase() == *column);
        let missing = || fault(names[0], format!("no column {column} on this line"));
        *place = at.next().ok_or_else(missing)?.1;
        if at.next().is_some() {
            return Err(fault(column, "named twice".to_string()));
        }
    }
    Ok(order)
}

fn record(line: usize, cells: &[&str], order: [usize; 5]) -> Result<[u64; 5], Fault> {
    let fault = |word: &str, what: &str| Fault { line, word: word.to_string(), what: what.to_string() };
    if cells.len() != order.len() {
        let what = format!("a record has 5 numbers, this line {}", cells.len());
        return Err(fault(cells[cells.len() - 1], &what));
    }
    let mut record = [0; 5];
    for (place, at) in record.iter_mut().zip(order) {
        *place = value(cells[at]).ok_or_else(|| fault(cells[at], "a whole number is expected"))?;
    }
    Ok(record)
}

/// A number in decimal digits; the greatest of 64 bits, which is out of every range, for a negative one or a greater one.
fn value(cell: &str) -> Option<u64> {
    let digits = cell.strip_prefix('-').unwrap_or(cell);
    if digits.is_empty() || !digits.bytes().all(|byte| byte.is_ascii_digit()) {
        return None;
    }
    let negative = cell.starts_with('-') && digits.bytes().any(|byte| byte != b'0');
    Some(if negative { u64::MAX } else { number(digits, u64::MAX).unwrap_or(u64::MAX) })
}

#[cfg(test)]
mod tests {
    use super::*;

    #[test]
    fn records_are_read() {
        let plain = "20,5,300,120,68\r\n\n# spring\n200;5;0;90;10\n";
        assert_eq!(records(plain).unwrap(), [(1, [20, 5, 300, 120, 68]), (4, [200, 5, 0, 90, 10])]);
        let named = "Month,key,runoff,rain,evapotranspiration\n\"5\",20,68,300,120\n";
        assert_eq!(records(named).unwrap(), [(2, [20, 5, 300, 120, 68])]);
        assert_eq!(records("1,2,3,4,-5").unwrap()[0].1[4], u64::MAX);
        assert_eq!(records("1,2,3,4,99999999999999999999").unwrap()[0].1[4], u64::MAX);
    }

    #[test]
    fn a_bad_cell_is_named() {
        let said = |text| records(text).map_err(|fault| (fault.line, fault.word)).unwrap_err();
        assert_eq!(said("20,5,300,120,68\n20,5,3x,1,2"), (2, "3x".to_string()));
        assert_eq!(said("20,5,300,120"), (1, "120".to_string()));
        assert_eq!(said("key,month,rain,snow,runoff"), (1, "snow".to_string()));
        assert_eq!(said("key,month,rain,runoff"), (1, "key".to_string()));
        assert_eq!(said("key,key,month,rain,evapotranspiration,runoff"), (1, "key".to_string()));
    }
}
