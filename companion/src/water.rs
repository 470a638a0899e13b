//! `water`: records from CSV, placed by the proved code, and a store that keeps them between runs.

use crate::args::Given;
use crate::csv;
use crate::desk::Desk;
use crate::driver::Placed;
use crate::file;
use crate::files;
use crate::store::{Held, Store};
use crate::table::{Names, Table};
use crate::trouble::{Refusal, Trouble};
use std::ffi::OsStr;
use std::path::Path;

/// The most of rain, evapotranspiration and runoff, in tenths of a millimetre.
const MOST: u64 = 100_000;

pub fn water(desk: &mut Desk, given: &Given) -> Result<(), Trouble> {
    let path = given.value("--store");
    let mut store = match path {
        Some(path) if Path::new(path).exists() => Store::read(path, &files::read(path)?)?,
        _ => Store::default(),
    };
    refill(desk, &mut store, path)?;
    let text = match given.words.as_slice() {
        [] if path.is_some_and(|path| Path::new(path).exists()) => held(&store),
        [table, records] => place(desk, &mut store, table, records)?,
        _ => {
            return Err(given.misuse("TABLE and RECORDS are expected, or --store with a store that is there"))
        }
    };
    let (count, sum) = desk.driver()?.sum()?;
    if let (Some(path), false) = (path, given.words.is_empty()) {
        files::write(path, store.text().as_bytes())?;
    }
    let total = format!("sum {sum:+} of {count} record{}\n", if count == 1 { "" } else { "s" });
    files::print((text + &total).as_bytes())
}

/// Places what is held again, each record on the table that it was placed on, and holds it to what was said then.
fn refill(desk: &mut Desk, store: &mut Store, path: Option<&OsStr>) -> Result<(), Trouble> {
    for Held { record, table, placed } in &store.held {
        let again = desk.driver()?.place_record(*record, &store.tables[*table])?;
        if again != *placed {
            let name = files::name(path.unwrap_or_default());
            let [key, month, ..] = record;
            return Err(Trouble::No(format!("{name}: key {key} month {month} is not where the store says")));
        }
    }
    Ok(())
}

fn held(store: &Store) -> String {
    let told = |held: &Held| {
        let table = file::read(&store.tables[held.table]).unwrap_or_default();
        told(&held.record, &held.placed, &table)
    };
    store.held.iter().map(told).collect()
}

/// Places the records of a file, all or none of them.
fn place(desk: &mut Desk, store: &mut Store, table: &OsStr, records: &OsStr) -> Result<String, Trouble> {
    let name = files::name(records);
    let table = desk.table(table)?;
    let bytes = file::write(&table);
    let rows = csv::records(&files::text(records, &files::read(records)?)?);
    let rows = rows.map_err(|fault| Trouble::Bad(name.clone(), fault))?;
    let mut text = String::new();
    for (line, record) in rows {
        let placed = desk.driver()?.place_record(record, &bytes);
        let of = format!("{name}:{line}");
        let placed = placed.map_err(|trouble| trouble.of(&of, |number| reason(number, record, &table)))?;
        text += &told(&record, &placed, &table);
        store.put(record, &bytes, placed);
    }
    Ok(text)
}

fn told(record: &[u64; 5], placed: &Placed, table: &Table) -> String {
    let names = Names::new(table.ids());
    let copies = match placed.copies {
        0 => "no copies".to_string(),
        copies => format!("copies {}", names.all(copies)),
    };
    let [key, month, ..] = record;
    format!("key {key} month {month}: change {:+} at {}, {copies}\n", placed.change, names.of(placed.holder))
}

/// Why a record is refused.
fn reason(number: u32, record: [u64; 5], table: &Table) -> String {
    let [key, month, rain, evapotranspiration, runoff] = record;
    let last = crate::rules::Rules(table).last().into();
    let limits = [
        ("key", key, 0, last),
        ("month", month, 1, 12),
        ("rain", rain, 0, MOST),
        ("evapotranspiration", evapotranspiration, 0, MOST),
        ("runoff", runoff, 0, MOST),
    ];
    let told = |(name, is, least, most): &(&str, u64, u64, u64)| match *is {
        u64::MAX => format!("{name} is out of range; it is {least} to {most}"),
        is => format!("{name} {is} is out of range; it is {least} to {most}"),
    };
    match number {
        14 => {
            limits.iter().find(|(_, is, least, most)| is < least || is > most).map(told).unwrap_or_default()
        }
        15 => crate::why::Why::new(table).not_settled().join("\n   "),
        16 => "512 records are held, none of this key and month".to_string(),
        _ => Refusal::default().reason,
    }
}
