//! A store of water records as text: the tables on which records were placed, by their bytes, and each record held, with where it
//! went. Reading it back places every record again on its table (`water`), so that what is held is the proved code's.

use crate::driver::Placed;
use crate::files;
use crate::trouble::{Fault, Trouble};
use crate::words::{lines, Line};
use std::ffi::OsStr;

/// A record, the table that it was placed on, and where it went.
pub struct Held {
    pub record: [u64; 5],
    pub table: usize,
    pub placed: Placed,
}

#[derive(Default)]
pub struct Store {
    pub tables: Vec<Vec<u8>>,
    pub held: Vec<Held>,
}

impl Store {
    pub fn read(path: &OsStr, bytes: &[u8]) -> Result<Store, Trouble> {
        let text = files::text(path, bytes)?;
        store(&text).map_err(|fault| Trouble::Bad(files::name(path), fault))
    }

    /// Holds an accepted record; one of the same key and month goes.
    pub fn put(&mut self, record: [u64; 5], table: &[u8], placed: Placed) {
        self.held.retain(|held| held.record[..2] != record[..2]);
        let known = self.tables.iter().position(|known| known == table);
        let table = known.unwrap_or_else(|| {
            self.tables.push(table.to_vec());
            self.tables.len() - 1
        });
        self.held.push(Held { record, table, placed });
    }

    /// The store as text, with the tables that are still needed.
    pub fn text(&self) -> String {
        let used: Vec<usize> =
            (0..self.tables.len()).filter(|nth| self.held.iter().any(|held| held.table == *nth)).collect();
        let mut text = "water store\n".to_string();
        for nth in &used {
            let hex: String = self.tables[*nth].iter().map(|byte| format!("{byte:02x}")).collect();
            text += &format!("table {hex}\n");
        }
        for Held { record, table, placed } in &self.held {
            let words: Vec<String> = record.iter().map(u64::to_string).collect();
            let table = used.iter().position(|nth| nth == table).unwrap_or(0);
            let Placed { holder, copies, change } = placed;
            text += &format!(
                "record {} on {table} holder {holder} copies {copies} change {change}\n",
                words.join(" ")
            );
        }
        text
    }
}

fn store(text: &str) -> Result<Store, Fault> {
    let mut store = Store::default();
    let mut lines = lines(text).into_iter();
    let mut first = lines.next().unwrap_or_else(|| Line::new(1, vec![]));
    first.take_exactly("water")?;
    first.take_exactly("store")?;
    for mut line in lines {
        match line.take("`table` or `record`")? {
            "table" => store.tables.push(bytes(&mut line)?),
            "record" => {
                let held = held(&mut line, store.tables.len())?;
                store.held.push(held);
            }
            _ => return Err(line.fault("a store has lines `table` and `record`")),
        }
        line.end()?;
    }
    Ok(store)
}

fn bytes(line: &mut Line) -> Result<Vec<u8>, Fault> {
    let word = line.take("a table's bytes")?.as_bytes();
    let digit = |byte: u8| char::from(byte).to_digit(16).map(|digit| digit as u8);
    let pair = |pair: &[u8]| Some(digit(pair[0])? << 4 | digit(*pair.get(1)?)?);
    word.chunks(2)
        .map(pair)
        .collect::<Option<Vec<u8>>>()
        .ok_or_else(|| line.fault("no bytes in hexadecimal digits"))
}

fn held(line: &mut Line, tables: usize) -> Result<Held, Fault> {
    let mut record = [0; 5];
    for word in &mut record {
        *word = line.take_number("a number of the record", u64::MAX)?;
    }
    line.take_exactly("on")?;
    let table = line.take_number("a table", u64::MAX)? as usize;
    if table >= tables {
        return Err(line.fault("no such table in this store"));
    }
    line.take_exactly("holder")?;
    let holder = line.take_u32("a slot")?;
    line.take_exactly("copies")?;
    let copies = line.take_number("marks", u64::MAX)?;
    line.take_exactly("change")?;
    let change = line.take("a change")?.parse().map_err(|_| line.fault("a change is expected"))?;
    Ok(Held { record, table, placed: Placed { holder, copies, change } })
}

#[cfg(test)]
mod tests {
    use super::*;

    #[test]
    fn a_store_comes_back() {
        let placed = Placed { holder: 1, copies: 5, change: -112 };
        let mut made = Store::default();
        made.put([20, 5, 1, 2, 3], &[1, 2, 255], placed);
        made.put([21, 5, 1, 2, 3], &[7], placed);
        made.put([20, 5, 9, 2, 3], &[7], placed);
        let text = made.text();
        assert_eq!(
            text,
            "water store\ntable 07\nrecord 21 5 1 2 3 on 0 holder 1 copies 5 change -112\n\
             record 20 5 9 2 3 on 0 holder 1 copies 5 change -112\n"
        );
        assert_eq!(store(&text).unwrap().text(), text);
    }

    #[test]
    fn a_bad_store_is_named() {
        let said = |text| store(text).map(|_| ()).map_err(|fault| (fault.line, fault.word)).unwrap_err();
        assert_eq!(said("key,month"), (1, "key,month".to_string()));
        assert_eq!(said("water store\ntable 0g"), (2, "0g".to_string()));
        assert_eq!(said("water store\nrecord 1 2 3 4 5 on 0"), (2, "0".to_string()));
    }
}
