//! `new`, `show`, `picture`: tables made and shown.

use crate::args::{self, Given};
use crate::desk::{put, Desk};
use crate::fields;
use crate::file;
use crate::files;
use crate::parse;
use crate::picture::{svg, Scene};
use crate::print;
use crate::survey::Survey;
use crate::trouble::Trouble;

pub fn new(desk: &mut Desk, given: &Given) -> Result<(), Trouble> {
    let text = args::text(&given.words);
    let start = parse::start(&mut args::line(&text)).map_err(|fault| given.bad(fault))?;
    let bytes = desk.started("ring new", &start)?;
    put(given.value("-o"), &file::known(&bytes)?)
}

pub fn show(desk: &mut Desk, given: &Given) -> Result<(), Trouble> {
    let [path] = given.exactly(["TABLE"])?;
    let bytes = desk.bytes(path)?;
    let loaded = desk.load(&files::name(path), &bytes);
    if let (Some(out), Ok(table)) = (given.value("-o"), &loaded) {
        return put(Some(out), table);
    }
    if given.has("--bytes") {
        files::print(&bytes)?;
    } else if let Some(table) = file::read(&bytes).filter(|_| !given.has("-o")) {
        let text = if given.has("--fields") { fields::fields(&bytes) } else { print::table(&table) };
        files::print(text.as_bytes())?;
    }
    loaded.map(|_| ())
}

pub fn picture(desk: &mut Desk, given: &Given) -> Result<(), Trouble> {
    let [path] = given.exactly(["TABLE"])?;
    let table = desk.table(path)?;
    let mut survey = Survey::new(desk.driver()?);
    let (arcs, journeys) = (survey.arcs(&table)?, survey.journeys(&table)?);
    let picture = svg(&Scene { table, arcs, journeys });
    files::write(given.value("-o").unwrap_or("-".as_ref()), picture.as_bytes())
}
