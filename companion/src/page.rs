//! `page`: a plan as one page, to open in a browser and to print.

use crate::args::Given;
use crate::desk::Desk;
use crate::file;
use crate::files;
use crate::frames;
use crate::help::VERSION;
use crate::json::{list, object, text, texts};
use crate::play::{Play, Played};
use crate::sha256;
use crate::survey::Survey;
use crate::table::{Names, Table};
use crate::trouble::Trouble;
use crate::try_commands::plan_of;

const PAGE: &str = include_str!("page/page.html");
const STYLE: &str = include_str!("page/page.css");
const SCRIPT: &str = include_str!("page/page.js");

pub fn page(desk: &mut Desk, given: &Given) -> Result<(), Trouble> {
    let ([path], words) = given.take(["TABLE"])?;
    let table = desk.table(path)?;
    let names = Names::new(table.ids());
    let plan = if words.is_empty() { vec![] } else { plan_of(given, words, &names)? };
    let driver = desk.driver()?;
    let mut play = Play::new(driver, table.clone());
    let played = play.run(&plan, given.has("-k"))?;
    let after = play.table.clone();
    let refused = played.iter().any(Played::refused);
    let frames = frames::json(&mut Survey::new(driver), &frames::said(&table, &after, &played))?;
    let plan: Vec<String> = plan.iter().map(|asked| asked.words.clone()).collect();
    let data = data(&files::name(path), &table, &after, &plan, frames);
    files::write(given.value("-o").unwrap_or("-".as_ref()), filled(&data).as_bytes())?;
    if refused {
        return Err(Trouble::No("an action of the plan was refused; the page shows why".to_string()));
    }
    Ok(())
}

fn data(name: &str, before: &Table, after: &Table, plan: &[String], frames: String) -> String {
    let ids = list(before.ids().iter().map(u32::to_string));
    object(&[
        ("name", text(name)),
        ("version", text(&format!("ring {VERSION}"))),
        ("before", text(&sha256::hex(&file::write(before)))),
        ("after", text(&sha256::hex(&file::write(after)))),
        ("m", before.m.to_string()),
        ("l", before.l.to_string()),
        ("ids", ids),
        ("plan", texts(plan)),
        ("frames", frames),
    ])
}

/// The page with its parts in place. The data come last, so that no part is looked for in them.
fn filled(data: &str) -> String {
    let page = PAGE.replace("@STYLE@", STYLE).replace("@SCRIPT@", SCRIPT);
    match page.split_once("@DATA@") {
        Some((before, behind)) => [before, data, behind].concat(),
        None => page,
    }
}

#[cfg(test)]
mod tests {
    use super::*;

    #[test]
    fn a_page_is_whole_and_asks_for_no_network() {
        let page = filled("{\"name\":\"@SCRIPT@\"}");
        assert!(page.starts_with("<!doctype html>") && page.ends_with("</html>\n"));
        assert!(page.contains("{\"name\":\"@SCRIPT@\"}"));
        let outside = page.matches("http").count();
        assert_eq!(outside, page.matches("http://www.w3.org/2000/svg").count());
        assert!(!page.contains("@import") && !page.contains("src=") && !page.contains("url("));
    }
}
