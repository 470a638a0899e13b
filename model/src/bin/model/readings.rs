//! Whether requests tell each misreading from the right reading.

use crate::frame::read_frames;
use crate::names::name;
use model::gen::Requests;
use model::judge::{Judge, Tally};
use model::Slip;
use std::io;

/// What is known of one misreading.
#[derive(Clone, Default)]
struct Record {
    told: u64,
    first: Option<(u64, String)>,
}

/// Runs every misreading on `count` requests; true if each is told apart or known as equivalent.
pub fn readings(seed: u64, count: u64) -> io::Result<bool> {
    let (mut judge, mut records) = (Judge::default(), vec![Record::default(); Slip::ALL.len()]);
    for (nth, request) in (0..count).zip(Requests::new(seed)) {
        for slip in judge.hear(&request) {
            let record = &mut records[slip as usize];
            record.told += 1;
            record.first.get_or_insert_with(|| (nth, name(&request)));
        }
    }
    println!("{} misreadings, {count} requests of seed {seed}", records.len());
    let reports = Slip::ALL.iter().zip(&records).map(|(&slip, record)| report(slip, record));
    Ok(reports.filter(|good| !good).count() == 0)
}

/// Prints one line; true if the misreading is told apart, or equivalent and not told apart.
fn report(slip: Slip, Record { told, first }: &Record) -> bool {
    let name = format!("{slip:?}");
    let (verdict, good) = match (first, slip.equivalent()) {
        (Some((nth, by)), None) => (format!("told {told} times, first by request {nth} ({by})"), true),
        (None, Some(why)) => (format!("equivalent: {why}"), true),
        (Some((nth, by)), Some(_)) => (format!("WRONG: equivalent, yet told by request {nth} ({by})"), false),
        (None, None) => ("NOT TOLD APART".to_string(), false),
    };
    println!("{name:24} {verdict}\n{:24} {}", "", slip.about());
    good
}

/// Counts the misreadings that `count` requests tell apart; true if each is told by `least` or more.
pub fn told_by_seed(seed: u64, count: u64, least: u64) -> io::Result<bool> {
    let requests = Requests::new(seed).zip(0..count).map(|(request, _)| request);
    let rare = Slip::ALL.iter().filter(|slip| slip.rare().is_some()).count();
    let by = format!("{count} requests of seed {seed}, each by {least} or more but for {rare} rare ones");
    Ok(told(&Tally::of(requests), &by, least))
}

/// The same of stored requests, each by one or more.
pub fn told_by_file(path: &str) -> io::Result<bool> {
    let requests = read_frames(path)?;
    let by = format!("the {} requests of {path}", requests.len());
    Ok(told(&Tally::of(requests.into_iter()), &by, 1))
}

fn told(tally: &Tally, by: &str, least: u64) -> bool {
    println!("{}", tally.summary(by));
    let wrong = tally.wrong(least);
    for slip in &wrong {
        println!("{slip:?} is told by {} requests: {}", tally.count(*slip), slip.about());
    }
    wrong.is_empty()
}
