//! The questions, beside what the proved step delivers; the cases, found from their starts; and what a graph says of joining nodes.

use crate::common::{engine, search, search_from, Case, How};
use explore::engine::{room, Engine};
use explore::file::{self, READY, WAIT};
use explore::plan::Limits;
use explore::question::{Question, PROPERTIES, QUESTIONS};
use explore::ring::Ring;
use explore::rows::{IDS, L, M, ROWS};
use explore::search::End;

fn question(name: &str) -> &'static Question {
    QUESTIONS.iter().chain(&PROPERTIES).find(|question| question.name == name).expect("a question")
}

/// Whether the proved step delivers a lookup at once at a ready node.
fn delivers(engine: &mut dyn Engine, file: &[u8], slot: usize, key: u32) -> bool {
    let table = file::read(file);
    let mut alone = Vec::new();
    file::write(&table.frame, table.nodes.into_iter(), std::iter::empty(), &mut alone);
    let mut out = room();
    let asked = engine.step(&alone, [1, slot as u64, key.into()], &mut out).expect("a reply");
    let asked = out[..asked.count].to_vec();
    let answer = engine.step(&asked, [7, 0, 0], &mut out).expect("a reply");
    assert!(answer.number == 5 || answer.count == alone.len());
    answer.number == 0
}

const NOT_FLANKED: Case =
    Case::new(4, 1, 17, &[0, 1, 8, 12, 14], "join 1 at 0\njoin 8 at 14\njoin 12 at 14\n");
const TWO_AT_ONCE: Case = Case {
    limits: Limits { joining: Some(2), waiting: None, in_order: false },
    ..Case::new(4, 1, 17, &[0, 1, 2, 9, 14], "join 1 at 0\njoin 2 at 0\njoin 9 at 14\n")
};

#[test]
fn covers_and_nearest_are_those_of_the_proved_step() {
    let mut engine = engine();
    let outcome = search(&NOT_FLANKED, How::REMEMBERED, &[question("flanked")]).expect("a search");
    for number in (0..outcome.count()).step_by(outcome.count() / 40) {
        let file = outcome.file(number);
        let table = file::read(&file);
        let ring = Ring::new(table.frame.m);
        for (node, slot) in table.nodes.iter().zip(0..).filter(|(node, _)| node.status() == READY) {
            let place = ring.place(&table.frame, node);
            for key in 0..16 {
                assert_eq!(ring.covers(&place, key), delivers(engine.as_mut(), &file, slot, key));
            }
        }
    }
}

#[test]
fn a_shared_key_is_found_exactly_where_there_is_one() {
    let ring = Ring::new(4);
    let outcome = search(&NOT_FLANKED, How::REMEMBERED, &[question("flanked")]).expect("a search");
    for number in (0..outcome.count()).step_by(97) {
        let table = file::read(&outcome.file(number));
        let places: Vec<_> = table.nodes.iter().map(|node| ring.place(&table.frame, node)).collect();
        for (x, y) in places.iter().flat_map(|x| places.iter().map(move |y| (x, y))) {
            let both = |key: &u32| ring.covers(x, *key) && ring.covers(y, *key);
            assert_eq!(ring.shared(x, y).is_some(), (0..16).any(|key| both(&key)));
            assert!(ring.shared(x, y).is_none_or(|key| both(&key)));
        }
    }
}

#[test]
fn the_cases_are_found_again_shortest_first() {
    let outcome = search(&NOT_FLANKED, How::REMEMBERED, &[question("flanked")]).expect("a search");
    assert_eq!((outcome.end, outcome.found[0]), (End::Answered, Some(23)));
    let outcome = search(&TWO_AT_ONCE, How::REMEMBERED, &[question("one-holder")]).expect("a search");
    assert_eq!((outcome.end, outcome.found[0]), (End::Answered, Some(31)));
}

#[test]
fn the_rows_of_001_end_as_theirs_and_as_deep() {
    for row in &ROWS[..6] {
        let case = Case::new(M, L, row.ready, &IDS, row.plan);
        let outcome = search(&case, How::REMEMBERED, &[row.question()]).expect("a search");
        let actions = outcome.found[0].expect("it is found");
        // A row that ends with a delivery has one action more, and TLC counts states, not actions. 001's NeverDeliver is deeper than its
        // shortest counterexample.
        let delivers = usize::from(row.name.contains("Deliver"));
        let least = if row.name == "NeverDeliver" { 4 } else { row.depth as usize };
        assert_eq!(actions + delivers + 1, least, "{}", row.name);
    }
}

#[test]
fn a_node_that_is_lost_never_becomes_ready_and_one_that_is_not_does() {
    let case = Case::new(M, L, 3, &IDS, "join 95 at 17\njoin 65 at 18\n");
    let whole = search(&case, How::REMEMBERED, &[question("ready")]).expect("a search");
    assert_eq!(whole.end, End::Searched);
    let mut engine = engine();
    let plan = case.plan(&file::read(&whole.file(0)).frame);
    let mut becomes = |number: usize, slot: usize| {
        let from = whole.file(number);
        let outcome = search_from(engine.as_mut(), &from, &plan, How::REMEMBERED, &[]).expect("a search");
        (0..outcome.count()).any(|met| file::read(&outcome.file(met)).nodes[slot].status() == READY)
    };
    for answer in &whole.nodes {
        let lost = answer.lost.expect("a state") as usize;
        assert!(!becomes(lost, answer.slot));
        assert!(becomes(lost - 1, answer.slot) && becomes(lost / 2, answer.slot));
    }
    assert_eq!(whole.nodes.iter().map(|answer| answer.slot).collect::<Vec<_>>(), [2, 3]);
}

/// A table file of 1 and 2 on a ring of 2^16 ids, both ready but for what `change` does, with these messages.
fn pair(change: impl Fn(&mut file::Table), messages: impl Iterator<Item = file::Message>) -> Vec<u8> {
    let mut table = file::read(&PAIR.start(engine().as_mut()));
    change(&mut table);
    let mut file = Vec::new();
    file::write(&table.frame, table.nodes.into_iter(), messages, &mut file);
    file
}

const PAIR: Case = Case::new(16, 1, 3, &[1, 2], "lookup 7 at 1\n");

#[test]
fn stuck_is_told() {
    // 2 waits, knows nobody, and no message is on its way.
    let stuck = pair(
        |table| table.nodes[1] = file::Node([2 | u64::from(WAIT) << 32, 0, 0, 0, 0, 2, 0, 0]),
        std::iter::empty(),
    );
    let frame = file::read(&stuck).frame;
    let none = Case { plan: "", ..PAIR }.plan(&frame);
    let questions = [question("stuck"), question("ready")];
    let outcome =
        search_from(engine().as_mut(), &stuck, &none, How::REMEMBERED, &questions).expect("a search");
    assert_eq!((outcome.end, outcome.count(), outcome.found[0]), (End::Searched, 1, Some(0)));
    assert_eq!(outcome.nodes.len(), 1);
    assert!(outcome.nodes[0].ready.is_none() && outcome.nodes[0].lost == Some(0));
    // With a lookup to be made something goes on.
    let outcome = search_from(engine().as_mut(), &stuck, &PAIR.plan(&frame), How::REMEMBERED, &questions);
    assert_eq!(outcome.expect("a search").found[0], None);
}

#[test]
fn a_full_pool_is_told() {
    let waiting = |count: u64| (0..count).map(|key| file::Message([1, 40_000 + key, 0, 0, 0, 0, 0]));
    for (count, after) in [(256, Some(0)), (255, Some(1))] {
        let full = pair(|_| (), waiting(count));
        let plan = Case { plan: "lookup 7 at 1\nlookup 8 at 1\n", ..PAIR }.plan(&file::read(&full).frame);
        let how = How { audit: 1, ..How::REMEMBERED };
        let outcome =
            search_from(engine().as_mut(), &full, &plan, how, &[question("full")]).expect("a search");
        assert_eq!(outcome.found[0], after);
    }
}
