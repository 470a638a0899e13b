//! What is found is a rehearsal that the proved checker accepts; one that was changed is refused.

use crate::common::{driver, engine, Case};
use explore::engine::Driver;
use explore::evidence::{shown, way, Rehearsal};
use explore::file;
use explore::moves::Mover;
use explore::question::QUESTIONS;
use explore::search::{Bounds, Found, Search};
use explore::state::{Key, Records};
use std::time::Duration;

#[test]
fn the_checker_accepts_what_is_found_and_refuses_it_changed() {
    let case = Case::new(4, 1, 17, &[0, 1, 8, 12, 14], "join 1 at 0\njoin 8 at 14\njoin 12 at 14\n");
    let mut engine = engine();
    let start = case.start(engine.as_mut());
    let plan = case.plan(&file::read(&start).frame);
    let records = Records::new(file::read(&start).frame, Key::WHOLE);
    let mover = Mover::new(engine.as_mut(), &plan, true);
    let mut search = Search::new(records, mover, &start, vec![&QUESTIONS[1]], Bounds::default(), 0);
    search.run(Duration::MAX, &mut |_| ()).expect("a search");
    let Found::At(number, finding) = std::mem::replace(&mut search.found[0], Found::Nothing) else {
        panic!("it is found");
    };
    let steps = [way(&mut search, number).expect("a way"), shown(&finding.shown)].concat();
    let mut rehearsal =
        Rehearsal::make(search.mover.engine(), Key::WHOLE, &start, &steps).expect("a rehearsal");
    assert_eq!(rehearsal.steps.len(), 23);
    let mut driver = Driver::run(&driver()).expect("the driver");
    assert!(rehearsal.is_accepted(&mut driver).expect("a verdict"));
    rehearsal.steps[11].file[32 + 64 + 40] ^= 1;
    assert!(!rehearsal.is_accepted(&mut driver).expect("a verdict"));
    rehearsal.steps.truncate(11);
    assert!(rehearsal.is_accepted(&mut driver).expect("a verdict"));
    rehearsal.steps.remove(4);
    assert!(!rehearsal.is_accepted(&mut driver).expect("a verdict"));
}
