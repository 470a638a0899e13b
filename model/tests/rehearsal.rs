//! T-09, sentence by sentence.

mod common;

use common::{number, Bench};
use model::{Action, Rehearsal, Verdict};

/// The worked ring with one lookup, and the same with that lookup and another.
const FIRST: Action = Action::Lookup { at: 0, key: 80 };
const SECOND: Action = Action::Lookup { at: 2, key: 200 };

fn worked() -> Bench {
    Bench::start(8, 1, &[17, 18, 65, 95], &[0, 1, 2, 3])
}

fn after(actions: &[Action]) -> Vec<u8> {
    let mut bench = worked();
    actions.iter().for_each(|&action| bench.done(action));
    bench.file()
}

/// Hands a step over, which must be looked at.
fn hand(rehearsal: &mut Rehearsal, action: Action, stated: &[u8]) -> Verdict {
    assert_eq!(number(rehearsal.next(action, stated)), 0);
    rehearsal.verdict()
}

#[test]
fn a_right_rehearsal_is_accepted() {
    let mut rehearsal = Rehearsal::begin(&worked().file());
    assert_eq!(rehearsal.verdict(), Verdict::Accepted, "of no step");
    assert_eq!(hand(&mut rehearsal, FIRST, &after(&[FIRST])), Verdict::Accepted);
    assert_eq!(hand(&mut rehearsal, SECOND, &after(&[FIRST, SECOND])), Verdict::Accepted);
}

#[test]
fn a_bad_start_is_0() {
    let file = worked().file();
    for start in [&file[..0], &file[..31], &file[..file.len() - 1], &[&file[..], &[0]].concat()] {
        let mut rehearsal = Rehearsal::begin(start);
        assert_eq!(rehearsal.verdict(), Verdict::Bad(0));
        assert_eq!(number(rehearsal.next(FIRST, &after(&[FIRST]))), 12);
        assert_eq!(rehearsal.verdict(), Verdict::Bad(0));
    }
}

#[test]
fn every_byte_of_a_stated_file_counts() {
    let right = after(&[FIRST]);
    let wrong = |stated: &[u8]| hand(&mut Rehearsal::begin(&worked().file()), FIRST, stated);
    for at in 0..right.len() {
        let mut stated = right.clone();
        stated[at] ^= 1;
        assert_eq!(wrong(&stated), Verdict::Bad(1), "byte {at}");
        assert_eq!(wrong(&right[..at]), Verdict::Bad(1), "{at} bytes");
    }
    assert_eq!(wrong(&[&right[..], &[0]].concat()), Verdict::Bad(1));
    assert_eq!(wrong(&right), Verdict::Accepted);
}

#[test]
fn a_refused_action_is_bad_whatever_is_stated() {
    let mut rehearsal = Rehearsal::begin(&worked().file());
    assert_eq!(hand(&mut rehearsal, FIRST, &after(&[FIRST])), Verdict::Accepted);
    for stated in [&after(&[FIRST])[..], &[]] {
        assert_eq!(hand(&mut rehearsal.clone(), FIRST, stated), Verdict::Bad(2), "the same already waits");
    }
}

#[test]
fn a_bad_step_ends_the_check() {
    let mut rehearsal = Rehearsal::begin(&worked().file());
    assert_eq!(hand(&mut rehearsal, FIRST, &after(&[FIRST])), Verdict::Accepted);
    assert_eq!(hand(&mut rehearsal, SECOND, &after(&[SECOND])), Verdict::Bad(2));
    for _ in 0..3 {
        assert_eq!(number(rehearsal.next(SECOND, &after(&[FIRST, SECOND]))), 12);
        assert_eq!(rehearsal.verdict(), Verdict::Bad(2));
    }
}

#[test]
fn there_are_at_most_1000_steps() {
    let deliver = Action::Deliver { place: 0 };
    let mut bench = Bench::start(2, 1, &[3], &[0]);
    let mut rehearsal = Rehearsal::begin(&bench.file());
    let mut steps = |rehearsal: &mut Rehearsal, count: usize| {
        for nth in 0..count {
            let action = if nth % 2 == 0 { Action::Lookup { at: 0, key: 1 } } else { deliver };
            bench.done(action);
            assert_eq!(hand(rehearsal, action, &bench.file()), Verdict::Accepted, "step {nth}");
        }
    };
    steps(&mut rehearsal, 998);
    let mut other = rehearsal.clone();
    steps(&mut rehearsal, 2);
    for stated in [&worked().file()[..], &[]] {
        assert_eq!(number(rehearsal.next(deliver, stated)), 12);
        assert_eq!(rehearsal.verdict(), Verdict::Accepted);
    }
    steps(&mut other, 1);
    assert_eq!(hand(&mut other, deliver, &[]), Verdict::Bad(1000));
    assert_eq!(number(other.next(deliver, &[])), 12);
}
