//! The action that is for a waiting message.

use super::case::Case;
use super::rng::Rng;
use crate::message::Message;
use crate::reading::Right;
use crate::step::Action;
use crate::view::View;

/// Take, or for a Lookup the one of the pair that its destination's cover allows; in few cases any of the three.
pub fn taking(rng: &mut Rng, case: &Case, place: usize) -> Action {
    if rng.one_in(24) {
        return rng.pick(&three(place));
    }
    fitting(case, place)
}

/// Take, or for a Lookup the one of the pair that its destination's cover allows.
pub fn fitting(case: &Case, place: usize) -> Action {
    match case.pool[place] {
        Message::Lookup { to, key, .. } if View::new(Right, &case.table).covers(to.into(), key) => {
            Action::Deliver { place }
        }
        Message::Lookup { .. } => Action::Forward { place },
        _ => Action::Take { place },
    }
}

/// The three actions on a place.
pub fn three(place: usize) -> [Action; 3] {
    [Action::Take { place }, Action::Deliver { place }, Action::Forward { place }]
}
