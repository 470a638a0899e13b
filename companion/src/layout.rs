//! Where things stand in the picture of a ring. A turn is a part of the circle: 0 at the top, rising counter-clockwise.

use crate::survey::Arc;
use std::f64::consts::TAU;

#[derive(Clone, Copy)]
pub struct Point {
    pub x: f64,
    pub y: f64,
}

impl Point {
    pub const MIDDLE: Point = Point { x: 0.0, y: 0.0 };

    pub fn distance(self, other: Point) -> f64 {
        (self.x - other.x).hypot(self.y - other.y)
    }

    /// The point at a turn and a radius round the middle.
    pub fn round(turn: f64, radius: f64) -> Point {
        let (sin, cos) = (turn * TAU).sin_cos();
        Point { x: -radius * sin, y: -radius * cos }
    }

    /// The point a part of the way to another.
    pub fn towards(self, other: Point, part: f64) -> Point {
        Point { x: self.x + (other.x - self.x) * part, y: self.y + (other.y - self.y) * part }
    }

    /// The edge, on the way to another point, of an ellipse about this one.
    pub fn edge(self, other: Point, across: f64, up: f64) -> Point {
        let (x, y) = (other.x - self.x, other.y - self.y);
        let length = (x / across).hypot(y / up).max(0.001);
        Point { x: self.x + x / length, y: self.y + y / length }
    }
}

/// Turns near the wanted ones, in the same order, each at least `gap` from the next. The gaps together are at most a turn.
pub fn spread(wanted: &[f64], gap: f64) -> Vec<f64> {
    const PASSES: usize = 20_000;
    let mut turns = wanted.to_vec();
    let count = turns.len();
    for _ in 0..if count < 2 { 0 } else { PASSES } {
        let mut moved = false;
        for (here, next) in (0..count).map(|here| (here, (here + 1) % count)) {
            let between = turns[next] - turns[here] + if next == 0 { 1.0 } else { 0.0 };
            let lacking = gap - between;
            if lacking > 1e-9 {
                turns[here] -= lacking / 2.0;
                turns[next] += lacking / 2.0;
                moved = true;
            }
        }
        if !moved {
            break;
        }
    }
    turns
}

/// A lane for each arc, such that no two arcs of a lane share a key.
pub fn lanes(arcs: &[Arc], last: u32) -> Vec<usize> {
    let mut lanes: Vec<usize> = Vec::new();
    for (nth, arc) in arcs.iter().enumerate() {
        let taken = |lane: usize| (0..nth).any(|other| lanes[other] == lane && meet(*arc, arcs[other], last));
        let lane = (0..=nth).find(|lane| !taken(*lane)).unwrap_or(nth);
        lanes.push(lane);
    }
    lanes
}

fn meet(one: Arc, other: Arc, last: u32) -> bool {
    let holds =
        |arc: Arc, key: u32| key.wrapping_sub(arc.from) & last <= arc.to.wrapping_sub(arc.from) & last;
    holds(one, other.from) || holds(other, one.from)
}
