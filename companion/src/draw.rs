//! Shapes of an SVG.

use crate::layout::Point;

/// The shapes so far.
#[derive(Default)]
pub struct Drawing(pub String);

impl Drawing {
    pub fn line(&mut self, from: Point, to: Point, look: &str) {
        self.path(&format!("M{} L{}", pair(from), pair(to)), look);
    }

    pub fn path(&mut self, along: &str, look: &str) {
        self.0 += &format!("<path d=\"{along}\" {look}/>\n");
    }

    pub fn dot(&mut self, at: Point, colour: &str) {
        let (x, y) = (number(at.x), number(at.y));
        self.0 += &format!("<circle cx=\"{x}\" cy=\"{y}\" r=\"4\" fill=\"{colour}\"/>\n");
    }

    /// The head of an arrow that comes from `from` and ends at `to`.
    pub fn arrow(&mut self, from: Point, to: Point, colour: &str) {
        let back = to.edge(from, 11.0, 11.0);
        let (x, y) = ((to.x - back.x) * 0.45, (to.y - back.y) * 0.45);
        let (one, other) = (Point { x: back.x - y, y: back.y + x }, Point { x: back.x + y, y: back.y - x });
        let along = format!("M{} L{} L{} Z", pair(to), pair(one), pair(other));
        self.path(&along, &format!("fill=\"{colour}\""));
    }

    /// A box with round ends about a point.
    pub fn pill(&mut self, at: Point, wide: f64, high: f64, look: &str) {
        let (x, y) = (number(at.x - wide / 2.0), number(at.y - high / 2.0));
        let (wide, high, round) = (number(wide), number(high), number(high / 2.0));
        self.0 += &format!(
            "<rect x=\"{x}\" y=\"{y}\" width=\"{wide}\" height=\"{high}\" rx=\"{round}\" {look}/>\n"
        );
    }

    /// Words about a point.
    pub fn text(&mut self, at: Point, words: &str, look: &str) {
        let (x, y) = (number(at.x), number(at.y));
        self.0 += &format!(
            "<text x=\"{x}\" y=\"{y}\" dy=\"0.35em\" text-anchor=\"middle\" {look}>{words}</text>\n"
        );
    }

    /// Words from or to a point (`anchor`), turned by degrees.
    pub fn label(&mut self, at: Point, turned: f64, anchor: &str, words: &str, colour: &str) {
        let rotate = if turned == 0.0 { String::new() } else { format!(" rotate({})", number(turned)) };
        let place = format!("transform=\"translate({}){rotate}\" text-anchor=\"{anchor}\"", pair(at));
        self.0 += &format!("<text {place} dy=\"0.35em\" fill=\"{colour}\">{words}</text>\n");
    }
}

/// The path along a circle between two turns, in two pieces, so that it may be whole.
pub fn circular(from: f64, to: f64, radius: f64) -> String {
    let [begin, middle, end] = [from, (from + to) / 2.0, to].map(|turn| pair(Point::round(turn, radius)));
    let r = number(radius);
    format!("M{begin} A{r} {r} 0 0 0 {middle} A{r} {r} 0 0 0 {end}")
}

pub fn pair(at: Point) -> String {
    format!("{} {}", number(at.x), number(at.y))
}

/// A length to a tenth.
pub fn number(x: f64) -> String {
    let tenths = (x * 10.0).round() / 10.0 + 0.0;
    format!("{tenths}")
}
