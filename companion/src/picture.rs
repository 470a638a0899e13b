//! The picture of a ring as SVG: ids, what each ready node covers, statuses, and the path of each waiting lookup.

use crate::draw::{circular, number, pair, Drawing};
use crate::layout::{lanes, spread, Point};
use crate::survey::{Arc, End, Journey};
use crate::table::{so_far, Names, Node, Table};
use std::f64::consts::TAU;

/// Of nodes, in slot order, and of lookups, in pool order; used again from the first where they do not suffice.
const NODE_COLOURS: [&str; 8] =
    ["#3a7d44", "#2f6690", "#c8791d", "#7d5ba6", "#a23b3b", "#1f8a8a", "#8a6d3b", "#5c677d"];
const LOOKUP_COLOURS: [&str; 6] = ["#b3123f", "#1d2c8f", "#0a5c36", "#8f4a00", "#5a189a", "#333333"];
const INK: &str = "#1f2937";
const GREY: &str = "#6b7280";
const PALE: &str = "#c3c8d0";

/// Width of the band of arcs, height of a node, distance of lines of text, width of a letter.
const BAND: f64 = 24.0;
const HIGH: f64 = 34.0;
const LINE: f64 = 22.0;
const LETTER: f64 = 8.2;
/// Lookups told in words at most.
const TOLD: usize = 16;
/// More labels than this stand along the spokes.
const UPRIGHT: usize = 12;

/// What the picture shows.
pub struct Scene {
    pub table: Table,
    pub arcs: Vec<Option<Arc>>,
    pub journeys: Vec<Journey>,
}

pub fn svg(scene: &Scene) -> String {
    let mut picture = Picture::new(scene);
    picture.arcs();
    picture.scale();
    picture.leaders();
    picture.keys();
    picture.paths();
    picture.nodes();
    picture.legend();
    picture.page()
}

/// The picture so far, with the middle of the ring as origin.
struct Picture<'a> {
    scene: &'a Scene,
    names: Names,
    /// The ready nodes: slot, arc and lane of the arc.
    covered: Vec<(u32, Arc, usize)>,
    /// A node's width, and the turns where the nodes stand.
    wide: f64,
    turns: Vec<f64>,
    /// Radii: of the nodes, and of the innermost lane of arcs.
    ring: f64,
    band: f64,
    draw: Drawing,
}

impl<'a> Picture<'a> {
    fn new(scene: &'a Scene) -> Picture<'a> {
        let nodes = &scene.table.nodes;
        let digits = nodes.iter().map(|node| node.id.to_string().len()).max().unwrap_or(1);
        let wide = (digits as f64 * 8.5 + 16.0).max(HIGH);
        let ring = ((wide + 10.0) * nodes.len() as f64 / TAU).max(160.0);
        let band = ring + wide.max(HIGH) / 2.0 + 60.0;
        let size = size(&scene.table);
        let wanted: Vec<f64> = nodes.iter().map(|node| f64::from(node.id) / size).collect();
        let turns = spread(&wanted, (wide + 10.0) / (TAU * ring) * 0.999);
        let arcs: Vec<Arc> = scene.arcs.iter().flatten().copied().collect();
        let lanes = lanes(&arcs, (size - 1.0) as u32);
        let slots = scene.arcs.iter().zip(0..).filter(|(arc, _)| arc.is_some()).map(|(_, slot)| slot);
        let covered = slots.zip(arcs).zip(lanes).map(|((slot, arc), lane)| (slot, arc, lane)).collect();
        let names = Names::new(scene.table.ids());
        Picture { scene, names, covered, wide, turns, ring, band, draw: Drawing::default() }
    }

    /// The whole ring, and on it what each ready node covers.
    fn arcs(&mut self) {
        self.draw.path(&circular(0.0, 1.0, self.band), &band_look(PALE));
        for (slot, arc, lane) in self.covered.clone() {
            let radius = self.band + lane as f64 * (BAND + 4.0);
            let colour = node_colour(slot);
            let (from, to) = self.ends(arc);
            self.draw.path(&circular(from, to, radius), &band_look(colour));
            for end in [from, to] {
                self.spoke(end, radius, "white", 2.0);
            }
            self.label((from + to) / 2.0, &self.cover(slot, arc), colour);
        }
    }

    /// The turns where an arc begins and ends, half a key beyond its keys.
    fn ends(&self, arc: Arc) -> (f64, f64) {
        let size = size(&self.scene.table);
        let from = (f64::from(arc.from) - 0.5) / size;
        let to = (f64::from(arc.to) + 0.5) / size;
        (from, if to <= from { to + 1.0 } else { to })
    }

    fn cover(&self, slot: u32, arc: Arc) -> String {
        format!("{} covers {} to {}", self.names.of(slot), arc.from, arc.to)
    }

    /// Words outside the ring.
    fn label(&mut self, turn: f64, words: &str, colour: &str) {
        let at = Point::round(turn, self.outside() + 12.0);
        let side = (turn * TAU).sin();
        let anchor = match side {
            _ if self.upright() && side.abs() < 0.25 => "middle",
            _ if side > 0.0 => "end",
            _ => "start",
        };
        let outward = -90.0 - turn * 360.0 + if side > 0.0 { 180.0 } else { 0.0 };
        let turned = if self.upright() { 0.0 } else { outward };
        self.draw.label(at, turned, anchor, words, colour);
    }

    fn upright(&self) -> bool {
        self.covered.len() <= UPRIGHT
    }

    /// The radius outside all lanes.
    fn outside(&self) -> f64 {
        let last = self.covered.iter().map(|(_, _, lane)| *lane).max().unwrap_or(0);
        self.band + BAND / 2.0 + last as f64 * (BAND + 4.0)
    }

    /// The quarters of the ring, by number, where no node is near.
    fn scale(&mut self) {
        for quarter in [0.0, 0.25, 0.5, 0.75] {
            let at = Point::round(quarter, self.band);
            let near = |slot: u32| self.on_ring(self.turn(slot)).distance(at) < 20.0;
            if !(0..self.turns.len() as u32).any(near) {
                let words = format!("{}", size(&self.scene.table) * quarter);
                self.draw.text(at, &words, "font-size=\"11\" fill=\"white\"");
            }
        }
    }

    /// From each node to its place on the ring.
    fn leaders(&mut self) {
        for (node, slot) in self.scene.table.nodes.iter().zip(0..) {
            let colour = if node.status == Node::READY { node_colour(slot) } else { GREY };
            let look = format!("stroke=\"{colour}\" stroke-width=\"1.5\"");
            let turn = self.turn(slot);
            self.draw.line(self.place(slot), self.on_ring(turn), &look);
            self.spoke(turn, self.band, INK, 1.5);
        }
    }

    /// The key of each lookup, inside the ring, and dots to it from the node that delivers.
    fn keys(&mut self) {
        let mut shown: Vec<Point> = Vec::new();
        for (journey, nth) in self.scene.journeys.iter().zip(0..) {
            let colour = lookup_colour(nth);
            let turn = f64::from(journey.key) / size(&self.scene.table);
            let key = self.on_ring(turn);
            let last = journey.path[journey.path.len() - 1];
            if journey.end == End::Delivered {
                let look = format!("stroke=\"{colour}\" stroke-width=\"1.8\" stroke-dasharray=\"2 4\"");
                self.draw.line(self.place(last), key, &look);
            }
            if shown.iter().all(|other| key.distance(*other) > 16.0) {
                let above = (self.turns[last as usize] - turn).rem_euclid(1.0) < 0.5;
                self.key(turn, journey.key, if above { -1.0 } else { 1.0 }, colour);
                shown.push(key);
            }
        }
    }

    /// A key, its number on the side away from its dots.
    fn key(&mut self, turn: f64, key: u32, side: f64, colour: &str) {
        let words = key.to_string();
        self.draw.arrow(Point::round(turn, self.band - BAND), self.on_ring(turn), colour);
        let beside = side * (words.len() as f64 * LETTER / 2.0 + 10.0) / (TAU * self.band);
        let at = Point::round(turn + beside, self.band - BAND / 2.0 - 16.0);
        self.draw.text(at, &words, &format!("font-weight=\"bold\" fill=\"{colour}\""));
    }

    /// The way of each lookup, with a dot where it waits.
    fn paths(&mut self) {
        for (journey, nth) in self.scene.journeys.iter().zip(0..) {
            let colour = lookup_colour(nth);
            let hops = journey.path.windows(2).map(|hop| (self.place(hop[0]), self.place(hop[1])));
            for (hop, (from, to)) in hops.collect::<Vec<_>>().into_iter().enumerate() {
                let begin = self.hop(from, to, nth, colour);
                if hop == 0 {
                    self.draw.dot(begin, colour);
                }
            }
        }
    }

    /// A bent arrow from one node to another, and where it begins; lookups bend differently.
    fn hop(&mut self, from: Point, to: Point, nth: usize, colour: &str) -> Point {
        let depth = (from.distance(to) * 0.6 + 30.0).min(self.ring * 0.45) + 14.0 * (nth % 4) as f64;
        let middle = from.towards(to, 0.5);
        let bend = middle.towards(Point::MIDDLE, depth / middle.distance(Point::MIDDLE).max(depth));
        // To the left of the way, so that two opposite ways do not meet.
        let aside = 18.0 / from.distance(to).max(18.0);
        let bend = Point { x: bend.x + (to.y - from.y) * aside, y: bend.y - (to.x - from.x) * aside };
        let (across, up) = (self.wide / 2.0 + 2.0, HIGH / 2.0 + 2.0);
        let (from, to) = (from.edge(bend, across, up), to.edge(bend, across, up));
        let short = to.edge(bend, 8.0, 8.0);
        let along = format!("M{} Q{} {}", pair(from), pair(bend), pair(short));
        self.draw.path(&along, &format!("fill=\"none\" stroke=\"{colour}\" stroke-width=\"2.4\""));
        self.draw.arrow(bend, to, colour);
        from
    }

    fn nodes(&mut self) {
        for (node, slot) in self.scene.table.nodes.iter().zip(0..) {
            self.node(self.place(slot), self.wide, node.status, node_colour(slot), &node.id.to_string());
        }
    }

    /// A node, its status by its look.
    fn node(&mut self, at: Point, wide: f64, status: u32, colour: &str, words: &str) {
        let (fill, line, ink, dashes) = match status {
            Node::READY => (colour, colour, "white", ""),
            2 => ("white", colour, colour, ""),
            1 => ("white", colour, colour, " stroke-dasharray=\"4 3\""),
            _ => ("#f3f4f6", PALE, GREY, ""),
        };
        let look = format!("fill=\"{fill}\" stroke=\"{line}\" stroke-width=\"2.5\"{dashes}");
        self.draw.pill(at, wide, HIGH, &look);
        self.draw.text(at, words, &format!("font-weight=\"bold\" fill=\"{ink}\""));
    }

    /// Below the ring: the statuses, and each lookup in words.
    fn legend(&mut self) {
        let top = self.reach().y + 28.0;
        for (word, status) in Node::STATUSES.iter().zip(0u32..) {
            let at = Point { x: 135.0 - 90.0 * f64::from(status), y: top };
            self.node(at, 66.0, status, GREY, word);
        }
        for (words, nth) in self.told().iter().zip(0..) {
            let at = Point { x: 0.0, y: top + 40.0 + LINE * nth as f64 };
            let colour = if nth < TOLD { lookup_colour(nth) } else { GREY };
            self.draw.text(at, words, &format!("fill=\"{colour}\""));
        }
    }

    /// The lookups in words.
    fn told(&self) -> Vec<String> {
        let journeys = &self.scene.journeys;
        let tell = |journey: &Journey| {
            let path: Vec<String> = journey.path.iter().map(|slot| self.names.of(*slot)).collect();
            let end = match journey.end {
                End::Delivered => "delivered",
                End::NoLegalRoute => "no legal route",
                End::NotReady => "not ready",
            };
            let so_far = match journey.so_far {
                0 => String::new(),
                hops => format!(" ({})", so_far(hops)),
            };
            format!("Lookup {}{so_far}: {}, {end}", journey.key, path.join(" → "))
        };
        let more = journeys.len().checked_sub(TOLD + 1).map(|more| format!("and {} more", more + 1));
        journeys.iter().take(TOLD).map(tell).chain(more).collect()
    }

    /// How far the ring and its labels reach from the middle.
    fn reach(&self) -> Point {
        let labels = self.covered.iter().map(|(slot, arc, _)| self.cover(*slot, *arc).len());
        let label = labels.max().unwrap_or(0) as f64 * LETTER;
        let outside = self.outside() + 16.0;
        let below = if self.upright() { 20.0 } else { label };
        Point { x: (outside + label).max(300.0), y: outside + below }
    }

    /// The whole of the file.
    fn page(&self) -> String {
        let Point { x, y } = self.reach();
        let high = 2.0 * y + 50.0 + 28.0 + 40.0 + LINE * self.told().len() as f64;
        let (left, top, wide, high) = (number(-x), number(-y - 50.0), number(2.0 * x), number(high));
        let Table { m, l, nodes, .. } = &self.scene.table;
        let title = format!(
            "Ring of M = {m}, L = {l}, {} nodes; ids rise counter-clockwise, to the left",
            nodes.len()
        );
        let mut head = Drawing::default();
        head.0 +=
            &format!("<rect x=\"{left}\" y=\"{top}\" width=\"{wide}\" height=\"{high}\" fill=\"white\"/>\n");
        head.text(Point { x: 0.0, y: -y - 24.0 }, &title, &format!("font-weight=\"bold\" fill=\"{INK}\""));
        format!(
            "<svg xmlns=\"http://www.w3.org/2000/svg\" viewBox=\"{left} {top} {wide} {high}\" width=\"{wide}\" \
             height=\"{high}\" font-family=\"Helvetica, Arial, sans-serif\" font-size=\"14\">\n{}{}</svg>\n",
            head.0, self.draw.0
        )
    }

    /// The turn of a node's id.
    fn turn(&self, slot: u32) -> f64 {
        f64::from(self.scene.table.nodes[slot as usize].id) / size(&self.scene.table)
    }

    /// Where a node stands.
    fn place(&self, slot: u32) -> Point {
        Point::round(self.turns[slot as usize], self.ring)
    }

    /// The inner edge of the band at a turn.
    fn on_ring(&self, turn: f64) -> Point {
        Point::round(turn, self.band - BAND / 2.0)
    }

    /// A line across a lane.
    fn spoke(&mut self, turn: f64, radius: f64, colour: &str, wide: f64) {
        let [from, to] = [radius - BAND / 2.0, radius + BAND / 2.0].map(|radius| Point::round(turn, radius));
        self.draw.line(from, to, &format!("stroke=\"{colour}\" stroke-width=\"{wide}\""));
    }
}

/// The number of keys of the ring.
fn size(table: &Table) -> f64 {
    2f64.powi(table.m as i32)
}

fn band_look(colour: &str) -> String {
    format!("fill=\"none\" stroke=\"{colour}\" stroke-width=\"{BAND}\"")
}

fn node_colour(slot: u32) -> &'static str {
    NODE_COLOURS[slot as usize % NODE_COLOURS.len()]
}

fn lookup_colour(nth: usize) -> &'static str {
    LOOKUP_COLOURS[nth % LOOKUP_COLOURS.len()]
}
