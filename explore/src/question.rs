//! What is asked of the states that are searched.

use crate::action::LOOKUP;
use crate::engine::Words;
use crate::file::{self, OK, STATUSES, WAIT};
use crate::ring::{Place, Ring};
use crate::state::{Records, State};

/// A state, as questions see it.
pub struct View<'a> {
    pub records: &'a Records,
    pub state: &'a State,
    /// The nodes that were dead at the start.
    pub joiners: u64,
}

/// What was found: what is wrong in words, and what shows it.
#[derive(Debug)]
pub struct Finding {
    pub words: String,
    pub shown: Vec<Shown>,
}

/// A step that shows what was found.
#[derive(Clone, Copy, Debug, PartialEq, Eq)]
pub enum Shown {
    Do(Words),
    /// Delivers the lookup of a key that waits at a slot.
    Deliver(usize, u32),
}

/// How a question is answered.
#[derive(Clone, Copy)]
pub enum Test {
    /// By each state.
    State(fn(&View) -> Option<Finding>),
    /// By a state from which no step leads to another, though a node is wait or ok.
    Stuck,
    /// By a step that is refused with 6.
    Full,
    /// By the whole graph: whether each joining node can become ready, and still can from every state.
    Ready,
}

pub struct Question {
    pub name: &'static str,
    pub asks: &'static str,
    pub test: Test,
}

pub const QUESTIONS: [Question; 6] = [
    Question { name: "one-holder", asks: "two ready nodes cover one key", test: Test::State(two_cover) },
    Question { name: "flanked", asks: "T-08's condition fails", test: Test::State(not_flanked) },
    Question {
        name: "nearest",
        asks: "a lookup is delivered at a node that is not the nearest ready one",
        test: Test::State(not_nearest),
    },
    Question { name: "stuck", asks: "nothing goes on though a node is wait or ok", test: Test::Stuck },
    Question { name: "full", asks: "the pool is full: a step is refused with 6", test: Test::Full },
    Question { name: "ready", asks: "a joining node can no longer become ready", test: Test::Ready },
];

/// The properties of 001's table 4.1, each by what contradicts it.
pub const PROPERTIES: [Question; 8] = [
    Question { name: "NeverDeliver", asks: "a lookup is delivered", test: Test::State(delivers) },
    Question { name: "NeverJoin", asks: "a node that was dead becomes ready", test: Test::State(joined) },
    Question { name: "ConcurrentJoin", asks: "17, 18 and 95 are ready", test: Test::State(three_ready) },
    Question {
        name: "CcJoinDeliver",
        asks: "a lookup is delivered while 17, 18 and 95 are ready",
        test: Test::State(three_ready_deliver),
    },
    Question {
        name: "Symmetry",
        asks: "of two ready nodes one has the other in its leaf set and not the other way round",
        test: Test::State(not_symmetric),
    },
    Question {
        name: "Neighbor",
        asks: "of two nodes, ok or ready, one is closer to the other than its neighbour",
        test: Test::State(up_not_flanked),
    },
    Question {
        name: "NeighborProp",
        asks: "a node, ok or ready, is its own neighbour, or a ready one is closer to another than its neighbour",
        test: Test::State(not_neighbor_prop),
    },
    Question {
        name: "CorrectDeliver",
        asks: "a lookup of one of the ids can be delivered by a node that is not among the nearest ready ones, or by two",
        test: Test::State(not_correct),
    },
];

impl<'a> View<'a> {
    fn ring(&self) -> Ring {
        self.records.ring
    }

    fn places(&self) -> impl Iterator<Item = &'a Place> + Clone + 'a {
        let records = self.records;
        self.state.nodes.iter().map(move |&number| records.place(number))
    }

    fn ready(&self) -> impl Iterator<Item = &'a Place> + Clone + 'a {
        self.places().filter(|place| place.is_ready())
    }

    fn up(&self) -> impl Iterator<Item = &'a Place> + Clone + 'a {
        self.places().filter(|place| place.is_up())
    }

    /// Whether a node is wait or ok.
    pub fn is_joining(&self) -> Option<&'a Place> {
        self.places().find(|place| place.status == WAIT || place.status == OK)
    }

    /// Each waiting lookup: the node where it waits, and its key.
    fn lookups(&self) -> impl Iterator<Item = (&'a Place, u32)> + 'a {
        let (records, state) = (self.records, self.state);
        let messages = state.messages.iter().map(move |&number| records.message(number));
        let lookups = messages.filter(|message| message.kind() == file::LOOKUP);
        lookups.map(move |message| (records.place(state.nodes[message.to() as usize]), message.word()))
    }

    /// The lookups that a Deliver would deliver.
    fn deliverable(&self) -> impl Iterator<Item = (&'a Place, u32)> + 'a {
        let ring = self.ring();
        self.lookups().filter(move |(place, key)| place.is_ready() && ring.covers(place, *key))
    }
}

/// Each two different ones, both ways round.
fn pairs<'a>(
    places: impl Iterator<Item = &'a Place> + Clone,
) -> impl Iterator<Item = (&'a Place, &'a Place)> {
    let others = places.clone();
    places.flat_map(move |x| others.clone().map(move |y| (x, y))).filter(|(x, y)| x.slot != y.slot)
}

fn finding(words: String) -> Option<Finding> {
    Some(Finding { words, shown: Vec::new() })
}

/// A place in words: status, id, neighbours.
fn told(place: &Place) -> String {
    let status = STATUSES[place.status as usize];
    format!("{} is {status} with neighbours {} and {}", place.id, place.left, place.right)
}

fn two_cover(view: &View) -> Option<Finding> {
    let shared = |(x, y)| view.ring().shared(x, y).map(|key| (x, y, key));
    let (x, y, key): (&Place, &Place, u32) = pairs(view.ready()).find_map(shared)?;
    let words = format!("{} and {} are ready, and both cover {key}: {}; {}", x.id, y.id, told(x), told(y));
    let ask = |place: &Place| Shown::Do([LOOKUP, place.slot as u64, key.into()]);
    let shown = vec![ask(x), Shown::Deliver(x.slot, key), ask(y), Shown::Deliver(y.slot, key)];
    Some(Finding { words, shown })
}

fn not_flanked(view: &View) -> Option<Finding> {
    let ring = view.ring();
    let wrong = |(x, y): &(&Place, &Place)| !ring.flanks(x, y.id) || x.is_its_own_neighbour();
    let (x, y) = pairs(view.ready()).find(wrong)?;
    finding(format!("{}, and {} is ready and closer", told(x), y.id))
}

fn not_nearest(view: &View) -> Option<Finding> {
    let ring = view.ring();
    for (place, key) in view.deliverable() {
        if let Some(better) = view.ready().find(|other| ring.nearer(key, other.id, place.id)) {
            let words = format!("{} delivers {key}, and {} is ready and nearer to it", place.id, better.id);
            return Some(Finding { words, shown: vec![Shown::Deliver(place.slot, key)] });
        }
    }
    None
}

fn delivers(view: &View) -> Option<Finding> {
    let (place, key) = view.deliverable().next()?;
    let words = format!("{} delivers {key}", place.id);
    Some(Finding { words, shown: vec![Shown::Deliver(place.slot, key)] })
}

fn joined(view: &View) -> Option<Finding> {
    let place = view.ready().find(|place| view.joiners >> place.slot & 1 == 1)?;
    finding(told(place))
}

fn three_ready(view: &View) -> Option<Finding> {
    let three = [17, 18, 95].map(|id| view.ready().any(|place| place.id == id));
    (three == [true; 3]).then(|| finding("17, 18 and 95 are ready".to_string()))?
}

fn three_ready_deliver(view: &View) -> Option<Finding> {
    three_ready(view).and_then(|_| delivers(view))
}

fn not_symmetric(view: &View) -> Option<Finding> {
    let wrong = |(x, y): &(&Place, &Place)| x.content >> y.slot & 1 == 1 && y.content >> x.slot & 1 == 0;
    let (x, y) = pairs(view.ready()).find(wrong)?;
    finding(format!("{}; {}", told(x), told(y)))
}

fn up_not_flanked(view: &View) -> Option<Finding> {
    let (x, y) = pairs(view.up()).find(|(x, y)| !view.ring().flanks(x, y.id))?;
    finding(format!("{}; {}", told(x), told(y)))
}

fn not_neighbor_prop(view: &View) -> Option<Finding> {
    let is_alone =
        |place: &Place| view.up().count() == 1 && place.left == place.id && place.right == place.id;
    if let Some(place) = view.up().find(|place| place.is_its_own_neighbour() && !is_alone(place)) {
        return finding(told(place));
    }
    let (x, y) = pairs(view.ready()).find(|(x, y)| !view.ring().flanks(x, y.id))?;
    finding(format!("{}; {}", told(x), told(y)))
}

/// A Lookup may be done at any time and changes no node, so each key is asked for as though it waited at every node.
fn not_correct(view: &View) -> Option<Finding> {
    let ring = view.ring();
    for &key in &view.records.frame.ids {
        for place in view.ready().filter(|place| ring.covers(place, key)) {
            let nearer = |other: &&Place| ring.abs_dist(other.id, key) < ring.abs_dist(place.id, key);
            let also = |other: &&Place| other.slot != place.slot && ring.covers(other, key);
            if let Some(other) = view.ready().find(|other| nearer(other) || also(other)) {
                return finding(format!("{key}: {}; {}", told(place), told(other)));
            }
        }
    }
    None
}
