//! The search: breadth first from one state, each state once.

use crate::file::READY;
use crate::moves::{Move, Mover};
use crate::question::{Finding, Question, Test, View};
use crate::state::{Records, State};
use crate::store::Store;
use crate::trouble::Trouble;
use std::time::{Duration, Instant};

/// Where a search stops before its end.
#[derive(Clone, Copy, Debug)]
pub struct Bounds {
    pub states: usize,
    pub depth: usize,
    /// Bytes.
    pub memory: usize,
    pub time: Duration,
}

impl Default for Bounds {
    fn default() -> Self {
        Bounds { states: usize::MAX, depth: usize::MAX, memory: 4 << 30, time: Duration::from_secs(3600) }
    }
}

/// How a search ended.
#[derive(Clone, Copy, Debug, PartialEq, Eq)]
pub enum End {
    /// Every state that can be reached was met.
    Searched,
    /// Every question was answered before.
    Answered,
    /// The bound of that name was met.
    Stopped(&'static str),
}

/// The answer to a question so far.
pub enum Found {
    Nothing,
    /// A state, and what is wrong there.
    At(u32, Finding),
    /// For a question of the whole graph: a line for each joining node.
    Nodes(Vec<NodeAnswer>),
}

/// Whether a joining node can become ready.
#[derive(Clone, Copy, Debug, PartialEq, Eq)]
pub struct NodeAnswer {
    pub slot: usize,
    /// The first state in which it is ready.
    pub ready: Option<u32>,
    /// The first state from which it can no longer become ready.
    pub lost: Option<u32>,
}

/// What is told while the search goes on.
pub struct Progress {
    pub states: usize,
    pub waiting: usize,
    pub depth: usize,
    pub rate: f64,
}

pub struct Search<'a> {
    pub records: Records,
    pub store: Store,
    pub mover: Mover<'a>,
    pub questions: Vec<&'a Question>,
    pub found: Vec<Found>,
    bounds: Bounds,
    /// In one state of so many every move is asked again, and those that the statuses forbid too; 0 for none.
    audit: u32,
    joiners: u64,
    /// States of each depth that is gone on from.
    pub levels: Vec<usize>,
    /// The first state behind them.
    level_end: usize,
    /// Steps that were done.
    pub done: u64,
    /// The most messages that waited.
    pub most: usize,
    edges: Option<Edges>,
    now: State,
    after: State,
    again: State,
    packed: Vec<u8>,
    moves: Vec<Move>,
}

/// The states that lead from each state, in their order.
#[derive(Default)]
struct Edges {
    ends: Vec<u64>,
    to: Vec<u32>,
}

/// How often the clock is looked at, in states.
const LOOK: usize = 1 << 10;

impl<'a> Search<'a> {
    pub fn new(
        mut records: Records,
        mover: Mover<'a>,
        start: &[u8],
        questions: Vec<&'a Question>,
        bounds: Bounds,
        audit: u32,
    ) -> Search<'a> {
        let mut now = State::default();
        records.read(start, &mut now);
        let ready = |(slot, &node): (usize, &u32)| u64::from(records.place(node).status != READY) << slot;
        let joiners = now.nodes.iter().enumerate().map(ready).fold(0, |marks, mark| marks | mark);
        let whole = questions.iter().any(|question| matches!(question.test, Test::Ready));
        let mut packed = Vec::new();
        now.pack(&mut packed);
        let mut store = Store::default();
        store.insert(&packed, 0);
        let mut search = Search {
            records,
            store,
            mover,
            found: questions.iter().map(|_| Found::Nothing).collect(),
            questions,
            bounds,
            audit,
            joiners,
            levels: vec![1],
            level_end: 1,
            done: 0,
            most: now.messages.len(),
            edges: whole.then(Edges::default),
            after: now.clone(),
            again: State::default(),
            now,
            packed,
            moves: Vec::new(),
        };
        search.look(0);
        search
    }

    /// Searches to an end, and tells of it every `every`.
    pub fn run(&mut self, every: Duration, tell: &mut dyn FnMut(Progress)) -> Result<End, Trouble> {
        let begun = Instant::now();
        let (mut told, mut told_states) = (begun, 0);
        let mut at = 0;
        while at < self.store.len() {
            if at == self.level_end {
                self.level_end = self.store.len();
                self.levels.push(self.level_end - at);
            }
            if let Some(end) = self.stop(begun, at) {
                return Ok(end);
            }
            self.go_on(at as u32)?;
            at += 1;
            if at % LOOK == 0 && told.elapsed() >= every {
                let states = self.store.len();
                let rate = (states - told_states) as f64 / told.elapsed().as_secs_f64();
                tell(Progress { states, waiting: states - at, depth: self.depth(), rate });
                (told, told_states) = (Instant::now(), states);
            }
        }
        self.whole();
        Ok(if self.is_answered() { End::Answered } else { End::Searched })
    }

    /// Whether every question has its answer.
    fn is_answered(&self) -> bool {
        !self.found.is_empty() && self.found.iter().all(|found| matches!(found, Found::At(..)))
    }

    fn stop(&self, begun: Instant, at: usize) -> Option<End> {
        if self.is_answered() {
            return Some(End::Answered);
        }
        if self.levels.len() > self.bounds.depth {
            return Some(End::Stopped("depth"));
        }
        if self.store.len() >= self.bounds.states || self.store.is_full() {
            return Some(End::Stopped("states"));
        }
        if at % LOOK == 0 && begun.elapsed() >= self.bounds.time {
            return Some(End::Stopped("time"));
        }
        (at % LOOK == 0 && self.bytes() >= self.bounds.memory).then_some(End::Stopped("memory"))
    }

    /// How many actions lead to the deepest state.
    pub fn depth(&self) -> usize {
        self.levels.len() - usize::from(self.store.len() == self.level_end)
    }

    /// The bytes that are held.
    pub fn bytes(&self) -> usize {
        let edges = self.edges.as_ref().map_or(0, |edges| edges.ends.len() * 8 + edges.to.len() * 4);
        self.store.bytes() + self.records.bytes() + self.mover.bytes() + edges
    }

    /// Makes every move of a state.
    fn go_on(&mut self, number: u32) -> Result<(), Trouble> {
        self.now.unpack(self.records.frame.ids.len(), self.store.state(number));
        self.mover.stand(&self.records, &self.now);
        self.mover.moves(&self.records, &self.now, &mut self.moves);
        let audit = self.audit > 0 && number % self.audit == 0;
        if audit {
            self.ask_forbidden()?;
        }
        let (mut leads, mut full) = (false, false);
        let moves = std::mem::take(&mut self.moves);
        for &step in &moves {
            let answer = self.mover.make(&mut self.records, &self.now, step, &mut self.after)?;
            if audit {
                self.ask_again(step, answer)?;
            }
            full |= answer == 6;
            if answer == 0 {
                self.done += 1;
                leads |= self.meet(number);
            }
        }
        self.moves = moves;
        if let Some(edges) = &mut self.edges {
            edges.ends.push(edges.to.len() as u64);
        }
        self.judge(number, !leads, full);
        Ok(())
    }

    /// Takes in the state after a step: whether it is another than the one before it.
    fn meet(&mut self, number: u32) -> bool {
        self.after.pack(&mut self.packed);
        let (met, is_new) = self.store.insert(&self.packed, number);
        if let Some(edges) = &mut self.edges {
            edges.to.push(met);
        }
        if is_new {
            self.most = self.most.max(self.after.messages.len());
            self.look(met);
        }
        met != number
    }

    /// Asks again for a step that may have been remembered.
    fn ask_again(&mut self, step: Move, answer: u32) -> Result<(), Trouble> {
        let again = self.mover.ask(&mut self.records, &self.now, step, &mut self.again)?;
        if again == answer && (answer != 0 || self.again == self.after) {
            return Ok(());
        }
        Err(Trouble::Failed(
            "a step that was remembered is answered otherwise on the whole state".to_string(),
        ))
    }

    /// Asks for the actions that are forbidden: each must be refused, with its number.
    fn ask_forbidden(&mut self) -> Result<(), Trouble> {
        for (step, wanted) in self.mover.forbidden(&self.records, &self.now) {
            if self.mover.ask(&mut self.records, &self.now, step, &mut self.again)? != wanted {
                let what = format!("an action that is forbidden is not refused with {wanted}");
                return Err(Trouble::Failed(what));
            }
        }
        Ok(())
    }

    /// Puts the questions of one state to the state that was met last.
    fn look(&mut self, number: u32) {
        let view = View { records: &self.records, state: &self.after, joiners: self.joiners };
        for (question, found) in self.questions.iter().zip(&mut self.found) {
            if let (Test::State(test), Found::Nothing) = (question.test, &found) {
                if let Some(finding) = test(&view) {
                    *found = Found::At(number, finding);
                }
            }
        }
    }

    /// Puts the questions of a state and its moves.
    fn judge(&mut self, number: u32, stuck: bool, full: bool) {
        let view = View { records: &self.records, state: &self.now, joiners: self.joiners };
        for (question, found) in self.questions.iter().zip(&mut self.found) {
            if !matches!(found, Found::Nothing) {
                continue;
            }
            let words = match (question.test, view.is_joining()) {
                (Test::Stuck, Some(place)) if stuck => format!("{} stays as it is", place.id),
                (Test::Full, _) if full => "a step is refused with 6".to_string(),
                _ => continue,
            };
            *found = Found::At(number, Finding { words, shown: Vec::new() });
        }
    }

    /// Answers the questions of the whole graph.
    fn whole(&mut self) {
        let Some(edges) = self.edges.take() else { return };
        let mut ready = Vec::with_capacity(self.store.len());
        for number in 0..self.store.len() as u32 {
            self.now.unpack(self.records.frame.ids.len(), self.store.state(number));
            let marks = self
                .now
                .nodes
                .iter()
                .enumerate()
                .map(|(slot, &node)| u64::from(self.records.place(node).is_ready()) << slot);
            ready.push(marks.fold(0, |marks, mark| marks | mark));
        }
        let can = edges.backwards(&ready);
        let joiners = self.joiners & (self.mover.plan.joiners() | self.started());
        let answers = crate::ring::slots(joiners).map(|slot| {
            let first = |marks: &[u64], wanted| marks.iter().position(|set| set >> slot & 1 == wanted);
            let number = |place: usize| place as u32;
            NodeAnswer { slot, ready: first(&ready, 1).map(number), lost: first(&can, 0).map(number) }
        });
        let answers: Vec<NodeAnswer> = answers.collect();
        for (question, found) in self.questions.iter().zip(&mut self.found) {
            if matches!(question.test, Test::Ready) {
                *found = Found::Nodes(answers.clone());
            }
        }
    }

    /// The nodes that are wait or ok in the first state.
    fn started(&mut self) -> u64 {
        self.now.unpack(self.records.frame.ids.len(), self.store.state(0));
        let marks = self.now.nodes.iter().enumerate();
        let marks = marks.map(|(slot, &node)| u64::from(self.records.place(node).status != 0) << slot);
        marks.fold(0, |marks, mark| marks | mark)
    }

    /// The states on the way to a state, the first of them at the start.
    pub fn way(&self, number: u32) -> Vec<u32> {
        let mut way = vec![number];
        while way[way.len() - 1] != 0 {
            way.push(self.store.parent(way[way.len() - 1]));
        }
        way.reverse();
        way
    }
}

impl Edges {
    /// For each state the marks of it and of every state that it leads to.
    fn backwards(&self, marks: &[u64]) -> Vec<u64> {
        let mut all = marks.to_vec();
        let mut moved = true;
        while moved {
            moved = false;
            for number in (0..all.len()).rev() {
                let begin = if number == 0 { 0 } else { self.ends[number - 1] as usize };
                let leads = &self.to[begin..self.ends[number] as usize];
                let gathered = leads.iter().fold(all[number], |marks, &to| marks | all[to as usize]);
                moved |= gathered != all[number];
                all[number] = gathered;
            }
        }
        all
    }
}
