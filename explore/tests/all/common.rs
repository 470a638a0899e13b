//! Searches for the tests, and the same searches by the independent model.

use explore::engine::{nearest, room, Engine, Words};
use explore::file;
use explore::moves::Mover;
use explore::plan::{Limits, Plan};
use explore::question::Question;
use explore::search::{Bounds, End, Found, NodeAnswer, Search};
use explore::state::{Key, Records, State};
use explore::store::Store;
use explore::trouble::Trouble;
use std::collections::HashSet;
use std::time::Duration;

/// Table files with their messages sorted: pools of the same messages are one state.
pub type States = HashSet<Vec<u8>>;

pub struct Case {
    pub m: u64,
    pub l: u64,
    pub ready: u64,
    pub ids: &'static [u32],
    pub plan: &'static str,
    pub expiries: bool,
    pub limits: Limits,
}

impl Case {
    pub const fn new(m: u64, l: u64, ready: u64, ids: &'static [u32], plan: &'static str) -> Case {
        let limits = Limits { joining: None, waiting: None, in_order: false };
        Case { m, l, ready, ids, plan, expiries: false, limits }
    }

    pub fn plan(&self, frame: &file::Frame) -> Plan {
        let plan = Plan::parse(self.plan, frame).expect("a plan").with_requests(self.ids.len());
        let plan = if self.expiries { plan.with_expiries(self.ids.len()) } else { plan };
        Plan { limits: self.limits, ..plan }
    }

    pub fn start(&self, engine: &mut dyn Engine) -> Vec<u8> {
        let mut out = room();
        let answer = engine.start([self.m, self.l, self.ready], self.ids, &mut out).expect("a reply");
        assert_eq!(answer.number, 0);
        out[..answer.count].to_vec()
    }
}

/// How a search is made.
#[derive(Clone, Copy)]
pub struct How {
    pub remember: bool,
    pub audit: u32,
    pub key: Key,
}

impl How {
    pub const REMEMBERED: How = How { remember: true, audit: 1000, key: Key::WHOLE };
    pub const EVERY: How = How { remember: false, audit: 0, key: Key::WHOLE };
}

/// What a search comes to.
pub struct Outcome {
    pub end: End,
    pub depth: usize,
    /// For each question the actions to what was found first.
    pub found: Vec<Option<usize>>,
    pub nodes: Vec<NodeAnswer>,
    records: Records,
    store: Store,
}

impl Outcome {
    pub fn count(&self) -> usize {
        self.store.len()
    }

    /// The table file of a state, its messages sorted.
    pub fn file(&self, number: usize) -> Vec<u8> {
        let (mut state, mut file) = (State::default(), Vec::new());
        state.unpack(self.records.frame.ids.len(), self.store.state(number as u32));
        self.records.write(&state.nodes, &state.messages, &mut file);
        sorted(&file)
    }

    /// A state as the store holds it.
    pub fn packed(&self, number: usize) -> &[u8] {
        self.store.state(number as u32)
    }

    pub fn states(&self) -> States {
        (0..self.count()).map(|number| self.file(number)).collect()
    }
}

pub fn driver() -> String {
    std::env::var("DRIVER").unwrap_or(concat!(env!("CARGO_MANIFEST_DIR"), "/../bin/driver").to_string())
}

pub fn engine() -> Box<dyn Engine> {
    nearest(&driver()).expect("the proved code")
}

pub fn sorted(file: &[u8]) -> Vec<u8> {
    let behind = u32::from_le_bytes(file[20..24].try_into().expect("four bytes")) as usize;
    let mut messages: Vec<&[u8]> = file[behind..].chunks(file::MESSAGE).collect();
    messages.sort();
    [&file[..behind], &messages.concat()].concat()
}

/// Searches from a table file.
pub fn search_from(
    engine: &mut dyn Engine,
    start: &[u8],
    plan: &Plan,
    how: How,
    questions: &[&'static Question],
) -> Result<Outcome, Trouble> {
    let records = Records::new(file::read(start).frame, how.key);
    let mover = Mover::new(engine, plan, how.remember);
    let bounds = Bounds { states: 3_000_000, ..Bounds::default() };
    let mut search = Search::new(records, mover, start, questions.to_vec(), bounds, how.audit);
    let end = search.run(Duration::MAX, &mut |_| ())?;
    Ok(outcome(search, end))
}

pub fn search(case: &Case, how: How, questions: &[&'static Question]) -> Result<Outcome, Trouble> {
    let mut engine = engine();
    let start = case.start(engine.as_mut());
    let plan = case.plan(&file::read(&start).frame);
    search_from(engine.as_mut(), &start, &plan, how, questions)
}

fn outcome(search: Search, end: End) -> Outcome {
    let found = search.found.iter().map(|found| match found {
        Found::At(number, _) => Some(search.way(*number).len() - 1),
        _ => None,
    });
    let nodes = search.found.iter().find_map(|found| match found {
        Found::Nodes(nodes) => Some(nodes.clone()),
        _ => None,
    });
    Outcome {
        end,
        depth: search.depth(),
        found: found.collect(),
        nodes: nodes.unwrap_or_default(),
        records: search.records,
        store: search.store,
    }
}

/// How often each action is done in a search, by its number.
pub type Done = [usize; 16];

/// The states and the depth of a case, and how often each action is done in them, by the model's own start, step and file.
pub fn by_model(case: &Case) -> (States, usize, Done) {
    let (mut table, mut pool) = (model::Table::BLANK, model::EMPTY_POOL);
    model::start(case.m, case.l, case.ids, case.ready, &mut table, &mut pool).expect("a start");
    let plan = case.plan(&file::read(&written(&table, &pool)).frame);
    let mut states = States::new();
    let mut level = vec![written(&table, &pool)];
    states.insert(level[0].clone());
    let (mut depth, mut done) = (0, [0; 16]);
    loop {
        let mut next = Vec::new();
        for state in &level {
            for (number, after) in successors(case, &plan, state) {
                done[number] += 1;
                if states.insert(after.clone()) {
                    next.push(after);
                }
            }
        }
        if next.is_empty() {
            return (states, depth, done);
        }
        level = next;
        depth += 1;
    }
}

fn written(table: &model::Table, pool: &model::Pool) -> Vec<u8> {
    let mut file = vec![0; model::LARGEST];
    let count = model::write(table, pool, &mut file).expect("a valid table");
    sorted(&file[..count])
}

/// What each action that is done in a state leads to, with the action's number.
fn successors(case: &Case, plan: &Plan, state: &[u8]) -> Vec<(usize, Vec<u8>)> {
    let (mut table, mut pool) = (model::Table::BLANK, model::EMPTY_POOL);
    model::load(state, &mut table, &mut pool).expect("a table file");
    let handled = |place| [[6, place, 0], [7, place, 0], [8, place, 0]];
    let takes = (0..table.count as u64).flat_map(handled);
    let joins: Vec<usize> =
        plan.actions.iter().filter(|action| action[0] == 2).map(|action| action[1] as usize).collect();
    let allowed = |action: &Words| action[0] != 2 || may_join(case, &table, &joins, action[1] as usize);
    let made = |action: Words| {
        let (mut table, mut pool) = (table, pool);
        let done = model::step(&mut table, &mut pool, model_action(action)).is_ok();
        done.then(|| (action[0] as usize, written(&table, &pool)))
    };
    takes.chain(plan.actions.iter().copied().filter(allowed)).filter_map(made).collect()
}

fn may_join(case: &Case, table: &model::Table, joins: &[usize], slot: usize) -> bool {
    let with = |status| table.listed().iter().filter(|node| node.status == status).count();
    let wait = with(model::Status::Wait);
    let before = joins.iter().position(|&join| join == slot).unwrap_or(0);
    let begun = joins[..before].iter().all(|&join| table.nodes[join].status != model::Status::Dead);
    (begun || !case.limits.in_order)
        && case.limits.waiting.is_none_or(|most| wait < most)
        && case.limits.joining.is_none_or(|most| wait + with(model::Status::Ok) < most)
}

fn model_action([number, x, y]: Words) -> model::Action {
    let (node, other) = (x as usize, y as usize);
    match number {
        1 => model::Action::Lookup { at: node, key: y },
        2 => model::Action::Join { node, seed: other },
        3 => model::Action::RequestLease { node },
        4 => model::Action::LeaseExpired { node, partner: other },
        5 => model::Action::GrantExpired { node, partner: other },
        6 => model::Action::Take { place: node },
        7 => model::Action::Deliver { place: node },
        8 => model::Action::Forward { place: node },
        9 => model::Action::NodeLeft { node },
        10 => model::Action::SuspectFaulty { node, partner: other },
        11 => model::Action::ProbeTimeOut { node, partner: other },
        12 => model::Action::DeclareDead { node, partner: other },
        13 => model::Action::LsRepair { node },
        14 => model::Action::ResignNode { node, seed: other },
        15 => model::Action::Recover { node },
        _ => unreachable!("no other action is asked for"),
    }
}
