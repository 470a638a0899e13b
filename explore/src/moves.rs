//! What comes of a move in a state. Every answer is the proved code's.
//!
//! Asked every time, the step is made on the whole state. Remembered, it is asked once for each different thing that the definition of the
//! step is handed (crates/step/specs/Step: `asked`, `act_of`): the dead nodes, the acting node, the message, for a Join the seed, and whether
//! the same request waits. It is then made on the table with the message alone, so that everything that it adds is seen, and what it adds is
//! added to the set.

use crate::action::{self, JOIN, LOOKUP, TAKING};
use crate::engine::{room, Engine, Room, Words};
use crate::file::{self, DEAD, HEADER, JOIN_REQUEST, MESSAGE, MESSAGES, NODE};
use crate::index::Index;
use crate::plan::Plan;
use crate::state::{Records, State};
use crate::trouble::Trouble;

/// Something that may be done in a state.
#[derive(Clone, Copy, Debug, PartialEq, Eq)]
pub enum Move {
    /// Takes the message at this place of the state's list, by this kind of action.
    Take(u64, usize),
    /// Does this action of the plan.
    Do(usize),
}

/// What a step comes to, whatever else waits.
struct Effect {
    number: u32,
    /// The acting node after it.
    node: u32,
    adds: Vec<u32>,
}

/// Effects by what the step is handed.
#[derive(Default)]
struct Memory {
    handed: Index<3>,
    effects: Vec<Effect>,
}

pub struct Mover<'a> {
    engine: &'a mut dyn Engine,
    pub plan: &'a Plan,
    memory: Option<Memory>,
    /// The state's own file, where it was written.
    file: Vec<u8>,
    is_written: bool,
    dead: u64,
    part: Vec<u8>,
    out: Room,
    /// How many steps were asked of the proved code.
    pub asked: u64,
}

impl<'a> Mover<'a> {
    pub fn new(engine: &'a mut dyn Engine, plan: &'a Plan, remember: bool) -> Mover<'a> {
        let memory = remember.then(Memory::default);
        let (file, part) = (Vec::new(), Vec::new());
        Mover { engine, plan, memory, file, is_written: false, dead: 0, part, out: room(), asked: 0 }
    }

    pub fn engine(&mut self) -> &mut dyn Engine {
        self.engine
    }

    /// Gets ready for the moves of this state.
    pub fn stand(&mut self, records: &Records, state: &State) {
        self.is_written = false;
        let dead = |(slot, &node): (usize, &u32)| u64::from(records.place(node).status == DEAD) << slot;
        self.dead = state.nodes.iter().enumerate().map(dead).fold(0, |marks, mark| marks | mark);
    }

    /// The moves of this state that may be tried, but for those that the statuses or a message's kind forbid.
    pub fn moves(&self, records: &Records, state: &State, moves: &mut Vec<Move>) {
        moves.clear();
        moves.extend(takings(records, state, true));
        let actions = self.plan.actions.iter().enumerate();
        let actions = actions.filter(|(_, &action)| !Plan::forbids(action, records, state));
        let allowed = actions.filter(|(_, &action)| self.plan.allows(action, records, state));
        moves.extend(allowed.map(|(at, _)| Move::Do(at)));
    }

    /// The actions that the statuses forbid, with 2, and those that a message's kind forbids, with 5.
    pub fn forbidden(&self, records: &Records, state: &State) -> Vec<(Move, u32)> {
        let actions = self.plan.actions.iter().enumerate();
        let actions = actions.filter(|(_, &action)| Plan::forbids(action, records, state));
        let takings = takings(records, state, false).map(|step| (step, 5));
        actions.map(|(at, _)| (Move::Do(at), 2)).chain(takings).collect()
    }

    /// Makes a move: 01's number, and where it is 0 the state after it.
    pub fn make(
        &mut self,
        records: &mut Records,
        state: &State,
        step: Move,
        after: &mut State,
    ) -> Result<u32, Trouble> {
        if self.memory.is_none() || !action::kind(self.number(step)).local {
            return self.ask(records, state, step, after);
        }
        let at = self.effect(records, state, step)?;
        let effect = &self.memory.as_ref().expect("it is there").effects[at];
        if effect.number != 0 {
            return Ok(effect.number);
        }
        after.nodes.clone_from(&state.nodes);
        after.nodes[self.acting(records, state, step)] = effect.node;
        after.messages.clone_from(&state.messages);
        if let Move::Take(_, place) = step {
            after.messages.remove(place);
        }
        for add in &effect.adds {
            if let Some(place) = records.room_for(*add, &after.messages) {
                after.messages.insert(place, *add);
            }
        }
        if after.messages.len() > MESSAGES {
            return self.ask(records, state, step, after);
        }
        Ok(0)
    }

    /// Asks for the step on the whole state.
    pub fn ask(
        &mut self,
        records: &mut Records,
        state: &State,
        step: Move,
        after: &mut State,
    ) -> Result<u32, Trouble> {
        if !self.is_written {
            records.write(&state.nodes, &state.messages, &mut self.file);
            self.is_written = true;
        }
        let words = match step {
            Move::Take(kind, place) => [kind, place as u64, 0],
            Move::Do(at) => self.plan.actions[at],
        };
        self.asked += 1;
        let answer = self.engine.step(&self.file, words, &mut self.out)?;
        if answer.number == 0 {
            self.read(records, state, step, answer.count, after);
        }
        possible(answer.number)
    }

    /// The state of the file after the step; records that stayed are not looked up again.
    fn read(&self, records: &mut Records, state: &State, step: Move, count: usize, after: &mut State) {
        after.nodes.clear();
        after.messages.clear();
        let out = &self.out[..count];
        for (slot, &node) in state.nodes.iter().enumerate() {
            let at = HEADER + NODE * slot..HEADER + NODE * (slot + 1);
            let stayed = out[at.clone()] == self.file[at.clone()];
            let number = if stayed { node } else { records.node_number(file::node(&out[at])) };
            after.nodes.push(number);
        }
        let behind = HEADER + NODE * state.nodes.len();
        let mut olds = self.file[behind..].chunks_exact(MESSAGE).zip(&state.messages).enumerate();
        for record in out[behind..].chunks_exact(MESSAGE) {
            let mut old = olds.next();
            if old.as_ref().is_some_and(|(place, _)| matches!(step, Move::Take(_, taken) if taken == *place))
            {
                old = olds.next();
            }
            let number = match old {
                Some((_, (bytes, number))) if bytes == record => *number,
                _ => records.message_number(file::message(record)),
            };
            after.messages.push(number);
        }
        after.messages.sort_unstable();
        after.messages.dedup();
    }

    /// The number of a move's action.
    fn number(&self, step: Move) -> u64 {
        match step {
            Move::Take(kind, _) => kind,
            Move::Do(at) => self.plan.actions[at][0],
        }
    }

    /// The slot whose node the step looks at and writes.
    fn acting(&self, records: &Records, state: &State, step: Move) -> usize {
        match step {
            Move::Take(_, place) => records.message(state.messages[place]).to() as usize,
            Move::Do(at) => self.plan.actions[at][1] as usize,
        }
    }

    /// Where the effect of a move is held; asks for it where it is new.
    fn effect(&mut self, records: &mut Records, state: &State, step: Move) -> Result<usize, Trouble> {
        let slot = self.acting(records, state, step);
        let node = u64::from(state.nodes[slot]);
        let handed = match step {
            Move::Take(kind, place) => [kind << 32 | u64::from(state.messages[place]), node, self.dead],
            Move::Do(at) => {
                let [number, _, y] = self.plan.actions[at];
                let other = if number == LOOKUP { 0 } else { u64::from(state.nodes[y as usize]) };
                let waits = u64::from(self.same(records, state, at).next().is_some());
                [number << 32 | at as u64, node << 32 | other, waits]
            }
        };
        let memory = self.memory.as_mut().expect("it is there");
        let (at, is_new) = memory.handed.number(&handed);
        if is_new {
            let effect = self.part(records, state, step, slot)?;
            self.memory.as_mut().expect("it is there").effects.push(effect);
        }
        Ok(at as usize)
    }

    /// The waiting messages that a plan's action is refused for: the same Lookup, or a JoinRequest of the same node.
    fn same<'s>(&self, records: &'s Records, state: &'s State, at: usize) -> impl Iterator<Item = u32> + 's {
        let [number, x, y] = self.plan.actions[at];
        let looks = number == JOIN || number == LOOKUP;
        let messages = state.messages.iter().copied().filter(move |_| looks);
        messages.filter(move |&message| {
            let message = records.message(message);
            match number {
                JOIN => message.kind() == JOIN_REQUEST && u64::from(message.word()) == x,
                _ => {
                    message.kind() == file::LOOKUP
                        && (u64::from(message.to()), u64::from(message.word())) == (x, y)
                }
            }
        })
    }

    /// Asks for a step on the table with no message but those that it is about.
    fn part(
        &mut self,
        records: &mut Records,
        state: &State,
        step: Move,
        slot: usize,
    ) -> Result<Effect, Trouble> {
        let (words, messages): (Words, Vec<u32>) = match step {
            Move::Take(kind, place) => ([kind, 0, 0], vec![state.messages[place]]),
            Move::Do(at) => (self.plan.actions[at], self.same(records, state, at).collect()),
        };
        records.write(&state.nodes, &messages, &mut self.part);
        self.asked += 1;
        let answer = self.engine.step(&self.part, words, &mut self.out)?;
        let number = possible(answer.number)?;
        let mut effect = Effect { number, node: state.nodes[slot], adds: Vec::new() };
        if number == 0 {
            let mut after = State::default();
            records.read(&self.out[..answer.count], &mut after);
            let others = after.nodes.iter().zip(&state.nodes).enumerate();
            if others.filter(|(at, _)| *at != slot).any(|(_, (new, old))| new != old) {
                return Err(Trouble::Failed("a step changed a node that does not act".to_string()));
            }
            effect.node = after.nodes[slot];
            effect.adds = after.messages;
        }
        Ok(effect)
    }

    pub fn bytes(&self) -> usize {
        let memory = self.memory.as_ref();
        memory.map_or(0, |memory| memory.handed.bytes() + memory.effects.capacity() * size_of::<Effect>())
    }
}

/// The handling of each message by each kind of action that is for messages of its kind, or that is not.
fn takings<'s>(records: &'s Records, state: &'s State, fits: bool) -> impl Iterator<Item = Move> + 's {
    let lookup = |place: usize| records.message(state.messages[place]).kind() == file::LOOKUP;
    let of = move |(kind, lookups): (u64, bool)| {
        let places = (0..state.messages.len()).filter(move |&place| (lookup(place) == lookups) == fits);
        places.map(move |place| Move::Take(kind, place))
    };
    TAKING.into_iter().flat_map(of)
}

/// A number that a step of a state can answer; 7 to 11 would say that the state is none.
fn possible(number: u32) -> Result<u32, Trouble> {
    match number {
        0..=6 => Ok(number),
        _ => Err(Trouble::Refused(number)),
    }
}
