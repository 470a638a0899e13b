//! Small tables made by hand.

#![allow(dead_code)]

use model::{
    load, settled, start, step, write, Action, Message, Node, Pool, Refusal, Sides, Status, Table,
    EMPTY_POOL, LARGEST,
};

pub const READY: Status = Status::Ready;
pub const OK: Status = Status::Ok;
pub const WAIT: Status = Status::Wait;
pub const DEAD: Status = Status::Dead;

/// A table and its list of messages, as a caller holds them.
#[derive(Clone, PartialEq, Debug)]
pub struct Bench {
    pub table: Table,
    pub pool: Pool,
}

pub fn marks(slots: &[usize]) -> u64 {
    slots.iter().map(|slot| 1 << slot).sum()
}

/// A node by its id, status, left and right.
pub fn node(id: u32, status: Status, left: &[usize], right: &[usize]) -> Node {
    Node { id, status, sides: Sides { left: marks(left), right: marks(right) }, ..Node::BLANK }
}

impl Bench {
    pub fn blank() -> Bench {
        Bench { table: Table::BLANK, pool: EMPTY_POOL }
    }

    pub fn of(m: u32, l: u32, nodes: &[Node]) -> Bench {
        let mut bench = Bench::blank();
        bench.table = Table { m, l, n: nodes.len(), ..Table::BLANK };
        bench.table.nodes[..nodes.len()].copy_from_slice(nodes);
        bench
    }

    pub fn start(m: u64, l: u64, ids: &[u32], ready: &[usize]) -> Bench {
        let mut bench = Bench::blank();
        start(m, l, ids, marks(ready), &mut bench.table, &mut bench.pool).expect("the start is right");
        bench
    }

    /// The step's number.
    pub fn step(&mut self, action: Action) -> u32 {
        number(step(&mut self.table, &mut self.pool, action))
    }

    /// Makes a step that must be done.
    pub fn done(&mut self, action: Action) {
        assert_eq!(self.step(action), 0, "{action:?}");
    }

    pub fn take(&mut self, place: usize) -> u32 {
        self.step(Action::Take { place })
    }

    pub fn deliver(&mut self, place: usize) -> u32 {
        self.step(Action::Deliver { place })
    }

    pub fn forward(&mut self, place: usize) -> u32 {
        self.step(Action::Forward { place })
    }

    pub fn lookup(&mut self, at: usize, key: u64) {
        self.done(Action::Lookup { at, key });
    }

    pub fn waiting(&self) -> &[Message] {
        &self.pool[..self.table.count]
    }

    pub fn settled(&self) -> bool {
        settled(&self.table, &self.pool).expect("the table is valid")
    }

    pub fn status(&self, slot: usize) -> Status {
        self.table.nodes[slot].status
    }

    pub fn file(&self) -> Vec<u8> {
        let mut buffer = vec![0; LARGEST];
        let length = write(&self.table, &self.pool, &mut buffer).expect("the table is valid");
        buffer.truncate(length);
        buffer
    }

    pub fn load(file: &[u8]) -> Result<Bench, Refusal> {
        let mut bench = Bench::blank();
        load(file, &mut bench.table, &mut bench.pool).map(|()| bench)
    }

    /// Where the lookup of `key` at `at` goes, as the only message, by the one of the pair that is done.
    pub fn hop(&self, at: usize, key: u64) -> Hop {
        let mut bench = self.clone();
        bench.table.count = 0;
        bench.lookup(at, key);
        let mut delivered = bench.clone();
        match (delivered.deliver(0), bench.forward(0)) {
            (0, 5) => {
                assert!(delivered.waiting().is_empty());
                return Hop::Delivered;
            }
            numbers => assert_eq!(numbers, (5, 0), "one of the pair is done"),
        }
        match bench.waiting() {
            [Message::Lookup { to, .. }] => Hop::To(usize::from(*to)),
            [Message::NoLegalRoute { to, .. }] if usize::from(*to) == at => Hop::NoRoute,
            other => panic!("{other:?}"),
        }
    }
}

#[derive(Debug, PartialEq, Eq)]
pub enum Hop {
    Delivered,
    To(usize),
    NoRoute,
}

pub fn number<T>(result: Result<T, Refusal>) -> u32 {
    result.err().map_or(0, Refusal::number)
}
