//! An independent model of the ring bench of document 01, and of the change requests that have landed.
//!
//! The right reading is the crate's plain functions. Each `*_as` function takes a [`Reading`],
//! so that misreadings of 01 run through the same source.

mod actions;
mod change;
mod file;
pub mod gen;
mod hop;
mod index;
pub mod judge;
mod leave;
mod listing;
pub mod marks;
mod message;
mod reading;
mod refusal;
mod rehearsal;
mod ring;
mod settled;
mod slip;
mod slips;
mod start;
mod step;
mod table;
mod take;
mod valid;
mod view;
mod waiting;
mod water;
pub mod wire;

pub use file::{load, load_as, total, write, write_as, HEADER, LARGEST, MESSAGE, NODE};
pub use hop::Via;
pub use listing::{listing, listing_as};
pub use message::{Fields, Message, Pool, EMPTY_POOL};
pub use reading::{Reading, Right, Slipped};
pub use refusal::Refusal;
pub use rehearsal::{Rehearsal, Verdict};
pub use ring::Ring;
pub use settled::{settled, settled_as};
pub use slip::Slip;
pub use start::{start, start_as};
pub use step::{step, step_as, step_via, Action};
pub use table::{Node, Sides, Status, Table};
pub use valid::is_valid;
pub use waiting::{first_waiting, first_waiting_as};
pub use water::{Held, Record, Store};
