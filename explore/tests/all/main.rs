//! Tests of the explorer: beside the independent model, with wrong steps and keys, and on what was found.

mod common;
mod evidence;
mod questions;
mod states;
