//! Searches every order of a join plan. Not proved; every step is asked of the proved code.

pub mod action;
pub mod engine;
pub mod evidence;
pub mod file;
pub mod index;
pub mod moves;
pub mod options;
pub mod plan;
pub mod question;
pub mod ring;
pub mod rows;
pub mod search;
pub mod state;
pub mod store;
pub mod trouble;
