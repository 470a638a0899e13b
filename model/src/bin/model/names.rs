//! Requests by name.

use model::wire::Request;
use model::{load, Action, Table, EMPTY_POOL};

/// The call, for a step its action, and the kind of the message where it handles one.
pub fn name(request: &[u8]) -> String {
    match Request::parse(request) {
        None => "malformed".to_string(),
        Some(Request::Load { .. }) => "load".to_string(),
        Some(Request::Start { .. }) => "start".to_string(),
        Some(Request::Settled { .. }) => "settled".to_string(),
        Some(Request::List { .. }) => "list".to_string(),
        Some(Request::Begin { .. }) => "begin".to_string(),
        Some(Request::Next { .. }) => "next".to_string(),
        Some(Request::Records) => "records".to_string(),
        Some(Request::Place { .. }) => "place".to_string(),
        Some(Request::Sum) => "sum".to_string(),
        Some(Request::Waiting { .. }) => "waiting".to_string(),
        Some(Request::StepVia { .. }) => "step with via".to_string(),
        Some(Request::Step { action, file }) => format!("step {}", action_name(action, file)),
    }
}

fn action_name(action: Action, file: &[u8]) -> String {
    let name = format!("{action:?}");
    let name = name.split(' ').next().unwrap_or_default().to_string();
    let Some(place) = action.place() else {
        return name;
    };
    let (mut table, mut pool) = (Table::BLANK, EMPTY_POOL);
    match load(file, &mut table, &mut pool) {
        Ok(()) if place < table.count => format!("{name} of kind {}", pool[place].fields().kind),
        _ => name,
    }
}
