//! What the generated requests are: how often each kind of request gets each number.

use model::gen::Requests;
use model::wire::{Request, Server};
use model::{load, Right, Table, EMPTY_POOL};
use std::collections::BTreeMap;

fn name(request: &[u8]) -> String {
    let (action, file) = match Request::parse(request) {
        None => return "malformed".to_string(),
        Some(Request::Load { .. }) => return "load".to_string(),
        Some(Request::Start { .. }) => return "start".to_string(),
        Some(Request::Settled { .. }) => return "settled".to_string(),
        Some(Request::List { .. }) => return "list".to_string(),
        Some(Request::Begin { .. }) => return "begin".to_string(),
        Some(Request::Next { .. }) => return "next".to_string(),
        Some(Request::Records) => return "records".to_string(),
        Some(Request::Place { .. }) => return "place".to_string(),
        Some(Request::Sum) => return "sum".to_string(),
        Some(Request::Waiting { .. }) => return "waiting".to_string(),
        Some(Request::Step { action, file } | Request::StepVia { action, file }) => (action, file),
    };
    let (mut table, mut pool) = (Table::BLANK, EMPTY_POOL);
    let loaded = load(file, &mut table, &mut pool).is_ok();
    let name = format!("{action:?}").split(' ').next().unwrap_or_default().to_lowercase();
    match action.place() {
        Some(place) if loaded && place < table.count => format!("{name} {}", pool[place].fields().kind),
        _ => name,
    }
}

fn main() {
    let mut argument = std::env::args().skip(1).map(|text| text.parse().expect("a number"));
    let (seed, count) = (argument.next().unwrap_or(1), argument.next().unwrap_or(100_000));
    let (mut requests, mut model) = (Requests::new(seed), Server::new(Right));
    let mut seen: BTreeMap<String, BTreeMap<i64, u64>> = BTreeMap::new();
    let (mut request, mut reply, mut bytes) = (Vec::new(), Vec::new(), 0);
    for _ in 0..count {
        request.clear();
        reply.clear();
        requests.put(&mut request);
        model.answer(&request, &mut reply);
        bytes += request.len();
        let number = i64::from(i32::from_le_bytes([reply[0], reply[1], reply[2], reply[3]]));
        *seen.entry(name(&request)).or_default().entry(number).or_default() += 1;
    }
    println!("{count} requests of {} bytes on average", bytes / count as usize);
    for (name, numbers) in seen {
        let numbers: Vec<String> =
            numbers.iter().map(|(number, times)| format!("{number}: {times}")).collect();
        println!("{name:16} {}", numbers.join("  "));
    }
}
