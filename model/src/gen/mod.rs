//! Seeded requests: tables, walks, refusals, departures, damaged files, hops, rehearsals, water records, polls and malformed requests.

mod breach;
mod broken;
mod case;
mod damage;
mod hops;
mod keen;
mod leaving;
mod messages;
mod polls;
mod prime;
mod records;
mod rehearsals;
mod requests;
mod rng;
mod starts;
mod tables;
mod taking;
mod walk;

pub use requests::Requests;
pub use rng::Rng;
