//! Which misreadings a request tells from the right reading.

use crate::reading::{Right, Slipped};
use crate::slip::Slip;
use crate::wire::Server;

/// The right reading and every misreading, each asked the same requests.
pub struct Judge {
    right: Server<Right>,
    slipped: Vec<(Slip, Server<Slipped>)>,
    reply: Vec<u8>,
    other: Vec<u8>,
}

impl Default for Judge {
    fn default() -> Judge {
        Judge::of(Slip::ALL)
    }
}

impl Judge {
    /// A judge of some misreadings.
    pub fn of(slips: &[Slip]) -> Judge {
        let server = |&slip: &Slip| (slip, Server::new(Slipped(Some(slip))));
        let slipped = slips.iter().map(server).collect();
        Judge { right: Server::new(Right), slipped, reply: Vec::new(), other: Vec::new() }
    }

    /// The misreadings that answer the next request otherwise.
    pub fn hear(&mut self, request: &[u8]) -> Vec<Slip> {
        self.reply.clear();
        self.right.answer(request, &mut self.reply);
        let mut told = Vec::new();
        for (slip, server) in &mut self.slipped {
            self.other.clear();
            server.answer(request, &mut self.other);
            if self.other != self.reply {
                told.push(*slip);
            }
        }
        told
    }

    /// The right reply to the last request.
    pub fn reply(&self) -> &[u8] {
        &self.reply
    }
}

/// How often each misreading is told apart by some requests.
pub struct Tally {
    counts: Vec<u64>,
}

impl Tally {
    /// Asks every misreading the requests.
    pub fn of(requests: impl Iterator<Item = Vec<u8>>) -> Tally {
        let (mut judge, mut counts) = (Judge::default(), vec![0; Slip::ALL.len()]);
        for request in requests {
            judge.hear(&request).into_iter().for_each(|slip| counts[slip as usize] += 1);
        }
        Tally { counts }
    }

    pub fn count(&self, slip: Slip) -> u64 {
        self.counts[slip as usize]
    }

    /// The misreadings that fewer than `least` requests tell, of the rare ones those that none tells, and those that are
    /// told though they are equivalent.
    pub fn wrong(&self, least: u64) -> Vec<Slip> {
        let wrong = |&slip: &Slip| match (slip.equivalent(), slip.rare()) {
            (Some(_), _) => self.count(slip) > 0,
            (None, Some(_)) => self.count(slip) == 0,
            (None, None) => self.count(slip) < least,
        };
        Slip::ALL.iter().copied().filter(wrong).collect()
    }

    /// How many misreadings are told apart, in one line.
    pub fn summary(&self, by: &str) -> String {
        let (all, told) = (Slip::ALL.len(), self.counts.iter().filter(|&&count| count > 0).count());
        let equivalent = Slip::ALL.iter().filter(|slip| slip.equivalent().is_some()).count();
        format!("{all} misreadings: {told} told apart by {by}, {equivalent} equivalent")
    }
}
