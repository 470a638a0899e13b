//! answer: answers the driver's requests (docs/DRIVER.md) on standard input, but those of water records and of
//! what waits for a node, by the six calls. A rehearsal is checked by step and `==`.

use std::io::{self, Read, Write};
use std::process::ExitCode;
use tarpudhriv::{Action, Refused, Via};

/// What a request that is none is answered.
const MALFORMED: Refused = Refused(u32::MAX);

/// The longest request.
const ROOM: usize = 65_536;

/// A further step of a rehearsal after an end or beyond so many.
const OVER: Refused = Refused(12);
const STEPS: u32 = 1_000;

/// A rehearsal: the last good file, none after an end, and the steps looked at.
#[derive(Default)]
struct Rehearsal {
    good: Option<Vec<u8>>,
    steps: u32,
}

impl Rehearsal {
    fn begin(&mut self, file: &[u8]) -> Vec<u8> {
        *self = Rehearsal { good: tarpudhriv::load(file).ok(), steps: 0 };
        self.verdict()
    }

    fn next(&mut self, action: Action, stated: &[u8]) -> Result<Vec<u8>, Refused> {
        let good = self.good.as_ref().filter(|_| self.steps < STEPS).ok_or(OVER)?;
        self.good = tarpudhriv::step(good, action).ok().filter(|file| file == stated);
        self.steps += 1;
        Ok(self.verdict())
    }

    /// The bytes of the verdict.
    fn verdict(&self) -> Vec<u8> {
        match self.good {
            Some(_) => vec![1],
            None => [&[0][..], &self.steps.to_le_bytes()].concat(),
        }
    }
}

fn word(bytes: &[u8], k: usize) -> u64 {
    u64::from_le_bytes(bytes[8 * k..][..8].try_into().expect("eight bytes"))
}

fn action(rest: &[u8]) -> Result<Action, Refused> {
    let (slot, second) = (word(rest, 1), word(rest, 2));
    match word(rest, 0) {
        1 => Ok(Action::Lookup { slot, key: second }),
        2 => Ok(Action::Join { slot, seed: second }),
        3 => Ok(Action::RequestLease { slot }),
        4 => Ok(Action::LeaseExpired { slot, other: second }),
        5 => Ok(Action::GrantExpired { slot, other: second }),
        6 => Ok(Action::Take { place: slot }),
        7 => Ok(Action::Deliver { place: slot }),
        8 => Ok(Action::Forward { place: slot }),
        9 => Ok(Action::NodeLeft { slot }),
        10 => Ok(Action::SuspectFaulty { slot, other: second }),
        11 => Ok(Action::ProbeTimeOut { slot, other: second }),
        12 => Ok(Action::DeclareDead { slot, other: second }),
        13 => Ok(Action::LsRepair { slot }),
        14 => Ok(Action::ResignNode { slot, ready: second }),
        15 => Ok(Action::Recover { slot }),
        _ => Err(MALFORMED),
    }
}

/// A step with its letter before the file, 0 where it routed nothing.
fn step_via(rest: &[u8]) -> Result<Vec<u8>, Refused> {
    let (via, file) = tarpudhriv::step_via(&rest[24..], action(rest)?)?;
    Ok([&[via.map_or(0, Via::letter)][..], &file].concat())
}

fn start(rest: &[u8]) -> Result<Vec<u8>, Refused> {
    let ids: Vec<u32> =
        rest[24..].chunks(4).map(|id| u32::from_le_bytes(id.try_into().expect("four bytes"))).collect();
    tarpudhriv::start(word(rest, 0), word(rest, 1), word(rest, 2), &ids)
}

fn reply_to(rehearsal: &mut Rehearsal, request: &[u8]) -> Result<Vec<u8>, Refused> {
    if request.len() > ROOM {
        return Err(MALFORMED);
    }
    let (kind, rest) = request.split_first().ok_or(MALFORMED)?;
    match kind {
        0 => tarpudhriv::load(rest),
        1 if rest.len() >= 24 => tarpudhriv::step(&rest[24..], action(rest)?),
        2 if rest.len() >= 24 && rest.len() % 4 == 0 => start(rest),
        3 => tarpudhriv::settled(rest).map(|said| vec![u8::from(said)]),
        4 => Ok(tarpudhriv::list(rest)),
        5 => Ok(rehearsal.begin(rest)),
        6 if rest.len() >= 24 => rehearsal.next(action(rest)?, &rest[24..]),
        11 if rest.len() >= 24 => step_via(rest),
        _ => Err(MALFORMED),
    }
}

/// Answers until the input ends; an input that ends inside a request, and output that fails, are errors.
fn answer(mut from: impl Read, mut to: impl Write) -> io::Result<()> {
    let mut rehearsal = Rehearsal::default();
    while let Some(request) = next_request(&mut from)? {
        let reply = reply_to(&mut rehearsal, &request);
        let (number, result) = match &reply {
            Ok(result) => (0, result.as_slice()),
            Err(Refused(number)) => (*number, &[][..]),
        };
        to.write_all(&(4 + result.len() as u32).to_le_bytes())?;
        to.write_all(&number.to_le_bytes())?;
        to.write_all(result)?;
    }
    to.flush()
}

/// The next request, or nothing at the end of the input.
fn next_request(from: &mut impl Read) -> io::Result<Option<Vec<u8>>> {
    let mut head = Vec::new();
    from.take(4).read_to_end(&mut head)?;
    let Ok(length) = <[u8; 4]>::try_from(head.as_slice()) else {
        return if head.is_empty() { Ok(None) } else { Err(io::ErrorKind::UnexpectedEof.into()) };
    };
    let mut request = vec![0; u32::from_le_bytes(length) as usize];
    from.read_exact(&mut request)?;
    Ok(Some(request))
}

fn main() -> ExitCode {
    match answer(io::stdin().lock(), io::stdout().lock()) {
        Ok(()) => ExitCode::SUCCESS,
        Err(error) => {
            writeln!(io::stderr(), "answer: {error}").ok();
            ExitCode::from(2)
        }
    }
}
