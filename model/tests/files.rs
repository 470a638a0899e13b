//! The table file: round trips and refusals, record by record.

mod common;

use common::{number, Bench};
use model::gen::Requests;
use model::wire::Request;
use model::{load, Fields, Message, Sides, EMPTY_POOL};

/// The valid files among generated requests.
fn files(seed: u64, count: usize) -> Vec<Vec<u8>> {
    let mut requests = Requests::new(seed);
    let mut files = Vec::new();
    for _ in 0..count {
        let mut bytes = Vec::new();
        requests.put(&mut bytes);
        match Request::parse(&bytes) {
            Some(Request::Step { file, .. } | Request::Load { file }) => files.push(file.to_vec()),
            Some(Request::Begin { file } | Request::Next { stated: file, .. }) => files.push(file.to_vec()),
            Some(Request::Place { file, .. } | Request::Waiting { file, .. }) => files.push(file.to_vec()),
            _ => {}
        }
    }
    files
}

#[test]
fn read_and_written_back_files_are_equal() {
    let mut accepted = 0;
    for file in files(3, 4_000) {
        if let Ok(bench) = Bench::load(&file) {
            accepted += 1;
            assert_eq!(bench.file(), file);
            assert_eq!(Bench::load(&bench.file()), Ok(bench));
        }
    }
    assert!(accepted > 2_000);
}

#[test]
fn refused_files_change_nothing() {
    let before = {
        let mut bench = Bench::start(8, 1, &[17, 18], &[0]);
        bench.pool[7] = Message::Lookup { to: 9, key: 9, hops: 0 };
        bench
    };
    for file in files(4, 2_000) {
        let mut bench = before.clone();
        if number(load(&file, &mut bench.table, &mut bench.pool)) != 0 {
            assert_eq!(bench, before);
        } else {
            assert!(bench.pool[bench.table.count..].iter().all(|m| *m == Message::Blank));
        }
    }
}

/// One message of each kind for a table of four with L = 1.
fn messages() -> [Message; 8] {
    let sides = Sides { left: 4, right: 8 };
    [
        Message::Lookup { to: 0, key: 80, hops: 0 },
        Message::JoinRequest { to: 1, node: 2, routing: 15, hops: 0 },
        Message::JoinReply { to: 1, owner: 1, routing: 15, sides },
        Message::LsProbe { to: 1, node: 1, sides, failed: 3 },
        Message::LsProbeReply { to: 1, node: 1, sides, failed: 3 },
        Message::NoLegalRoute { to: 3, key: 255, hops: 0 },
        Message::LeaseRequest { to: 3, node: 3 },
        Message::BroadcastLSet { to: 3, owner: 1, sides, grant: true },
    ]
}

#[test]
fn fields_and_messages_agree() {
    for message in messages() {
        assert_eq!(Message::from_fields(&message.fields()), Some(message));
    }
    assert_eq!(Message::from_fields(&Fields::default()), None);
    assert_eq!(EMPTY_POOL[0].fields(), Fields::default());
}

/// Which of the ten fields of a record each kind has, after the kind itself and the destination:
/// node or key, flag, owner, hops, routing, left, right, failed.
const HELD: [[bool; 8]; 8] = {
    const O: bool = false;
    const X: bool = true;
    [
        [X, O, O, X, O, O, O, O],
        [X, O, O, O, X, O, O, O],
        [O, O, X, O, X, X, X, O],
        [X, O, X, O, O, X, X, X],
        [X, O, X, O, O, X, X, X],
        [X, O, O, O, O, O, O, O],
        [X, O, O, O, O, O, O, O],
        [O, X, X, O, O, X, X, O],
    ]
};

#[test]
fn fields_that_a_kind_lacks_are_0() {
    let mut bench = Bench::start(8, 1, &[17, 18, 65, 95], &[0]);
    bench.pool[..8].copy_from_slice(&messages());
    bench.table.count = 8;
    let file = bench.file();
    assert_eq!(Bench::load(&file), Ok(bench));
    let first = 32 + 64 * 4;
    for (kind, held) in HELD.iter().enumerate() {
        for (field, held) in held.iter().enumerate() {
            let at = first + 56 * kind + if field < 4 { 8 + 4 * field } else { 24 + 8 * (field - 4) };
            let mut changed = file.clone();
            let zero = changed[at..at + 4] == [0; 4];
            assert!(*held || zero, "kind {} field {field}", kind + 1);
            if !held {
                changed[at] = 1;
                assert_eq!(number(Bench::load(&changed)), 10, "kind {} field {field}", kind + 1);
            }
        }
    }
    for kind in [4, 5] {
        let mut changed = file.clone();
        changed[first + 56 * (kind - 1) + 16] = 0;
        assert_eq!(number(Bench::load(&changed)), 10, "owner and node of a probe differ");
    }
    let mut changed = file.clone();
    changed[first + 56 * 7 + 12] = 2;
    assert_eq!(number(Bench::load(&changed)), 10, "a flag above 1");
}

#[test]
fn headers_are_refused_in_order() {
    let file = Bench::start(8, 1, &[17, 18, 65, 95], &[0]).file();
    let with = |nth: usize, word: u32| {
        let mut changed = file.clone();
        changed[4 * nth..4 * nth + 4].copy_from_slice(&word.to_le_bytes());
        number(Bench::load(&changed))
    };
    let cases = [
        (0, 1, 8),
        (0, 33, 8),
        (0, 2, 10),
        (1, 0, 8),
        (1, 9, 8),
        (1, 2, 0),
        (2, 0, 8),
        (2, 65, 8),
        (2, 3, 9),
        (3, 257, 8),
        (3, 1, 9),
        (4, 31, 9),
        (4, 0, 9),
        (5, 287, 9),
        (6, 289, 9),
        (6, 0, 9),
        (7, 1, 8),
        (7, u32::MAX, 8),
    ];
    for (nth, word, wanted) in cases {
        assert_eq!(with(nth, word), wanted, "word {nth} is {word}");
    }
    for length in 0..file.len() {
        let wanted = if length < 32 { 7 } else { 9 };
        assert_eq!(number(Bench::load(&file[..length])), wanted, "{length} bytes");
    }
}
