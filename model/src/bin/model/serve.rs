//! The driver and the source of requests.

use crate::frame::{read_frame, write_frame};
use model::gen::Requests;
use model::wire::Server;
use model::{Reading, Right, Slip, Slipped};
use std::io::{self, BufReader, BufWriter, Write};

/// Answers requests until the input ends, by the right reading or by a named misreading.
pub fn serve(slip: Option<&str>) -> io::Result<()> {
    let Some(name) = slip else {
        return serve_as(Right);
    };
    let slip = Slip::ALL.iter().find(|slip| format!("{slip:?}") == name);
    let slip = slip.ok_or_else(|| io::Error::other(format!("no such misreading: {name}")))?;
    serve_as(Slipped(Some(*slip)))
}

fn serve_as<R: Reading>(r: R) -> io::Result<()> {
    let mut input = BufReader::with_capacity(1 << 16, io::stdin().lock());
    let mut output = BufWriter::with_capacity(1 << 16, io::stdout().lock());
    let (mut server, mut request, mut reply) = (Server::new(r), Vec::new(), Vec::new());
    while read_frame(&mut input, &mut request)? {
        reply.clear();
        server.answer(&request, &mut reply);
        write_frame(&mut output, &reply)?;
        if input.buffer().is_empty() {
            output.flush()?;
        }
    }
    output.flush()
}

/// Writes `count` requests of the seed after the first `from`.
pub fn requests(seed: u64, count: u64, from: u64) -> io::Result<()> {
    let mut output = BufWriter::with_capacity(1 << 16, io::stdout().lock());
    let mut requests = Requests::new(seed);
    let mut request = Vec::new();
    for nth in 0..from.saturating_add(count) {
        request.clear();
        requests.put(&mut request);
        if nth >= from {
            write_frame(&mut output, &request)?;
        }
    }
    output.flush()
}
