//! A driver against the model.

use crate::frame::{read_frame, write_frame};
use crate::show;
use model::gen::Requests;
use model::wire::Server;
use model::Right;
use std::io::{self, BufReader, BufWriter, Write};
use std::process::{Child, ChildStdin, Command, Stdio};
use std::sync::mpsc::{channel, Receiver, Sender};
use std::thread;
use std::time::Instant;

/// Sends `count` requests to the driver; true if every reply is the model's.
pub fn compare(seed: u64, count: u64, command: &[&str]) -> io::Result<bool> {
    let begun = Instant::now();
    let mut child =
        Command::new(command[0]).args(&command[1..]).stdin(Stdio::piped()).stdout(Stdio::piped()).spawn()?;
    let input = child.stdin.take().expect("it is piped");
    let (sent, received) = channel();
    let writer = thread::spawn(move || send(seed, count, input, &sent));
    let outcome = judge(&mut child, &received)?;
    if let Some(difference) = outcome {
        println!("{difference}");
        // The driver may still wait for requests, or for its replies to be read.
        child.kill().ok();
        child.wait()?;
        return Ok(false);
    }
    if let Err(error) = writer.join().expect("the writer does not panic") {
        println!("the driver stopped reading: {error}");
        return Ok(false);
    }
    let status = child.wait()?;
    println!("{count} requests of seed {seed}: no difference, {:.1} s", begun.elapsed().as_secs_f64());
    if !status.success() {
        println!("the driver ended with {status}");
    }
    Ok(status.success())
}

/// Writes the requests to the driver and hands each on. The pipes bound how far this runs ahead.
fn send(seed: u64, count: u64, input: ChildStdin, sent: &Sender<Vec<u8>>) -> io::Result<()> {
    let mut input = BufWriter::with_capacity(1 << 16, input);
    let mut requests = Requests::new(seed);
    for _ in 0..count {
        let mut request = Vec::new();
        requests.put(&mut request);
        write_frame(&mut input, &request)?;
        if sent.send(request).is_err() {
            return Ok(());
        }
    }
    input.flush()
}

/// Reads and compares the replies; the first difference in words.
fn judge(child: &mut Child, received: &Receiver<Vec<u8>>) -> io::Result<Option<String>> {
    let output = child.stdout.take().expect("it is piped");
    let mut output = BufReader::with_capacity(1 << 16, output);
    let (mut model, mut reply, mut wanted) = (Server::new(Right), Vec::new(), Vec::new());
    for (nth, request) in received.iter().enumerate() {
        wanted.clear();
        model.answer(&request, &mut wanted);
        match read_frame(&mut output, &mut reply) {
            Ok(true) if reply == wanted => {}
            Ok(true) => return Ok(Some(show::difference(nth, &request, &wanted, &reply))),
            _ => {
                let shown = show::request(&request);
                return Ok(Some(format!("the driver gave no reply to request {nth}:\n{shown}")));
            }
        }
    }
    match read_frame(&mut output, &mut reply) {
        Ok(false) => Ok(None),
        _ => Ok(Some("the driver says more after its last reply".to_string())),
    }
}
