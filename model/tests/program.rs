//! The program as a whole.

use std::io::Write;
use std::process::{Command, Output, Stdio};

const MODEL: &str = env!("CARGO_BIN_EXE_model");

fn run(arguments: &[&str]) -> Output {
    Command::new(MODEL).args(arguments).output().expect("the program starts")
}

#[test]
fn the_model_agrees_with_itself() {
    let output = run(&["compare", "3", "3000", "--", MODEL, "serve"]);
    assert!(output.status.success(), "{}", String::from_utf8_lossy(&output.stdout));
}

#[test]
fn a_misreading_is_found_and_shown() {
    let output = run(&["compare", "3", "3000", "--", MODEL, "serve", "TieAbove"]);
    let shown = String::from_utf8_lossy(&output.stdout);
    assert_eq!(output.status.code(), Some(1));
    assert!(shown.contains("is answered otherwise") && shown.contains("node 0: id "), "{shown}");
}

#[test]
fn a_driver_that_dies_is_found() {
    let output = run(&["compare", "3", "3000", "--", MODEL, "serve", "NoSuchSlip"]);
    assert_eq!(output.status.code(), Some(1));
}

#[test]
fn requests_are_served() {
    let requests = run(&["requests", "5", "200"]).stdout;
    let mut child = Command::new(MODEL)
        .arg("serve")
        .stdin(Stdio::piped())
        .stdout(Stdio::piped())
        .spawn()
        .expect("the program starts");
    let mut input = child.stdin.take().expect("it is piped");
    let writer = std::thread::spawn(move || input.write_all(&requests).expect("it reads"));
    let replies = child.wait_with_output().expect("it ends").stdout;
    writer.join().expect("all is written");
    let mut rest = &replies[..];
    let mut count = 0;
    while let Some((length, after)) = rest.split_first_chunk() {
        rest = &after[u32::from_le_bytes(*length) as usize..];
        count += 1;
    }
    assert_eq!(count, 200);
}

#[test]
fn a_wrong_command_is_refused() {
    assert_eq!(run(&["compare", "1", "2"]).status.code(), Some(2));
    assert_eq!(run(&["requests", "one", "2"]).status.code(), Some(2));
}
