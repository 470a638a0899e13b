//! Instructions of a function's calls, counted by callgrind on a second run of this program.

use std::fs;
use std::process::{Command, Stdio};

/// Callgrind counts each byte of a `rep movsb` as an instruction, so the C library is told to copy by vectors.
const NO_REP: &str =
    "glibc.cpu.x86_rep_movsb_threshold=0x40000000:glibc.cpu.x86_rep_stosb_threshold=0x40000000";

/// Instructions of each call of a function in a run of this program with some words, all that it calls
/// included; none where valgrind is not there, or does not see every call return (some on Arm).
pub fn of(function: &str, words: &[&str], calls: usize) -> Option<Vec<u64>> {
    let folder = std::env::temp_dir().join(format!("counts-{}", std::process::id()));
    fs::create_dir_all(&folder).expect("a temporary folder");
    let out = folder.join("out");
    let ran = Command::new("valgrind")
        .env("GLIBC_TUNABLES", NO_REP)
        .args(["--tool=callgrind", "--collect-atstart=no"])
        .arg(format!("--toggle-collect={function}"))
        .arg(format!("--dump-after={function}"))
        .arg(format!("--callgrind-out-file={}", out.display()))
        .arg(std::env::current_exe().expect("this program has a path"))
        .args(words)
        .stderr(Stdio::null())
        .status();
    let dump = |k: usize| fs::read_to_string(format!("{}.{k}", out.display())).ok();
    let counts = (1..=calls).map(|k| Some(total(&dump(k)?))).collect();
    fs::remove_dir_all(&folder).expect("the folder is ours");
    ran.is_ok_and(|status| status.success()).then_some(counts)?
}

/// The instructions of a dump.
fn total(dump: &str) -> u64 {
    let line = dump.lines().find_map(|line| line.strip_prefix("totals: ")).expect("a dump has totals");
    line.split(' ').next().and_then(|word| word.parse().ok()).expect("a number")
}
