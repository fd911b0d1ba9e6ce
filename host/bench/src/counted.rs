//! Instructions, as callgrind counts them.

use std::path::Path;
use std::process::{Command, Stdio};

/// The instructions of one run of a program.
pub fn instructions(program: &Path, arguments: &[&str], input: Stdio) -> u64 {
    let mut valgrind = Command::new("valgrind");
    valgrind.args(["--tool=callgrind", "--callgrind-out-file=/dev/null"]);
    let output = valgrind.arg(program).args(arguments).stdin(input).output();
    let output = output.expect("valgrind starts");
    assert!(output.status.success(), "{valgrind:?} ended with {}", output.status);
    let said = String::from_utf8_lossy(&output.stderr);
    let told = said.lines().find_map(|line| line.split("Collected : ").nth(1));
    told.expect("callgrind's count").trim().parse().expect("a number")
}
