//! `runlog` by the reference: a log from standard input, its lines to standard
//! output.

use std::io::{self, Read, Write};

fn main() -> io::Result<()> {
    let mut input = Vec::new();
    io::stdin().lock().read_to_end(&mut input)?;
    io::stdout().lock().write_all(reference::runlog(&input).as_bytes())
}
