//! An archive's object code as text, by LLVM's objdump or, where there is none,
//! GNU's, which reads the code of its own machine alone.

use std::path::Path;
use std::process::Command;

/// The listing of an archive's code, with relocations.
///
/// # Panics
///
/// If no tool at hand reads it.
pub fn disassembled(archive: &Path) -> String {
    let listings = ["llvm-objdump", "objdump"].iter().filter_map(|tool| listed(tool, archive));
    let mut read = listings.filter(|listing| listing.contains("<cheukdane_"));
    read.next().unwrap_or_else(|| {
        panic!("neither llvm-objdump nor objdump finds the calls in {}", archive.display())
    })
}

fn listed(tool: &str, archive: &Path) -> Option<String> {
    let mut command = Command::new(tool);
    let output = command.args(["-d", "-r", "--no-show-raw-insn"]).arg(archive).output().ok()?;
    output.status.success().then(|| String::from_utf8_lossy(&output.stdout).into_owned())
}
