//! Runs every vector and compares bytes.
//!
//! The folder is taken from CHEUKDANE_VECTORS, else it is the project's own.
//! It holds `runlog`, `state` and `part`.

use std::fs;
use std::ops::RangeInclusive;
use std::path::{Path, PathBuf};

use reference::{partlog, runlog, statelog};

/// The registers whose bytes the lines of `state` have.
const BYTES: RangeInclusive<u32> = 0x00..=0x26;

fn vectors() -> PathBuf {
    match std::env::var_os("CHEUKDANE_VECTORS") {
        Some(folder) => PathBuf::from(folder),
        None => Path::new(env!("CARGO_MANIFEST_DIR")).join("../../crates/test_vectors/data"),
    }
}

fn bytes(path: &Path) -> Vec<u8> {
    fs::read(path).unwrap_or_else(|error| panic!("can't read {}: {error}", path.display()))
}

/// The files of one folder with this extension, sorted; none is a failure.
fn files(folder: &str, extension: &str) -> Vec<PathBuf> {
    let folder = vectors().join(folder);
    let entries = fs::read_dir(&folder).unwrap_or_else(|error| {
        panic!("no vectors: can't list {} ({error}); set CHEUKDANE_VECTORS", folder.display())
    });
    let mut paths: Vec<PathBuf> = entries
        .map(|entry| entry.expect("an entry of the folder").path())
        .filter(|path| path.extension().is_some_and(|found| found == extension))
        .collect();
    paths.sort();
    assert!(!paths.is_empty(), "no vectors: {} has no .{extension} files", folder.display());
    paths
}

/// The log of the same name, from the folder of logs.
fn log_of(path: &Path) -> PathBuf {
    let name = path.file_stem().expect("a file's name");
    vectors().join("runlog").join(name).with_extension("log")
}

/// Compares `made` with each expected file; every difference is listed.
fn compare(folder: &str, made: impl Fn(&Path) -> String) {
    let paths = files(folder, "out");
    let apart: Vec<String> =
        paths.iter().filter_map(|path| difference(path, &made(path))).collect();
    println!("{folder}: {} of {} agree", paths.len() - apart.len(), paths.len());
    assert!(apart.is_empty(), "{folder}: {} differ\n{}", apart.len(), apart.join("\n"));
}

/// The first line that differs, if the bytes do.
fn difference(path: &Path, made: &str) -> Option<String> {
    let wanted = bytes(path);
    if wanted == made.as_bytes() {
        return None;
    }
    let wanted = String::from_utf8_lossy(&wanted);
    let mut lines = wanted.lines().zip(made.lines());
    let first = lines.find(|(wanted, made)| wanted != made);
    let (wanted, made) = first.unwrap_or(("(its length)", "(another length)"));
    Some(format!("{}\n  wanted {wanted}\n  made   {made}", path.display()))
}

#[test]
fn runlog_prints_what_is_wanted() {
    compare("runlog", |path| runlog(&bytes(&log_of(path))));
}

#[test]
fn every_log_has_its_answer() {
    let logs = files("runlog", "log");
    for path in &logs {
        assert!(path.with_extension("out").exists(), "{} has no .out", path.display());
    }
    assert_eq!(logs.len(), files("runlog", "out").len());
    assert_eq!(files("part", "a").len(), files("part", "out").len());
}

#[test]
fn the_state_is_what_is_wanted() {
    compare("state", |path| statelog(&bytes(&log_of(path)), BYTES));
}

#[test]
fn two_logs_part_where_they_should() {
    compare("part", |path| {
        let first = bytes(&path.with_extension("a"));
        let second = bytes(&path.with_extension("b"));
        partlog(&first, &second)
    });
}
