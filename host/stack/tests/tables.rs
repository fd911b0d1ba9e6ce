//! The program on the archive that CHEUKDANE_ARCHIVE names, or else the one that
//! `rt lib` left: the stored tables pass, and one with a figure 200 bytes
//! lower, or without it, doesn't.

use std::env;
use std::fs;
use std::path::{Path, PathBuf};
use std::process::{Command, Output};

const TABLES: [&str; 2] = ["include/cheukdane.h", "README.md"];
const CALLS: [&str; 9] =
    ["off", "play", "replay", "event", "report", "register", "write", "compare", "rules"];

fn root() -> PathBuf {
    Path::new(env!("CARGO_MANIFEST_DIR")).join("../..")
}

fn stack(table: &Path) -> Output {
    let archive = env::var_os("CHEUKDANE_ARCHIVE")
        .map_or_else(|| root().join("crates/cheukdane/out/libcheukdane.a"), PathBuf::from);
    let mut command = Command::new(env!("CARGO_BIN_EXE_stack"));
    command.arg(archive).arg(table).output().expect("the program starts")
}

/// The text around a call's figure, and the figure.
fn around<'a>(text: &'a str, call: &str) -> (&'a str, u64, &'a str) {
    let table = text.find("Stack, in bytes").expect("a table");
    let spots = text[table..].match_indices(call).map(|(at, _)| table + at);
    for spot in spots {
        let before = text[..spot].chars().next_back();
        let behind = &text[spot + call.len()..];
        let gap = behind.len() - behind.trim_start_matches([' ', '|']).len();
        let start = spot + call.len() + gap;
        let end = start + text[start..].find(|c: char| !c.is_ascii_digit() && c != ',').unwrap();
        if gap > 0 && end > start && before == Some(' ') {
            let figure = text[start..end].replace(',', "").parse().expect("a number");
            return (&text[..start], figure, &text[end..]);
        }
    }
    panic!("no figure for {call}");
}

/// What the program says of a table that it must refuse.
fn refused(name: &str, text: &str) -> String {
    let file = env::temp_dir().join(format!("cheukdane-{}-{name}", std::process::id()));
    fs::write(&file, text).expect("a file for the test");
    let told = stack(&file);
    fs::remove_file(&file).expect("the test's file");
    assert_eq!(told.status.code(), Some(1), "{name} is let through");
    String::from_utf8_lossy(&told.stderr).into_owned()
}

#[test]
fn the_stored_tables_hold() {
    for table in TABLES {
        let told = stack(&root().join(table));
        assert!(told.status.success(), "{}", String::from_utf8_lossy(&told.stderr));
    }
}

/// Each call's figure of each table, one at a time, with something else put for
/// it: the table must be refused in one line that has these words of the call.
fn each_changed(put: fn(u64) -> String, words: fn(&str) -> String) {
    for table in TABLES {
        let text = fs::read_to_string(root().join(table)).expect("the table's file");
        for call in CALLS {
            let (before, figure, behind) = around(&text, call);
            let put = put(figure);
            let name = format!("{call}-{put}");
            let said = refused(&name, &format!("{before}{put}{behind}"));
            assert!(said.contains(&words(call)) && said.lines().count() == 1, "{name}: {said}");
        }
    }
}

#[test]
fn a_figure_200_bytes_off_is_refused() {
    let off = |figure: u64| figure.checked_sub(200).unwrap_or(figure + 200).to_string();
    each_changed(off, |call| format!("{call} takes"));
}

#[test]
fn a_call_without_a_figure_is_refused() {
    each_changed(|_| String::new(), |call| format!("no figure for {call},"));
}
