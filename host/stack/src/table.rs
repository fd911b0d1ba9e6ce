//! A table of stack bytes in a text: behind the words that begin it, each
//! call's name with its figure behind it, `play 1,328` or `| play | 1,328 |`.

use crate::chains::Call;

/// The words that a table begins with.
const BEGINS: &str = "Stack, in bytes";

/// How many bytes a figure may be off.
const MARGIN: u64 = 64;

/// In words, which calls' figures the text's table doesn't have or has wrong.
pub fn misses(text: &str, calls: &[Call]) -> Vec<String> {
    calls.iter().filter_map(|call| miss(text, &call.name, call.chain.bytes)).collect()
}

fn miss(text: &str, name: &str, bytes: u64) -> Option<String> {
    let Some(told) = figure(text, name) else {
        return Some(format!("no figure for {name}, which takes {bytes} bytes of stack"));
    };
    let off = told.abs_diff(bytes) > MARGIN;
    off.then(|| format!("{name} takes {bytes} bytes of stack, and not {told}"))
}

/// The figure behind a call's name.
fn figure(text: &str, name: &str) -> Option<u64> {
    let (_, table) = text.split_once(BEGINS)?;
    let mut words = table.split(|c: char| c.is_whitespace() || "|*".contains(c));
    let mut words = words.by_ref().filter(|word| !word.is_empty()).peekable();
    while let Some(word) = words.next() {
        let behind = words.peek().and_then(|word| word.replace(',', "").parse().ok());
        if word == name && behind.is_some() {
            return behind;
        }
    }
    None
}

#[cfg(test)]
mod tests {
    use super::*;

    const TEXT: &str =
        "play 1\n * Stack, in bytes, of play:\n *  play 1,328 off 224\n| event | 1,360 |";

    #[test]
    fn figures() {
        let told = ["play", "off", "event", "replay"].map(|name| figure(TEXT, name));
        assert_eq!(told, [Some(1328), Some(224), Some(1360), None]);
    }

    #[test]
    fn a_figure_may_be_off_by_the_margin() {
        assert_eq!(miss(TEXT, "play", 1328 + MARGIN), None);
        assert_eq!(miss(TEXT, "play", 1328 - MARGIN), None);
        for bytes in [1328 + MARGIN + 1, 1328 - MARGIN - 1] {
            let told = format!("play takes {bytes} bytes of stack, and not 1328");
            assert_eq!(miss(TEXT, "play", bytes), Some(told));
        }
        assert!(miss(TEXT, "replay", 0).is_some());
    }
}
