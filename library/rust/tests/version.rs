//! The package's version, beside that of the header and the newest in the change log.
mod common;
use common::text;
use lizsomdur::VERSION;

/// What stands behind the first of these words that begins a line.
fn behind(text: &str, words: &str) -> String {
    let found = text.lines().find_map(|line| line.strip_prefix(words));
    found.expect("such a line").to_string()
}

#[test]
fn the_header_has_the_same_version() {
    let header = text("library/lizsomdur.h");
    let numbers = ["MAJOR", "MINOR", "PATCH"]
        .map(|part| behind(&header, &format!("#define LIZSOMDUR_VERSION_{part} ")));
    assert_eq!(numbers.join("."), VERSION);
}

#[test]
fn the_change_log_begins_with_it() {
    assert_eq!(behind(&text("docs/CHANGELOG.md"), "## "), VERSION);
}
