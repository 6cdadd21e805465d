//! The numbers of refusals, verdicts and violations: those of the package beside those of lizsomdur.h, and the refusals beside those of docs/SHEET.md.
mod common;
use common::text;
use lizsomdur::{Refusal, Verdict, Violation};

/// The header's named numbers with this beginning: name without it, number, and the comment behind.
fn named(beginning: &str) -> Vec<(String, u32, String)> {
    let header = text("library/lizsomdur.h");
    let lines = header
        .lines()
        .filter_map(|line| line.trim().strip_prefix(beginning));
    lines
        .filter_map(|line| {
            let (name, rest) = line.split_once(" = ")?;
            let (number, comment) = rest.split_once("/* ")?;
            let number = number.trim().trim_end_matches(',').parse().ok()?;
            let comment = comment.strip_suffix(" */")?;
            Some((name.to_string(), number, comment.to_string()))
        })
        .collect()
}

#[test]
fn the_header_has_the_refusals_of_the_package() {
    let package = Refusal::ALL.iter();
    let package = package.map(|&(number, name, meaning)| (name.into(), number, meaning.into()));
    assert_eq!(named("LIZSOMDUR_REFUSED_"), package.collect::<Vec<_>>());
}

/// The cells of the rows that begin with a number, in the tables of the page.
fn refusal_rows(page: &str) -> Vec<(u32, String)> {
    let rows = page.lines().filter(|line| line.starts_with("| "));
    rows.filter_map(|row| {
        let mut cells = row.trim_matches('|').split(" | ").map(str::trim);
        let number = cells.next()?.parse().ok()?;
        Some((number, cells.next()?.to_string()))
    })
    .collect()
}

/// 14 is of a lent leg table, which no function of the library has. The first words of a meaning begin a cell there.
#[test]
fn the_page_on_sheets_has_the_same_refusals() {
    let page = text("docs/SHEET.md");
    let (_, page) = page.split_once("\n## Refusals\n").expect("the refusals");
    let rows = refusal_rows(page);
    for (number, what) in &rows {
        let known = Refusal::ALL.iter().any(|row| row.0 == *number);
        assert_eq!(known, *number != 14, "{number}: {what}");
    }
    for (number, _, meaning) in Refusal::ALL {
        let first = meaning.split(',').next().expect("some words");
        let told = |(other, what): &(u32, String)| other == number && what.starts_with(first);
        assert!(rows.iter().any(told), "{number}: {first}");
    }
}

#[test]
fn a_refusal_is_shown_by_number_word_and_meaning() {
    let shown = |number, word| Refusal { number, word }.to_string();
    let kind = "refused 11 at word 6: a kind that may not stand here";
    assert_eq!(shown(Refusal::WRONG_KIND, Some(6)), kind);
    let short = "refused 13: a lent list too short";
    assert_eq!(shown(Refusal::LIST_TOO_SHORT, None), short);
    let none = "refused 99: a number that the library does not have";
    assert_eq!(shown(99, None), none);
}

/// In the order of their numbers.
const VERDICTS: [(&str, u32); 12] = [
    ("OTHER_CALLS", Verdict::OTHER_CALLS),
    ("OVERLOAD", Verdict::OVERLOAD),
    ("BREAK_TOO_LATE", Verdict::BREAK_TOO_LATE),
    ("WINDOW_MISSED", Verdict::WINDOW_MISSED),
    ("BREAK_MISSING", Verdict::BREAK_MISSING),
    ("TOO_FAR", Verdict::TOO_FAR),
    ("TOO_LONG", Verdict::TOO_LONG),
    ("BEST", Verdict::BEST),
    ("DEARER", Verdict::DEARER),
    ("CHEAPER", Verdict::CHEAPER),
    ("WHEELCHAIR_OVERLOAD", Verdict::WHEELCHAIR_OVERLOAD),
    ("ROAD_CLOSED", Verdict::ROAD_CLOSED),
];

#[test]
fn the_header_has_the_verdicts_of_the_package() {
    let header = named("LIZSOMDUR_").into_iter();
    let other = |name: &str| name.starts_with("REFUSED_") || name.starts_with("VIOLATION_");
    let header = header.filter(|(name, ..)| !other(name));
    let header: Vec<(String, u32)> = header.map(|(name, number, _)| (name, number)).collect();
    assert_eq!(
        header,
        VERDICTS.map(|(name, number)| (name.to_string(), number))
    );
}

/// In the order of their numbers.
const VIOLATIONS: [(&str, u8); 7] = [
    ("WINDOW", Violation::WINDOW),
    ("BREAK", Violation::BREAK),
    ("LOAD", Violation::LOAD),
    ("DISTANCE", Violation::DISTANCE),
    ("DURATION", Violation::DURATION),
    ("WHEELCHAIRS", Violation::WHEELCHAIRS),
    ("CLOSED_LEG", Violation::CLOSED_LEG),
];

#[test]
fn the_header_has_the_violations_of_the_package() {
    let header = named("LIZSOMDUR_VIOLATION_").into_iter();
    let header: Vec<(String, u32)> = header.map(|(name, number, _)| (name, number)).collect();
    assert_eq!(
        header,
        VIOLATIONS.map(|(name, number)| (name.to_string(), u32::from(number)))
    );
}

/// Both are errors that a program may hand on.
#[test]
fn refusals_and_verdicts_are_errors() {
    let refusal = Refusal {
        number: Refusal::NO_END,
        word: Some(0),
    };
    let errors: [Box<dyn std::error::Error>; 2] = [Box::new(refusal), Box::new(Verdict::Best)];
    let shown = errors.map(|error| error.to_string());
    assert_eq!(shown[0], "refused 12 at word 0: the words end before F");
    assert_eq!(shown[1], "best");
}
