//! Recorded questions with the oracle's answers, and sheets in words.
#![allow(dead_code)]
pub mod faulty;
pub mod listing;
pub mod recorded_marks;
pub mod sheets;
pub mod worked;

use lizsomdur::{GivenRun, Placement};
use std::path::{Path, PathBuf};

pub const PLACEMENTS: [Placement; 2] = [Placement::Clock, Placement::Least];

/// A file of the repository.
pub fn kept(path: &str) -> PathBuf {
    Path::new(env!("CARGO_MANIFEST_DIR"))
        .join("../..")
        .join(path)
}

/// A text of the repository.
pub fn text(path: &str) -> String {
    std::fs::read_to_string(kept(path)).expect("a text of the repository")
}

/// A sample sheet.
pub fn sample(name: &str) -> Vec<u8> {
    std::fs::read(kept("samples").join(name).with_extension("sheet")).expect("a sample")
}

/// Each question of this kind with its answer: those in the repository and, where LIZSOMDUR_RECORDS names a file, those in it.
pub fn records(kind: u8) -> Vec<(Vec<u8>, String)> {
    let files = [
        "crates/test_replay/stdin",
        "library/rust/tests/marks.recorded",
        "library/rust/tests/least.recorded",
    ];
    let files = files.map(|file| std::fs::read(kept(file)).expect("recorded answers"));
    let mut bytes = files.concat();
    if let Some(more) = std::env::var_os("LIZSOMDUR_RECORDS") {
        bytes.extend(std::fs::read(more).expect("more recorded answers"));
    }
    let mut rest = &bytes[..];
    let mut records = Vec::new();
    while !rest.is_empty() {
        let question = part(&mut rest);
        let answer = String::from_utf8(part(&mut rest).to_vec()).expect("text");
        if question[0] == kind {
            records.push((question[1..].to_vec(), answer));
        }
    }
    records
}

/// The next part of a record, behind its length.
fn part<'a>(rest: &mut &'a [u8]) -> &'a [u8] {
    let (length, after) = rest.split_at(4);
    let length = u32::from_le_bytes(length.try_into().expect("four bytes")) as usize;
    let (part, after) = after.split_at(length);
    *rest = after;
    part
}

pub fn words(sheet: &[u8]) -> Vec<u32> {
    sheet
        .chunks_exact(4)
        .map(|b| u32::from_le_bytes(b.try_into().expect("four bytes")))
        .collect()
}

pub fn bytes(words: &[u32]) -> Vec<u8> {
    words.iter().flat_map(|w| w.to_le_bytes()).collect()
}

pub fn kind(word: u32) -> u32 {
    word >> 28
}

/// Lateness is paid where a customer has a window and a penalty.
pub fn pays(sheet: &[u8]) -> bool {
    words(sheet)
        .windows(2)
        .any(|pair| kind(pair[0]) == 0xA && kind(pair[1]) == 0xB)
}

/// The customers of a sheet's calls.
pub fn tour(sheet: &[u8]) -> Vec<u32> {
    words(sheet)
        .into_iter()
        .filter(|&w| kind(w) == 0xE)
        .map(|w| w & 0x0FFF_FFFF)
        .collect()
}

/// The bytes of a sheet whose words end with these calls.
pub fn ended(mut words: Vec<u32>, calls: &[u8]) -> Vec<u8> {
    words.extend(calls.iter().map(|&c| 0xE000_0000 | u32::from(c)));
    words.push(0xF000_0000 | words.len() as u32);
    bytes(&words)
}

/// The sheet with other calls.
pub fn with_tour(sheet: &[u8], calls: &[u8]) -> Vec<u8> {
    let kept = words(sheet).into_iter().filter(|&w| kind(w) < 0xE);
    ended(kept.collect(), calls)
}

/// Runs to be marked, by their calls and break places.
pub fn runs<Calls: AsRef<[u8]>>(runs: &[(Calls, u8)]) -> Vec<GivenRun<'_>> {
    runs.iter()
        .map(|(calls, place)| given(calls.as_ref(), *place))
        .collect()
}

/// A run to be marked, by its calls and its break place.
pub fn given(calls: &[u8], place: u8) -> GivenRun<'_> {
    GivenRun {
        calls,
        break_place: (place > 0).then_some(place),
    }
}
