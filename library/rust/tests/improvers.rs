//! Reversed runs and runs left by elimination, beside the original Rust planner's.
mod common;
use common::{pays, records, words};
use lizsomdur::{eliminate, reverse, Refusal, NO_ROAD};

/// Numbers behind how many they are, a byte each, and what follows.
fn counted(bytes: &[u8]) -> (&[u8], &[u8]) {
    bytes[1..].split_at(bytes[0].into())
}

/// A recorded question: the ends of the runs, the calls of all runs, and a sheet.
fn question(bytes: &[u8]) -> (&[u8], Vec<Vec<u8>>) {
    let (ends, rest) = counted(bytes);
    let (calls, sheet) = counted(rest);
    let starts = std::iter::once(&0).chain(ends);
    let runs = starts
        .zip(ends)
        .map(|(&a, &b)| calls[a.into()..b.into()].to_vec());
    (sheet, runs.collect())
}

/// The numbers of the answer's lines that begin with this word.
fn lines(answer: &str, word: &str) -> Vec<Vec<u64>> {
    answer
        .lines()
        .filter_map(|line| line.strip_prefix(word))
        .map(|rest| {
            rest.split_whitespace()
                .map(|n| n.parse().expect("a number"))
                .collect()
        })
        .collect()
}

/// A run's calls as the answer has them.
fn numbers(run: &[u8]) -> Vec<u64> {
    run.iter().map(|&call| call.into()).collect()
}

/// Whether a leg is closed, by the distances.
fn closed(sheet: &[u8]) -> bool {
    words(sheet).contains(&(0xC000_0000 | NO_ROAD))
}

/// The number by which the improvers refuse the sheet.
fn refusal(sheet: &[u8]) -> Option<u32> {
    if pays(sheet) {
        Some(4)
    } else {
        closed(sheet).then_some(23)
    }
}

#[test]
fn improved_runs_are_the_recorded_ones() {
    let records = records(b'r');
    assert!(records.len() >= 300);
    let (mut improved, mut barred) = (0, 0);
    for (number, (bytes, answer)) in records.iter().enumerate() {
        let (sheet, runs) = question(bytes);
        if let Some(by) = refusal(sheet) {
            let refused = Refusal {
                number: by,
                word: None,
            };
            assert_eq!(reverse(sheet, &[]), Err(refused), "question {number}");
            assert_eq!(eliminate(sheet, &runs), Err(refused), "question {number}");
            barred += usize::from(by == 23);
            continue;
        }
        let reversed: Vec<Vec<u64>> = runs
            .iter()
            .map(|run| {
                let (calls, distance) = reverse(sheet, run).expect("an accepted run");
                [vec![distance], numbers(&calls)].concat()
            })
            .collect();
        assert_eq!(reversed, lines(answer, "reversed"), "question {number}");
        let left = eliminate(sheet, &runs).expect("accepted runs");
        let left: Vec<Vec<u64>> = left.iter().map(|run| numbers(run)).collect();
        assert_eq!(left, lines(answer, "left"), "question {number}");
        improved += 1;
    }
    assert!(improved > 200 && barred > 40);
}
