//! All functions called by several threads at once, on the same sheets and on different ones: the answers are those of one thread alone.
mod common;
use common::{records, sample, PLACEMENTS};
use lizsomdur::{eliminate, mark_by, plan_by, reverse, timeline};
use std::sync::Barrier;
use std::thread;

const THREADS: usize = 8;

/// What all functions say of a sheet: its plans, the marks of these, its runs improved, and when they are where.
fn answers(sheet: &[u8]) -> String {
    let plans = PLACEMENTS.map(|placement| plan_by(placement, sheet));
    let Ok(plan) = &plans[0] else {
        return format!("{plans:?}");
    };
    let marks = PLACEMENTS.map(|placement| mark_by(placement, sheet, &plan.runs));
    let runs: Vec<Vec<u8>> = plan.runs.iter().map(|run| run.calls.clone()).collect();
    let improved = (reverse(sheet, &runs.concat()), eliminate(sheet, &runs));
    let told: Vec<_> = plan.runs.iter().map(|run| timeline(sheet, run)).collect();
    format!("{plans:?} {marks:?} {improved:?} {told:?}")
}

/// Each thread asks for all sheets, beginning so many after the thread before it.
fn asked_by_threads(sheets: &[Vec<u8>], apart: usize) {
    let alone: Vec<String> = sheets.iter().map(|sheet| answers(sheet)).collect();
    let start = Barrier::new(THREADS);
    thread::scope(|scope| {
        for number in 0..THREADS {
            let (alone, start) = (&alone, &start);
            scope.spawn(move || {
                start.wait();
                for k in 0..sheets.len() {
                    let k = (k + number * apart) % sheets.len();
                    assert_eq!(answers(&sheets[k]), alone[k], "thread {number}, sheet {k}");
                }
            });
        }
    });
}

#[test]
fn threads_on_different_sheets() {
    let records = [records(b's'), records(b'l')].concat();
    let sheets: Vec<Vec<u8>> = records.into_iter().map(|(sheet, _)| sheet).collect();
    asked_by_threads(&sheets, sheets.len() / THREADS);
}

#[test]
fn threads_on_one_sheet() {
    let sheets = ["full", "drops", "ford"].map(|name| vec![sample(name); 40]);
    for sheets in sheets {
        asked_by_threads(&sheets, 0);
    }
}
