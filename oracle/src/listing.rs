//! The listing of a sheet, planned by the Rust.
use crate::edges::all;
use crate::plan;
use std::fmt::Write;

/// That of an accepted sheet in words.
pub fn of(words: &[u32]) -> String {
    let plan = plan::of(words);
    let tour = all(words, 0xE);
    let mut text = String::new();
    for (run, total) in &plan.runs {
        text += "run";
        for customer in run {
            write!(text, " {customer}").unwrap();
        }
        if let Some((index, start)) = total.rest {
            write!(text, " rest {} {start}", index + 1).unwrap();
        }
        text += "\n";
    }
    for &position in &plan.dropped {
        writeln!(text, "drop {}", tour[position]).unwrap();
    }
    let (distance, cost) = (plan.distance, plan.cost);
    let (served, dropped) = (plan.served.len(), plan.dropped.len());
    writeln!(
        text,
        "total {distance} cost {cost} served {served} dropped {dropped}"
    )
    .unwrap();
    text
}
