//! Generated run lists with what the Rust makes of them, as records.
//!
//! A question is a byte for the number of runs, one for each run end, one for the number of calls, one for each call, and a sheet.
use crate::edges::{all, on_edge};
use crate::features::Features;
use crate::record::Out;
use crate::source::Source;
use crate::word::{bytes, ended, kind, unconstrained, value};
use crate::{random, reader, run_answer};

/// A question of this kind is a run list.
const RUNS: u8 = b'r';

/// `count` run lists to standard output; what they have, to standard error.
pub fn write(out: &mut Out, seed: u64, count: usize) {
    let mut source = Source::new(seed);
    let mut features = Features::default();
    for number in 0..count {
        let (words, calls) = sheet(&mut source, number);
        let ends = ends(&mut source, calls.len());
        let starts = [&[0], &ends[..]].concat();
        let routes: Vec<Vec<usize>> = std::iter::zip(starts, &ends)
            .map(|(start, &end)| calls[start..end].to_vec())
            .collect();
        let question = [counted(&ends), counted(&calls), bytes(&words)].concat();
        let answer = run_answer::of(&words, &routes);
        features.runs(&words, &routes, &answer);
        out.put(RUNS, &question, &answer);
    }
    eprintln!("{features}");
}

/// How many numbers there are and then each, a byte for each.
fn counted(numbers: &[usize]) -> Vec<u8> {
    let all = [&[numbers.len()], numbers].concat();
    all.iter()
        .map(|&n| u8::try_from(n).expect("a small number"))
        .collect()
}

/// An accepted sheet and the calls of its runs. Of two hundred sheets 170 are medium, 25 short with many calls, four large and one full. Of four at most one has lateness pay, and one has nothing that makes a run infeasible.
fn sheet(source: &mut Source, number: usize) -> (Vec<u32>, Vec<usize>) {
    let (mut words, many) = match number % 40 {
        0..34 => (random::medium(source), 1 + source.below(9)),
        34..39 => (random::short(source), 100 + source.below(29)),
        _ if number % 200 == 199 => (random::full(source), 128),
        _ => (random::large(source), 64 + source.below(65)),
    };
    words = match source.below(4) {
        0 => words,
        1 => unconstrained(&words),
        _ => without_pay(&words),
    };
    let calls = calls(source, &words, many);
    let mut moved = words.clone();
    on_edge(source, &mut moved, &calls);
    if reader::words(&bytes(&moved)).is_ok() {
        words = moved;
    }
    (words, calls.iter().map(|&c| c as usize).collect())
}

/// The tour, every other time where runs are short; else any customers, so many of them, and one may come again.
fn calls(source: &mut Source, words: &[u32], many: u32) -> Vec<u32> {
    let customers = value(words[0]) - 1;
    if customers == 0 || many < 10 && source.one_in(2) {
        return all(words, 0xE);
    }
    (0..many).map(|_| 1 + source.below(customers)).collect()
}

/// The same sheet without the penalties of customers that have a window.
fn without_pay(words: &[u32]) -> Vec<u32> {
    let mut kept: Vec<u32> = Vec::new();
    for &w in &words[..words.len() - 1] {
        let penalty = kind(w) == 0xB && kept.last().is_some_and(|&last| kind(last) == 0xA);
        if !penalty {
            kept.push(w);
        }
    }
    ended(kept)
}

/// At most 128 run ends that don't fall, up to the number of calls; empty runs among them. Runs are short, longer, or all calls are one.
fn ends(source: &mut Source, calls: usize) -> Vec<usize> {
    let whole = calls as u32;
    let step = source.one_of(&[4, 12, whole / 2 + 2, 4 * whole + 1, 4 * whole + 1]);
    let mut ends = Vec::new();
    let mut end = 0;
    while end < calls && ends.len() < 127 {
        end = (end + source.below(step) as usize).min(calls);
        ends.push(end);
    }
    if end < calls {
        ends.push(calls);
    }
    ends
}
