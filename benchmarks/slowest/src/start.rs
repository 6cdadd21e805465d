//! Where the search begins: the adverse sheets of the benchmarks, drawn ones, and some that are made here.
use crate::call::{Call, MOST};
use crate::drawn;
use crate::fitted;
use crate::kinds::{FALLING, LOADS, ORDINARY, PLACED, RULES, SHUT};
use crate::passes;
use crate::question::{words_of, Question};
use crate::recipe::{Recipe, PLAIN};
use crate::word::{ended, kind, value, word, CLOSED};

/// How many sheets the benchmarks have by name, and how many are drawn.
const NAMED: usize = 40;
const DRAWN: u32 = 1_500;

/// How many calls of the tour can be driven home from: the others' ways home are closed, so that one after the
/// other is dropped, and runs go past them until then.
const HOME: [usize; 6] = [0, 10, 16, 21, 26, 32];

/// How many travellers the runs have that take many passes.
const TRAVELLERS: [usize; 5] = [1, 4, 12, 16, 20];

/// How many calls each run has that elimination is given.
const RUNS: [usize; 5] = [1, 2, 4, 16, 64];

fn words(recipe: Recipe) -> Vec<u32> {
    words_of(&fitted::sheet(recipe))
}

/// The tour's customers.
fn tour(words: &[u32]) -> Vec<u8> {
    let calls = words.iter().filter(|&&w| kind(w) == 0xE);
    calls.map(|&w| value(w) as u8).collect()
}

/// The same sheet with the ways home closed from all calls but the first ones.
fn closed(words: &[u32], open: usize) -> Vec<u32> {
    let places = value(words[0]) as usize;
    let mut words = words.to_vec();
    for &customer in tour(&words).iter().skip(open) {
        for table in [0xC, 0xD] {
            let first = words.iter().position(|&w| kind(w) == table);
            if let Some(first) = first {
                words[first + places * usize::from(customer)] = word(table, CLOSED);
            }
        }
    }
    words
}

/// The same sheet with a window for each customer that has none: open all day, so that it can be narrowed.
fn windowed(words: &[u32]) -> Vec<u32> {
    let mut all = Vec::new();
    for (at, &one) in words[..words.len() - 1].iter().enumerate() {
        all.push(one);
        if kind(one) == 8 && kind(words[at + 1]) != 9 {
            all.extend([word(9, 0), word(0xA, 10_000_000)]);
        }
    }
    ended(all)
}

fn sheets() -> Vec<Vec<u32>> {
    let named = [&ORDINARY[..], &LOADS, &RULES, &PLACED, &SHUT, &FALLING].concat();
    let named = named.iter().map(|&(_, recipe)| words(recipe));
    let mut sheets: Vec<Vec<u32>> = named.collect();
    assert_eq!(sheets.len(), NAMED);
    sheets.extend((0..DRAWN).map(|which| words(drawn::recipe(1, which))));
    let resting = PLACED.map(|(_, recipe)| words(recipe));
    for open in HOME {
        sheets.push(closed(&words(PLAIN), open));
        sheets.extend(resting.iter().map(|words| closed(words, open)));
    }
    sheets
}

/// As many calls as may be given: the tour over and over.
fn calls(words: &[u32]) -> Vec<u8> {
    tour(words).iter().copied().cycle().take(MOST).collect()
}

fn in_runs(words: Vec<u32>, run: usize) -> Question {
    let calls = calls(&words);
    let ends = (1..=calls.len()).filter(|&end| end % run == 0 || end == calls.len());
    Question {
        ends: ends.map(|end| end as u8).collect(),
        calls,
        ..Question::of(words)
    }
}

/// The customers that are due at 0, which no other run can take.
fn shut(words: &[u32]) -> Vec<u8> {
    let dues = words.iter().filter(|&&w| [7, 0xA].contains(&kind(w)));
    let (mut customer, mut shut) = (0, Vec::new());
    for &word in dues {
        if kind(word) == 7 {
            customer += 1;
        } else if value(word) == 0 {
            shut.push(customer);
        }
    }
    shut
}

/// A run for each call, those that can't go first: they are tried anew whenever one behind them has gone.
fn stuck_first(words: Vec<u32>) -> Question {
    let shut = shut(&words);
    let mut question = in_runs(words, 1);
    question.calls.sort_by_key(|call| !shut.contains(call));
    question
}

/// The questions that the search for a function begins with.
pub fn questions(call: Call) -> Vec<Question> {
    let sheets = sheets();
    if matches!(call, Call::Plan(_) | Call::Mark(_)) {
        return sheets.into_iter().map(Question::of).collect();
    }
    let windowed: Vec<Vec<u32>> = sheets
        .iter()
        .take(NAMED)
        .map(|words| windowed(words))
        .collect();
    let sheets = sheets.into_iter().chain(windowed);
    match call {
        Call::Reverse => {
            let made = TRAVELLERS.map(passes::question);
            sheets
                .map(|words| in_runs(words, MOST))
                .chain(made)
                .collect()
        }
        Call::Visits => {
            let placed = |place: u8| {
                move |question: Question| Question {
                    places: vec![place],
                    ..question
                }
            };
            let runs = sheets.map(|words| in_runs(words, MOST));
            let runs: Vec<Question> = runs.collect();
            let late = runs.clone().into_iter().map(placed(MOST as u8));
            runs.into_iter().map(placed(0)).chain(late).collect()
        }
        _ => {
            let each = |words: Vec<u32>| {
                let runs = RUNS.map(|run| in_runs(words.clone(), run));
                runs.into_iter().chain([stuck_first(words)])
            };
            sheets.flat_map(each).collect()
        }
    }
}
