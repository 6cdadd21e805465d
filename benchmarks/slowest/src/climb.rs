//! The search: from the slowest questions to begin with, change after change, keeping what takes longer.
use crate::call::{Call, Pace};
use crate::change::changed;
use crate::question::Question;
use crate::source::Source;
use std::time::{Duration, Instant};

/// How many questions are changed side by side; in the second half of the time only the slowest is.
const SIDES: usize = 4;

/// A question is slower if it is so at each of these looks, one longer than the other: by how much, and for how
/// long both are timed. The shortest turn of each counts, so that what else the machine does is left out.
const LOOKS: [(f64, Pace); 3] = [
    (1.01, FIRST),
    (
        1.006,
        Pace {
            turns: 3,
            whole: 20_000.0,
        },
    ),
    (1.005, LAST),
];
const FIRST: Pace = Pace {
    turns: 2,
    whole: 3_000.0,
};
const LAST: Pace = Pace {
    turns: 5,
    whole: 200_000.0,
};

type Timed = (f64, Question);

/// The slowest of the questions that the search begins with.
fn first(call: Call, start: impl Iterator<Item = Question>) -> Vec<Timed> {
    let questions = start.map(|question| call.fitted(question));
    let timed = questions.filter_map(|question| Some((call.time(&question, FIRST)?, question)));
    let mut timed: Vec<Timed> = timed.collect();
    timed.sort_by(|a, b| b.0.total_cmp(&a.0));
    timed.truncate(5 * SIDES);
    best(call, &mut timed, SIDES);
    timed
}

/// Times the questions for long, and leaves so many of the slowest.
fn best(call: Call, timed: &mut Vec<Timed>, left: usize) {
    for (time, question) in timed.iter_mut() {
        *time = call.time(question, LAST).expect("an accepted question");
    }
    timed.sort_by(|a, b| b.0.total_cmp(&a.0));
    timed.truncate(left);
}

/// Takes the place of the old question if it is slower.
fn challenge(call: Call, old: &mut Timed, new: Question) {
    let slower = |(by, pace)| {
        let (before, now) = call.times(&old.1, &new, pace)?;
        (now > before * by).then_some(now)
    };
    let [first, second, last] = LOOKS;
    let found = slower(first)
        .and_then(|_| slower(second))
        .and_then(|_| slower(last));
    if let Some(time) = found {
        *old = (time, new);
    }
}

/// The slowest question that is found in so many seconds.
pub fn slowest(
    call: Call,
    start: impl Iterator<Item = Question>,
    seconds: u32,
    seed: u32,
) -> Question {
    let whole = Duration::from_secs(u64::from(seconds));
    let (mut sides, mut source) = (first(call, start), Source::new(u64::from(seed)));
    eprintln!("{}: {:.0} µs to begin with", call.name(), sides[0].0);
    let (start, mut tried) = (Instant::now(), 0);
    while start.elapsed() < whole {
        if 2 * start.elapsed() > whole && sides.len() > 1 {
            best(call, &mut sides, 1);
        }
        for side in &mut sides {
            let new = call.fitted(changed(&mut source, &side.1));
            challenge(call, side, new);
            tried += 1;
        }
    }
    eprintln!(
        "{}: {:.0} µs after {tried} changes",
        call.name(),
        sides[0].0
    );
    sides.swap_remove(0).1
}
