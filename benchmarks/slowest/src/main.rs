//! Looks for the questions that the library's functions take longest to answer, and times those that were found.
mod call;
mod change;
mod climb;
mod draft;
mod drawn;
mod fitted;
mod kinds;
mod legs;
mod passes;
mod question;
mod raw;
mod recipe;
mod slices;
mod source;
mod start;
mod stopwatch;
mod word;

use call::{Call, Pace, Placement, CALLS};
use question::Question;
use std::path::Path;

const USAGE: &str = "usage: slowest [--once | --search SECONDS SEED] FOLDER [FUNCTION..]";

/// For the time that is printed, and for a tool that counts the instructions of one call.
const LONG: Pace = Pace {
    turns: 3,
    whole: 500_000.0,
};
const ONCE: Pace = Pace {
    turns: 1,
    whole: 0.0,
};

fn number(text: &str) -> u32 {
    text.parse().unwrap_or_else(|_| usage())
}

fn usage() -> ! {
    eprintln!("{USAGE}");
    std::process::exit(2)
}

/// The functions of these names, or all.
fn named(names: &[&str]) -> impl Iterator<Item = Call> {
    let known = |name: &&str| CALLS.iter().any(|call| call.name() == *name);
    if !names.iter().all(known) {
        usage();
    }
    let names: Vec<String> = names.iter().map(ToString::to_string).collect();
    let asked = move |call: &Call| names.is_empty() || names.iter().any(|n| n == call.name());
    CALLS.into_iter().filter(asked)
}

/// How long a function takes for a question that was found.
fn tell(call: Call, found: &Question, pace: Pace) {
    let time = call.time(found, pace).expect("an accepted question");
    let (words, calls) = (found.words.len(), found.calls.len());
    println!(
        "{}: {time:.0} µs, {words} words, {calls} calls given",
        call.name()
    );
}

/// Times the questions that are kept in a folder.
fn again(folder: &str, names: &[&str], pace: Pace) {
    for call in named(names) {
        let kept = Question::kept(Path::new(folder), call.name());
        tell(call, &kept.expect("a kept question"), pace);
    }
}

/// Looks for questions, so many seconds for each function, and keeps the slowest in the folder. It begins with
/// those that are kept there too, of all functions.
fn search(seconds: u32, seed: u32, folder: &Path, names: &[&str]) {
    for call in named(names) {
        let kept = CALLS
            .iter()
            .filter_map(|other| Question::kept(folder, other.name()));
        let start = start::questions(call).into_iter().chain(kept);
        let found = climb::slowest(call, start, seconds, seed);
        found.keep(folder, call.name());
        tell(call, &found, LONG);
    }
}

fn main() {
    let args: Vec<String> = std::env::args().skip(1).collect();
    match args.iter().map(String::as_str).collect::<Vec<_>>()[..] {
        ["--search", seconds, seed, folder, ref names @ ..] => {
            search(number(seconds), number(seed), Path::new(folder), names);
        }
        ["--once", folder, ref names @ ..] => again(folder, names, ONCE),
        [folder, ref names @ ..] => again(folder, names, LONG),
        [] => usage(),
    }
}
