//! Answers sheets in words by the Rust planner.
mod cases;
mod compare;
mod cuttings;
mod distance;
mod edges;
mod evaluation;
mod faults;
mod features;
mod ga;
mod judges;
mod least;
mod listing;
mod load;
mod local_search;
mod marker;
mod marks;
mod models;
mod placing;
mod plan;
mod questions;
mod random;
mod reader;
mod record;
mod roads;
mod ruled;
mod run_answer;
mod runs;
mod sheet;
mod solomon;
mod source;
mod spoiled;
mod word;
mod wrong;

use std::io::Read;
use std::process::exit;

const USAGE: &str = "usage: oracle [--seed S] [--wrong] list | random N | record N FILE.. | runs N | marks N | least N | compare PROGRAM N FILE..";

fn main() {
    let args: Vec<String> = std::env::args().skip(1).collect();
    let (seed, args) = match &args[..] {
        [option, seed, rest @ ..] if option == "--seed" => (number(seed), rest),
        rest => (0, rest),
    };
    let (mut out, args) = match args {
        [option, rest @ ..] if option == "--wrong" => (record::Out::wrong(seed), rest),
        rest => (record::Out::right(), rest),
    };
    match args.iter().map(String::as_str).collect::<Vec<_>>()[..] {
        ["list"] => list(),
        ["random", n] => random(seed, number(n)),
        ["record", n, ..] => record::write(&mut out, seed, number(n), &args[2..]),
        ["runs", n] => runs::write(&mut out, seed, number(n)),
        ["marks", n] => marks::write(&mut out, seed, number(n)),
        ["least", n] => least::write(&mut out, seed, number(n)),
        ["compare", program, n, ..] => {
            let alike = compare::all(program, seed, number(n), &args[3..]);
            exit(i32::from(!alike))
        }
        _ => usage(),
    }
    out.close();
}

fn usage() -> ! {
    eprintln!("{USAGE}");
    exit(2)
}

fn number<N: std::str::FromStr>(text: &str) -> N {
    text.parse().unwrap_or_else(|_| usage())
}

/// What the listing program is to print for these bytes.
fn answer(file: &[u8]) -> String {
    match reader::words(file) {
        Ok(words) => listing::of(&words),
        Err((number, word)) => format!("refused {number} at {word}\n"),
    }
}

/// The listing of the sheet on standard input.
fn list() {
    let mut file = Vec::new();
    std::io::stdin()
        .read_to_end(&mut file)
        .expect("standard input");
    print!("{}", answer(&file));
}

/// Random sheets with their listings: `WORD,WORD,.. LISTING`, its line ends written `\n`.
fn random(seed: u64, count: usize) {
    let mut source = source::Source::new(seed);
    for _ in 0..count {
        let words = random::small(&mut source);
        let text = listing::of(&words).replace('\n', "\\n");
        let words: Vec<String> = words.iter().map(|w| format!("{w:08X}")).collect();
        println!("{} {}", words.join(","), text);
    }
}
