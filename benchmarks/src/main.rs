//! Times the original Rust and the port in one process, on the same sheets, and prints tables of both and their ratio.
mod clock;
mod distance;
mod draft;
mod drawn;
mod evaluation;
mod fitted;
mod ga;
mod kinds;
mod legs;
mod load;
mod local_search;
mod models;
mod original;
mod port;
mod reader;
mod recipe;
mod repeated;
mod sheet;
mod source;
mod spread;
mod stopwatch;
mod subject;
mod tables;
mod word;
mod work;
mod worst;

use std::time::Instant;

const USAGE: &str = "usage: benchmarks [--page | --worst N SEED | --sheet SEED NUMBER]";

/// How many drawn sheets the page has, and their seed.
const DRAWN: (u32, u32) = (3_000, 1);

fn number(text: &str) -> u32 {
    text.parse().unwrap_or_else(|_| usage())
}

fn usage() -> ! {
    eprintln!("{USAGE}");
    std::process::exit(2)
}

fn main() {
    let start = Instant::now();
    let took = |what| eprintln!("{what}: {:.0} s", start.elapsed().as_secs_f64());
    let args: Vec<String> = std::env::args().skip(1).collect();
    match args.iter().map(String::as_str).collect::<Vec<_>>()[..] {
        [] => repeated::print(),
        ["--page"] => {
            repeated::print();
            took("tables");
            worst::print(DRAWN.0, DRAWN.1);
        }
        ["--worst", count, seed] => worst::print(number(count), number(seed)),
        ["--sheet", seed, which] => worst::print_sheet(number(seed), number(which)),
        [repeated::PASS] => return repeated::pass(),
        _ => usage(),
    }
    took("all");
}
