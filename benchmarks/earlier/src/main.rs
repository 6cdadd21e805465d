//! Times the cuts of an earlier tree and of this one in one process, on the same sheets, and prints both and their ratio.
mod clock;
mod draft;
mod fitted;
mod kinds;
mod legs;
mod port;
mod recipe;
mod source;
mod spread;
mod stopwatch;
mod word;

use clock::{beside, Pace, Times};
use kinds::{Kind, LOADS, ORDINARY, RULES};
use recipe::Recipe;
use spread::Spread;
use std::process::{exit, Command};

const PASSES: usize = 5;
const PACE: Pace = Pace {
    turn: 0.000_5,
    whole: 0.05,
};
/// The argument that makes a process one of the passes, so that each meets other addresses and another moment.
const PASS: &str = "--pass";
const CALLS: [u32; 2] = [16, 63];

extern "C" {
    fn earlier_split_tw(sheet: *const u8, length: usize, rounds: u32) -> f64;
    fn earlier_split(sheet: *const u8, length: usize, rounds: u32) -> f64;
}

/// A cut by both trees.
struct Cut {
    name: &'static str,
    earlier: unsafe extern "C" fn(*const u8, usize, u32) -> f64,
    now: fn(&[u8], u32) -> f64,
    kinds: fn() -> Vec<Kind>,
}

const CUTS: [Cut; 2] = [
    Cut {
        name: "`split_tw`",
        earlier: earlier_split_tw,
        now: port::split_tw,
        kinds: || [&ORDINARY[..], &LOADS, &RULES].concat(),
    },
    Cut {
        name: "`split`",
        earlier: earlier_split,
        now: port::split,
        kinds: || [&ORDINARY[..2], &LOADS].concat(),
    },
];

/// The cut, and each sheet with its number of calls.
fn cells(cut: &Cut) -> impl Iterator<Item = (Kind, u32)> {
    let each = |kind| CALLS.map(|calls| (kind, calls));
    (cut.kinds)().into_iter().flat_map(each)
}

fn time(cut: &Cut, ((name, recipe), calls): (Kind, u32)) -> Times {
    let bytes = fitted::sheet(Recipe { calls, ..recipe });
    // SAFETY: the pointer goes with its length.
    let earlier = |rounds| unsafe { (cut.earlier)(bytes.as_ptr(), bytes.len(), rounds) };
    let now = |rounds| (cut.now)(&bytes, rounds);
    let (expected, found) = (earlier(1), now(1));
    if expected != found {
        eprintln!("{} on {name}, {calls} calls: {expected} before, and {found} now", cut.name);
        exit(1);
    }
    beside(PACE, earlier, now)
}

fn pass() {
    for cut in &CUTS {
        for cell in cells(cut) {
            let Times { base, port } = time(cut, cell);
            println!("{base} {port}");
        }
    }
}

/// What another process measures.
fn passed() -> Vec<Times> {
    let program = std::env::current_exe().expect("this program's path");
    let output = Command::new(program).arg(PASS).output().expect("this program");
    if !output.status.success() {
        eprint!("{}", String::from_utf8_lossy(&output.stderr));
        exit(1);
    }
    let text = String::from_utf8(output.stdout).expect("numbers");
    let numbers = text.split_whitespace().map(|word| word.parse().expect("a number"));
    let numbers: Vec<f64> = numbers.collect();
    let pairs = numbers.chunks_exact(2);
    pairs.map(|pair| Times { base: pair[0], port: pair[1] }).collect()
}

fn median(mut numbers: Vec<f64>) -> f64 {
    numbers.sort_by(f64::total_cmp);
    numbers[numbers.len() / 2]
}

fn main() {
    if std::env::args().nth(1).as_deref() == Some(PASS) {
        return pass();
    }
    let passes: [Vec<Times>; PASSES] = std::array::from_fn(|_| passed());
    let mut first = 0;
    for cut in &CUTS {
        println!("### {}: earlier → now\n\n| Sheet | calls | both |\n|---|---|---|", cut.name);
        let all: Vec<(Kind, u32)> = cells(cut).collect();
        for (k, ((name, _), calls)) in all.iter().enumerate() {
            let cell = passes.each_ref().map(|pass| pass[first + k]);
            println!("| {name} | {calls} | {} |", Spread::new(&cell));
        }
        let of_pass = |pass: &Vec<Times>| {
            let ratios = pass[first..first + all.len()].iter().map(Times::ratio);
            median(ratios.collect())
        };
        let medians = passes.each_ref().map(of_pass);
        let text: Vec<String> = medians.iter().map(|each| format!("{each:.3}")).collect();
        println!("\nMedian of each of the {PASSES} runs: {}; of these {:.3}.\n", text.join(", "), median(medians.to_vec()));
        first += all.len();
    }
}
