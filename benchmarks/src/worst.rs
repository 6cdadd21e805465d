//! The search for the sheets on which the port does worst, among drawn ones.
use crate::clock::Pace;
use crate::drawn;
use crate::recipe::Recipe;
use crate::spread::Spread;
use crate::subject::Subject;
use crate::work::{Work, WORKS};

/// For a first look, and for those that are timed again.
const BRIEF: Pace = Pace {
    turn: 0.000_2,
    whole: 0.001,
};
const LONGER: Pace = Pace {
    turn: 0.000_5,
    whole: 0.05,
};
const PASSES: usize = 5;
/// How many of each class are timed again.
const KEPT: usize = 6;
/// By the time that the port's is held against, in microseconds: where that is short, most of the port's is what a call
/// does on any sheet.
const CLASSES: [(&str, f64); 3] = [
    ("to 2 µs", 2.0),
    ("2 to 50 µs", 50.0),
    ("over 50 µs", f64::INFINITY),
];

/// A sheet by its number, and the ratio at the first look.
type Found = (u32, f64);

fn subject(seed: u32, number: u32) -> Subject {
    let name = format!("sheet {seed} {number}");
    Subject::new(name, drawn::recipe(seed, number))
}

fn again(subject: &Subject, work: Work) -> Spread {
    Spread::new(&[(); PASSES].map(|()| subject.time(work, LONGER)))
}

/// Keeps the sheets with the greatest ratios.
fn keep(kept: &mut Vec<Found>, found: Found) {
    kept.push(found);
    kept.sort_by(|a, b| b.1.total_cmp(&a.1));
    kept.truncate(KEPT);
}

/// For each work and class those with the greatest ratios, from the greatest on.
type Kept = [[Vec<Found>; CLASSES.len()]; WORKS.len()];

fn search(count: u32, seed: u32) -> Kept {
    let mut kept = Kept::default();
    for number in 0..count {
        let subject = subject(seed, number);
        for (work, kept) in WORKS.into_iter().zip(&mut kept) {
            if work.allowed(&subject.recipe) {
                let times = subject.time(work, BRIEF);
                let inside = |(_, most): &(_, f64)| times.base <= *most;
                let class = CLASSES.iter().position(inside).expect("a class");
                keep(&mut kept[class], (number, times.ratio()));
            }
        }
    }
    kept
}

pub fn print(count: u32, seed: u32) {
    println!("### Worst of {count} drawn sheets, seed {seed}\n");
    println!(
        "| Work | held against | worst | sheet | calls | runs of |\n|---|---|---|---|---|---|"
    );
    for (work, classes) in WORKS.into_iter().zip(search(count, seed)) {
        for ((class, _), kept) in CLASSES.iter().zip(classes) {
            let timed = kept.iter().map(|&(number, _)| {
                let subject = subject(seed, number);
                (again(&subject, work), subject)
            });
            let worst = timed.max_by(|a, b| a.0.median.total_cmp(&b.0.median));
            if let Some((spread, subject)) = worst {
                let Recipe { calls, run, .. } = subject.recipe;
                let name = subject.name;
                println!("| {work} | {class} | {spread} | {name} | {calls} | {run} |");
            }
        }
    }
    println!();
}

/// All works on one sheet, its recipe, and its words.
pub fn print_sheet(seed: u32, number: u32) {
    let subject = subject(seed, number);
    println!("{:#?}\n", subject.recipe);
    for work in WORKS {
        if work.allowed(&subject.recipe) {
            println!("{work} {}", again(&subject, work));
        }
    }
    let words: Vec<String> = subject.words().map(|word| format!("{word:08X}")).collect();
    for line in words.chunks(8) {
        println!("{}", line.join(" "));
    }
}
