//! Prints the plan of the sheet on standard input, and the mark of the served calls driven as one run: `cargo run --example plan < SHEET`.
use lizsomdur::{mark, plan, GivenRun, Plan};
use std::error::Error;
use std::io::{stdin, Read};
use std::process::exit;

fn print(plan: &Plan) {
    for run in &plan.runs {
        let calls: Vec<String> = run.calls.iter().map(u8::to_string).collect();
        let rest = run.rest.map_or(String::new(), |rest| {
            format!(", break at call {} from {}", rest.place, rest.start)
        });
        println!("run {}{rest}", calls.join(" "));
    }
    println!("dropped positions {:?}", plan.dropped);
    println!("cost {} distance {}", plan.cost, plan.distance);
}

fn plan_and_mark() -> Result<(), Box<dyn Error>> {
    let mut sheet = Vec::new();
    stdin().read_to_end(&mut sheet)?;
    let plan = plan(&sheet)?;
    print(&plan);
    let served: Vec<u8> = plan.runs.into_iter().flat_map(|run| run.calls).collect();
    if !served.is_empty() {
        let whole = GivenRun {
            calls: &served,
            break_place: None,
        };
        let verdict = mark(&sheet, &[whole])?;
        println!("all in one run without a break: {verdict}");
    }
    Ok(())
}

fn main() {
    if let Err(error) = plan_and_mark() {
        eprintln!("{error}");
        exit(1);
    }
}
