//! A plan as the listing program prints it.
use super::tour;
use lizsomdur::{Plan, Refusal, Run};
use std::fmt::Write;

fn run_line(run: &Run) -> String {
    let mut line = String::from("run");
    for call in &run.calls {
        write!(line, " {call}").unwrap();
    }
    if let Some(rest) = run.rest {
        write!(line, " rest {} {}", rest.place, rest.start).unwrap();
    }
    line + "\n"
}

fn plan_lines(sheet: &[u8], plan: &Plan) -> String {
    let calls = tour(sheet);
    let mut text: String = plan.runs.iter().map(run_line).collect();
    for &position in &plan.dropped {
        writeln!(text, "drop {}", calls[usize::from(position) - 1]).unwrap();
    }
    let (distance, cost) = (plan.distance, plan.cost);
    let (served, dropped) = (plan.served(), plan.dropped.len());
    writeln!(
        text,
        "total {distance} cost {cost} served {served} dropped {dropped}"
    )
    .unwrap();
    text
}

pub fn listing(sheet: &[u8], answer: &Result<Plan, Refusal>) -> String {
    match answer {
        Ok(plan) => plan_lines(sheet, plan),
        Err(Refusal { number, word }) => {
            let word = word.expect("a refused sheet has a bad word");
            format!("refused {number} at {word}\n")
        }
    }
}
