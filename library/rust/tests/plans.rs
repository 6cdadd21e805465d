//! Plans beside the original Rust planner's, and their marks.
mod common;
use common::listing::listing;
use common::{kept, records};
use lizsomdur::{mark, plan, Verdict};

fn sheets() -> Vec<(Vec<u8>, String)> {
    records(b's')
}

#[test]
fn plans_are_the_recorded_ones() {
    let sheets = sheets();
    assert!(sheets.len() >= 654);
    for (number, (sheet, answer)) in sheets.iter().enumerate() {
        assert_eq!(&listing(sheet, &plan(sheet)), answer, "sheet {number}");
    }
}

#[test]
fn samples_are_as_listed() {
    let mut listed = 0;
    for file in std::fs::read_dir(kept("samples")).expect("the samples") {
        let file = file.expect("a file").path();
        if file.extension().is_some_and(|end| end == "sheet") {
            let sheet = std::fs::read(&file).expect("a sheet");
            let text =
                std::fs::read_to_string(file.with_extension("listing")).expect("its listing");
            assert_eq!(listing(&sheet, &plan(&sheet)), text, "{}", file.display());
            listed += 1;
        }
    }
    assert!(listed >= 4);
}

#[test]
fn a_plan_marks_itself_best() {
    let mut marked = 0;
    for (number, (sheet, _)) in sheets().iter().enumerate() {
        if let Ok(plan) = plan(sheet) {
            assert_eq!(mark(sheet, &plan.runs), Ok(Verdict::Best), "sheet {number}");
            marked += 1;
        }
    }
    assert!(marked > 400);
}

/// Single calls in place of the planner's runs cost what their own sheets' plans cost. A call that is not served alone has no such run: its sheet is passed over.
#[test]
fn single_runs_are_dearer_by_what_they_cost_more() {
    let (mut best, mut dearer) = (0, 0);
    for (number, (sheet, _)) in sheets().iter().enumerate() {
        let Ok(whole) = plan(sheet) else { continue };
        let mut singles = Vec::new();
        let mut cost = 0;
        for call in whole.runs.iter().flat_map(|run| &run.calls) {
            let alone = plan(&common::with_tour(sheet, &[*call])).expect("an accepted sheet");
            cost += alone.cost;
            singles.extend(alone.runs);
        }
        if singles.len() < whole.served() {
            continue;
        }
        let by = cost - whole.cost;
        let expected = if by > 0 {
            Verdict::Dearer { by }
        } else {
            Verdict::Best
        };
        assert_eq!(mark(sheet, &singles), Ok(expected), "sheet {number}");
        *(if by > 0 { &mut dearer } else { &mut best }) += 1;
    }
    assert!(dearer > 100 && best > 100, "dearer {dearer}, best {best}");
}
