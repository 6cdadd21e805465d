//! The marks of the worked sheets, beside those that the program crates/test_marks says, and recorded marks, beside those of the oracle's own marker.
mod common;
use common::recorded_marks::{recorded_marks, wrong_marks, Recorded};
use common::worked::{marked, of_closed};
use common::{given, runs, text, PLACEMENTS};
use lizsomdur::{mark, mark_by, GivenRun, Placement, Refusal, Verdict};

#[test]
fn marks_are_those_of_the_proved_program() {
    let proved = text("crates/test_marks/stdout");
    let said: String = marked()
        .iter()
        .map(|cut| {
            let verdict = mark(&cut.sheet, &runs(&cut.runs)).expect("accepted runs");
            format!("{}: {verdict}\n", cut.name)
        })
        .collect();
    assert_eq!(said, proved);
}

#[test]
fn a_closed_leg_is_the_only_fault_of_its_run() {
    for (cut, expected) in of_closed() {
        let verdict = mark(&cut.sheet, &runs(&cut.runs)).expect("accepted runs");
        assert_eq!(verdict.to_string(), expected, "{}", cut.name);
    }
}

/// The number and the values of a verdict: the numbers that are shown with it.
fn numbered(verdict: Verdict) -> (u32, Vec<u64>) {
    let shown = format!("{verdict:?}");
    let values = shown.split([' ', ',']).filter_map(|word| word.parse().ok());
    (verdict.number(), values.collect())
}

/// The runs of a question whose lists are those of runs, perhaps empty ones.
fn cut(question: &Recorded) -> Option<Vec<GivenRun<'_>>> {
    let Recorded {
        calls,
        ends,
        places,
        ..
    } = question;
    let ends: Vec<usize> = ends.iter().map(|&end| end.into()).collect();
    let starts = [&[0], &ends[..]].concat();
    let parts = starts.iter().zip(&ends).map(|(&a, &b)| calls.get(a..b));
    let parts: Vec<&[u8]> = parts.collect::<Option<_>>()?;
    let whole = starts.last() == Some(&calls.len()) && places.len() >= ends.len();
    let runs = parts.into_iter().zip(places);
    whole.then(|| runs.map(|(calls, &place)| given(calls, place)).collect())
}

/// What the library says of a question that can be asked by runs.
fn asked(placement: Placement, question: &Recorded) -> Option<Result<(u32, Vec<u64>), Refusal>> {
    let runs = cut(question)?;
    Some(mark_by(placement, &question.sheet, &runs).map(numbered))
}

#[test]
fn marks_are_the_recorded_ones() {
    for placement in PLACEMENTS {
        let mut marked = 0;
        for (number, question) in recorded_marks(placement).iter().enumerate() {
            if let Some(said) = asked(placement, question) {
                assert_eq!(said, question.mark, "{placement:?}, question {number}");
                marked += 1;
            }
        }
        assert!(marked > 200, "{placement:?}");
    }
}

#[test]
fn wrong_marks_are_noticed() {
    for placement in PLACEMENTS {
        let mut marked = 0;
        for (number, question) in wrong_marks(placement).iter().enumerate() {
            if let Some(said) = asked(placement, question) {
                assert_ne!(
                    said, question.mark,
                    "{placement:?}, wrong question {number}"
                );
                marked += 1;
            }
        }
        assert!(marked > 40, "{placement:?}");
    }
}
