//! Recorded marks, with what they leave in lent memory.
use crate::common::recorded_marks::{recorded_marks, wrong_marks, Recorded};
use crate::common::PLACEMENTS;
use crate::lists::{Judged, OLD};
use lizsomdur::{Placement, Refusal};
use std::collections::BTreeSet;

/// The number returned, and what is left: a verdict with its values at the front, the bad word of a sheet, or nothing new.
fn expected(question: &Recorded) -> (u32, Judged) {
    let mut left = Judged::new();
    match &question.mark {
        Ok((verdict, values)) => {
            left.verdict = *verdict;
            for (at, &value) in values.iter().enumerate() {
                left.values[at] = value as f64;
            }
            (0, left)
        }
        Err(Refusal { number, word }) => {
            left.word = word.unwrap_or(OLD);
            (*number, left)
        }
    }
}

/// The verdict, or the number that refuses the lists; none where the sheet is refused.
fn said(question: &Recorded) -> Option<Result<u32, u32>> {
    match &question.mark {
        Ok((verdict, _)) => Some(Ok(*verdict)),
        Err(refusal) if refusal.word.is_none() => Some(Err(refusal.number)),
        Err(_) => None,
    }
}

/// The number returned, and what the library leaves.
fn given(placement: Placement, question: &Recorded) -> (u32, Judged) {
    let Recorded {
        sheet,
        calls,
        ends,
        places,
        ..
    } = question;
    Judged::new().after(placement, sheet, calls, ends, places)
}

#[test]
fn marks_are_the_recorded_ones_and_leave_the_rest() {
    for placement in PLACEMENTS {
        for (number, question) in recorded_marks(placement).iter().enumerate() {
            let (given, expected) = (given(placement, question), expected(question));
            assert_eq!(given, expected, "{placement:?}, question {number}");
        }
    }
}

/// Beside the plan by the clock all are. Beside that by least pay, which is the same marker's work, some are, and none is cheaper.
#[test]
fn verdicts_and_refusals_are_among_the_recorded() {
    let seen = |placement| -> BTreeSet<_> {
        let questions = recorded_marks(placement);
        questions.iter().filter_map(said).collect()
    };
    let all = (1..=12).map(Ok).chain([1, 5, 13].map(Err));
    assert_eq!(seen(Placement::Clock), all.collect());
    let least = seen(Placement::Least);
    assert!(least.is_superset(&[1, 5, 8, 9].map(Ok).into()));
    assert!(!least.contains(&Ok(10)));
}

#[test]
fn wrong_marks_are_noticed() {
    for placement in PLACEMENTS {
        let questions = wrong_marks(placement);
        assert!(questions.len() >= 57);
        for (number, question) in questions.iter().enumerate() {
            let (given, expected) = (given(placement, question), expected(question));
            assert_ne!(given, expected, "{placement:?}, question {number}");
        }
    }
}
