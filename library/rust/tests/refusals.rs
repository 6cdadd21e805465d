//! What is refused, by number.
mod common;
use common::faulty::faulty;
use common::sheets::Sheet;
use common::worked::{base, with_break, with_closed, with_window};
use common::{runs, sample, PLACEMENTS};
use lizsomdur::{eliminate, mark_by, plan_by, reverse, GivenRun, Refusal};

fn refused<T>(number: u32, word: impl Into<Option<usize>>) -> Result<T, Refusal> {
    Err(Refusal {
        number,
        word: word.into(),
    })
}

#[test]
fn bad_words_are_named() {
    for (sheet, number, word) in faulty() {
        for placement in PLACEMENTS {
            assert_eq!(plan_by(placement, &sheet), refused(number, word));
            let none: [GivenRun; 0] = [];
            assert_eq!(mark_by(placement, &sheet, &none), refused(number, word));
        }
        assert_eq!(reverse(&sheet, &[]), refused(number, word));
        assert_eq!(eliminate(&sheet, &[]), refused(number, word));
    }
}

#[test]
fn bad_runs_are_refused_without_a_word() {
    let sheet = sample("m");
    for placement in PLACEMENTS {
        let said = |calls: &[u8], place| mark_by(placement, &sheet, &runs(&[(calls, place)]));
        assert_eq!(said(&[1, 3], 0), refused(1, None));
        assert_eq!(said(&[1, 2], 3), refused(5, None));
        assert_eq!(said(&[], 0), refused(5, None));
    }
    assert_eq!(reverse(&sheet, &[1; 129]), refused(1, None));
    assert_eq!(eliminate(&sheet, &[vec![0]]), refused(1, None));
    assert_eq!(eliminate(&sheet, &vec![vec![]; 129]), refused(5, None));
    assert_eq!(eliminate(&sheet, &vec![vec![]; 128]), Ok(vec![]));
}

/// The number by which both improvers refuse the sheet, or 0.
fn refused_by(sheet: &Sheet) -> u32 {
    let sheet = sheet.with(&[]);
    let answers = (reverse(&sheet, &[1, 2]), eliminate(&sheet, &[vec![1, 2]]));
    match answers {
        (Err(r), Err(e)) => {
            assert_eq!(r, e);
            r.number
        }
        (Ok(_), Ok(_)) => 0,
        other => panic!("{other:?}"),
    }
}

/// It takes a window and a penalty of one customer, and the penalty may be 0.
#[test]
fn lateness_pay_is_refused_by_the_improvers() {
    let mut without_window = base();
    without_window.customers[0].penalty = Some(5);
    let mut apart = with_window(base(), [0, 9], None);
    apart.customers[1].penalty = Some(5);
    for sheet in [base(), without_window, apart] {
        assert_eq!(refused_by(&sheet), 0);
    }
    for sheet in [base(), with_break(0, 30)] {
        assert_eq!(refused_by(&with_window(sheet, [0, 9], Some(0))), 4);
    }
}

/// Used or not, the diagonal too. Such a sheet can be planned, and a cutting of it marked.
#[test]
fn closed_legs_are_refused_by_the_improvers() {
    for leg in [(0, 1), (1, 2), (2, 1), (0, 0), (2, 2)] {
        let sheet = with_closed(base(), &[leg]);
        assert_eq!(refused_by(&sheet), 23);
        assert_eq!(refused_by(&with_window(sheet.clone(), [0, 9], Some(0))), 4);
        let called = sheet.with(&[1, 2]);
        for placement in PLACEMENTS {
            let planned = plan_by(placement, &called).expect("a plan");
            assert!(mark_by(placement, &called, &planned.runs).is_ok());
        }
    }
}
