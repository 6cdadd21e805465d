//! Cuttings to be marked: the plan's own, and what a controller makes of it by a change or two.
use crate::evaluation::has_soft_windows;
use crate::marker::{mark, spans, Cutting, BEST, CHEAPER};
use crate::plan::{self, Plan};
use crate::sheet::Sheet;
use crate::source::Source;
use std::collections::BTreeSet;

/// The plan of an accepted sheet with up to two changes. With lateness pay and a break it is, three times in four, the plan with a break place that makes it cheaper, if there is one.
pub fn drawn(source: &mut Source, words: &[u32]) -> Cutting {
    let sheet = Sheet::from_words(words);
    let plan = plan::of(words);
    let mut cutting = planned(&plan);
    let own = mark(&sheet, &plan.served, plan.cost as u64, &cutting);
    assert_eq!(own, Ok((BEST, vec![])), "the plan itself is the best");
    if priced(&sheet) && !source.one_in(4) && made_cheaper(&sheet, &plan, &mut cutting) {
        return cutting;
    }
    for _ in 0..source.one_of(&[0, 1, 1, 1, 2, 2]) {
        match source.below(8) {
            0..4 => recut(source, &sheet, &mut cutting),
            4..7 => move_break(source, &sheet, &mut cutting),
            _ => change_calls(source, &sheet, &mut cutting),
        }
    }
    cutting
}

/// Whether lateness is paid and there is a break.
pub fn priced(sheet: &Sheet) -> bool {
    sheet.limits.rest.is_some() && has_soft_windows(&sheet.customers)
}

/// The plan's runs with its break places.
fn planned(plan: &Plan) -> Cutting {
    let runs = plan.runs.iter();
    let ends = runs.clone().scan(0, |end, (calls, _)| {
        *end += calls.len();
        Some(*end)
    });
    Cutting {
        calls: plan.served.clone(),
        ends: ends.collect(),
        places: runs.map(|(_, total)| number(total.rest)).collect(),
    }
}

/// The number of the call that a break comes before, or 0.
fn number(rest: Option<(usize, f64)>) -> usize {
    rest.map_or(0, |(index, _)| index + 1)
}

/// Moves the first break of the plan that then makes it cheaper, and says whether there is one.
fn made_cheaper(sheet: &Sheet, plan: &Plan, cutting: &mut Cutting) -> bool {
    let planned = cutting.clone();
    for (run, (start, end, place)) in spans(&planned).enumerate() {
        for other in 0..=end - start {
            cutting.places[run] = other;
            let said = mark(sheet, &plan.served, plan.cost as u64, cutting);
            if said.is_ok_and(|(verdict, _)| verdict == CHEAPER) {
                return true;
            }
        }
        cutting.places[run] = place;
    }
    false
}

/// Cuts the same calls at other places. A run that was there before keeps its break place.
fn recut(source: &mut Source, sheet: &Sheet, cutting: &mut Cutting) {
    let old: Vec<_> = spans(cutting).collect();
    cutting.ends = other_ends(source, &cutting.ends);
    cutting.places = vec![0; cutting.ends.len()];
    let new: Vec<_> = spans(cutting).collect();
    for (run, &(start, end, _)) in new.iter().enumerate() {
        let kept = old.iter().find(|old| (old.0, old.1) == (start, end));
        cutting.places[run] = match kept {
            Some(&(_, _, place)) => place,
            None => some_place(source, sheet, &cutting.calls[start..end]),
        };
    }
}

/// One end moved, left out or added; one run of all calls; a run for each; or ends anywhere.
fn other_ends(source: &mut Source, ends: &[usize]) -> Vec<usize> {
    let Some((&last, inner)) = ends.split_last() else {
        return vec![];
    };
    let some = source.any(inner).copied().unwrap_or(0);
    let mut inner: BTreeSet<usize> = inner.iter().copied().collect();
    match source.below(6) {
        0 => {
            inner.remove(&some);
            inner.insert(source.near(some as u32) as usize);
        }
        1 => drop(inner.remove(&some)),
        2 => drop(inner.insert(source.below(last as u32) as usize)),
        3 => inner.clear(),
        4 => inner.extend(1..last),
        _ => inner = (1..last).filter(|_| source.one_in(3)).collect(),
    }
    let between = inner.into_iter().filter(|end| (1..last).contains(end));
    between.chain([last]).collect()
}

/// The clock's break place for a run of these calls; on a sheet with a break one time in three any place, or none.
fn some_place(source: &mut Source, sheet: &Sheet, calls: &[usize]) -> usize {
    if sheet.limits.rest.is_some() && source.one_in(3) {
        source.below(calls.len() as u32 + 1) as usize
    } else {
        plan::evaluated(sheet, calls).map_or(0, |total| number(total.rest))
    }
}

/// Gives a run another break place, or none; now and then one beyond the run, and rarely one on a sheet without a break.
fn move_break(source: &mut Source, sheet: &Sheet, cutting: &mut Cutting) {
    if sheet.limits.rest.is_none() && !source.one_in(16) {
        return recut(source, sheet, cutting);
    }
    let runs: Vec<_> = spans(cutting).enumerate().collect();
    if let Some(&(run, (start, end, _))) = source.any(&runs) {
        let calls = (end - start) as u32;
        cutting.places[run] = match source.below(16) {
            0 => calls + 1 + source.below(2),
            1..5 => 0,
            _ => source.below(calls + 1),
        } as usize;
    }
}

/// Changes a call, adds one, says one twice, leaves one out, turns two around, or takes the tour with its dropped calls, as one run.
fn change_calls(source: &mut Source, sheet: &Sheet, cutting: &mut Cutting) {
    let customers: Vec<usize> = (1..sheet.customers.len()).collect();
    let Some(&customer) = source.any(&customers) else {
        return;
    };
    if cutting.calls.is_empty() {
        return add(cutting, 0, customer);
    }
    let at = source.below(cutting.calls.len() as u32) as usize;
    match source.below(6) {
        0 => cutting.calls[at] = customer,
        1 => add(cutting, at + source.below(2) as usize, customer),
        2 => add(cutting, at, cutting.calls[at]),
        3 => leave_out(cutting, at),
        4 => cutting.calls.swap(at, at.saturating_sub(1)),
        _ => {
            cutting.calls = sheet.tour.clone();
            cutting.ends = vec![sheet.tour.len()];
            cutting.places = vec![some_place(source, sheet, &sheet.tour)];
        }
    }
}

/// Puts a call before that at this index, or behind the last, into the first run that reaches so far.
fn add(cutting: &mut Cutting, at: usize, customer: usize) {
    cutting.calls.insert(at, customer);
    if cutting.ends.is_empty() {
        (cutting.ends, cutting.places) = (vec![0], vec![0]);
    }
    for end in cutting.ends.iter_mut().filter(|end| **end >= at) {
        *end += 1;
    }
}

/// Leaves out a call, and its run where it is alone there.
fn leave_out(cutting: &mut Cutting, at: usize) {
    let alone = spans(cutting).position(|(start, end, _)| (start, end) == (at, at + 1));
    if let Some(run) = alone {
        cutting.ends.remove(run);
        cutting.places.remove(run);
    }
    cutting.calls.remove(at);
    for end in cutting.ends.iter_mut().filter(|end| **end > at) {
        *end -= 1;
    }
}
