//! Safe calls of the proved route planner: a sheet's bytes go in, and a plan, a mark or better runs come out, or a refusal.
//!
//! ```
//! use lizsomdur::{mark, plan, Customer, GivenRun, Sheet, Verdict};
//!
//! // Two customers with two seats each, a bus with four, and a break that begins between 20 and 30.
//! let sheet = Sheet::new()
//!     .capacity(4)
//!     .rest(20, 30, 4)
//!     .customer(Customer::new(2))
//!     .customer(Customer::new(2))
//!     .distances([0, 10, 12, 10, 0, 5, 12, 5, 0])
//!     .tour([1, 2])
//!     .bytes();
//! let best = plan(&sheet)?;
//! assert_eq!((best.cost, &best.runs[0].calls[..]), (27, &[1, 2][..]));
//!
//! // Somebody's own runs: one call each, with the break at it.
//! let own = [&[1], &[2]].map(|calls| GivenRun { calls, break_place: Some(1) });
//! let verdict = mark(&sheet, &own)?;
//! assert_eq!(verdict, Verdict::Dearer { by: 17 });
//! assert_eq!(verdict.to_string(), "dearer by 17");
//! # Ok::<(), lizsomdur::Refusal>(())
//! ```
//!
//! What the functions mean, and what a sheet says, is told in `lizsomdur.h` beside this package. As there, a customer, a break place and a position
//! are a byte each. [`Sheet`] writes the bytes of a sheet.
mod raw;
mod refusal;
mod sheet;
mod slices;
mod timeline;
mod verdict;

pub use refusal::Refusal;
pub use sheet::{Customer, Sheet};
pub use timeline::{timeline, Stop, Timeline, Violation, VIOLATIONS};
pub use verdict::Verdict;

/// The package's version, which is that of `lizsomdur.h`.
pub const VERSION: &str = env!("CARGO_PKG_VERSION");

/// The most calls that a sheet has, each of another customer, and so the most runs of its plan.
pub const TOUR: usize = 63;

/// The most calls, and the most runs, that a function is given.
pub const CALLS: usize = 128;

/// The value of the C and D words of a leg that can't be driven.
pub const NO_ROAD: u32 = 0x0FFF_FFFF;

/// Where the planner puts the break of a run. Both drop the same calls; `lizsomdur.h` says more of each.
#[derive(Clone, Copy, Debug, PartialEq, Eq)]
pub enum Placement {
    /// Call by call where the bus is done sooner, as the clock has it. Where lateness is paid, another place may cost less.
    Clock,
    /// Where the least is paid for lateness, at any call or, if the run needs none, at no call. No legal cutting of the served calls costs less.
    Least,
}

/// A run of a plan: its calls and, where it has one, its break.
#[derive(Clone, Debug, PartialEq, Eq)]
pub struct Run {
    pub calls: Vec<u8>,
    pub rest: Option<Rest>,
}

/// A driver's break.
#[derive(Clone, Copy, Debug, PartialEq, Eq)]
pub struct Rest {
    /// The number of the call, from 1, before whose service it is taken.
    pub place: u8,
    pub start: u64,
}

/// A run to be marked, by all that a mark asks of it. A plan's [`Run`] can be given as it is: when its break starts follows from the rest.
#[derive(Clone, Copy, Debug, PartialEq, Eq)]
pub struct GivenRun<'a> {
    pub calls: &'a [u8],
    /// The number of the call, from 1, before whose service the break is taken; none, or 0, for no break.
    pub break_place: Option<u8>,
}

impl<'a> From<&'a Run> for GivenRun<'a> {
    fn from(run: &'a Run) -> GivenRun<'a> {
        GivenRun {
            calls: &run.calls,
            break_place: run.rest.map(|rest| rest.place),
        }
    }
}

impl<'a> From<&'a GivenRun<'a>> for GivenRun<'a> {
    fn from(run: &'a GivenRun<'a>) -> GivenRun<'a> {
        *run
    }
}

/// A sheet's calls, cut at least cost.
#[derive(Clone, Debug, PartialEq, Eq)]
pub struct Plan {
    pub runs: Vec<Run>,
    /// The positions of the dropped calls, from 1, in the order in which they are dropped.
    pub dropped: Vec<u8>,
    pub cost: u64,
    pub distance: u64,
}

impl Plan {
    /// How many calls are served.
    pub fn served(&self) -> usize {
        self.runs.iter().map(|run| run.calls.len()).sum()
    }
}

/// No word: what stands there until a bad word is named.
const NO_WORD: usize = usize::MAX;

/// The planner's numbers are whole and below 2^53.
fn whole(x: f64) -> u64 {
    x as u64
}

fn unless_refused(number: u32, word: usize) -> Result<(), Refusal> {
    match number {
        0 => Ok(()),
        _ => Err(Refusal {
            number,
            word: (word != NO_WORD).then_some(word),
        }),
    }
}

/// The stretches of a list up to each end.
fn stretches<'a>(list: &'a [u8], ends: &'a [u8]) -> impl Iterator<Item = Vec<u8>> + 'a {
    let ends = ends.iter().map(|&end| usize::from(end));
    let starts = std::iter::once(0).chain(ends.clone());
    starts
        .zip(ends)
        .map(|(start, end)| list[start..end].to_vec())
}

/// Runs as one list of calls, and the end of each run. So many calls that a byte does not hold the end are refused for that (1) before an end is looked at.
fn joined<'a>(runs: impl Iterator<Item = &'a [u8]>) -> (Vec<u8>, Vec<u8>) {
    let (mut calls, mut ends) = (Vec::new(), Vec::new());
    for run in runs {
        calls.extend_from_slice(run);
        ends.push(u8::try_from(calls.len()).unwrap_or(u8::MAX));
    }
    (calls, ends)
}

/// Cuts a sheet's calls into runs at least cost, with breaks by the clock.
pub fn plan(sheet: &[u8]) -> Result<Plan, Refusal> {
    plan_by(Placement::Clock, sheet)
}

/// The same with breaks by this placement.
pub fn plan_by(placement: Placement, sheet: &[u8]) -> Result<Plan, Refusal> {
    let (mut served, mut ends) = ([0; TOUR], [0; TOUR]);
    let (mut places, mut starts) = ([0; TOUR], [0.0; TOUR]);
    let mut dropped = [0; TOUR];
    let (mut counts, mut totals) = ([0; 3], [0.0; 2]);
    let mut word = NO_WORD;
    let number = slices::plan(
        placement,
        sheet,
        &mut served,
        &mut ends,
        &mut places,
        &mut starts,
        &mut dropped,
        &mut counts,
        &mut totals,
        &mut word,
    );
    unless_refused(number, word)?;
    let breaks = places.iter().zip(&starts).map(|(&place, &start)| {
        (place > 0).then_some(Rest {
            place,
            start: whole(start),
        })
    });
    Ok(Plan {
        runs: stretches(&served, &ends[..counts[1]])
            .zip(breaks)
            .map(|(calls, rest)| Run { calls, rest })
            .collect(),
        dropped: dropped[..counts[2]].to_vec(),
        cost: whole(totals[0]),
        distance: whole(totals[1]),
    })
}

/// Marks runs, [`GivenRun`]s or those of a plan, against the runs of [`plan`].
pub fn mark<'a, Given>(sheet: &[u8], runs: &'a [Given]) -> Result<Verdict, Refusal>
where
    &'a Given: Into<GivenRun<'a>>,
{
    mark_by(Placement::Clock, sheet, runs)
}

/// The same against the runs of [`plan_by`] with this placement. With [`Placement::Least`] the verdict is never [`Verdict::Cheaper`].
pub fn mark_by<'a, Given>(
    placement: Placement,
    sheet: &[u8],
    runs: &'a [Given],
) -> Result<Verdict, Refusal>
where
    &'a Given: Into<GivenRun<'a>>,
{
    let runs: Vec<GivenRun> = runs.iter().map(Into::into).collect();
    let (calls, ends) = joined(runs.iter().map(|run| run.calls));
    let places: Vec<u8> = runs
        .iter()
        .map(|run| run.break_place.unwrap_or(0))
        .collect();
    let (mut word, mut verdict, mut values) = (NO_WORD, 0, [0.0; 5]);
    let number = slices::mark(
        placement,
        sheet,
        &calls,
        &ends,
        &places,
        &mut word,
        &mut verdict,
        &mut values,
    );
    unless_refused(number, word)?;
    Ok(Verdict::from_number(verdict, values.map(whole)))
}

/// Turns stretches of a run's calls around while that shortens it and it stays allowed: the run, and its distance. That is a
/// matter of milliseconds, but a run can be made that takes seconds; `lizsomdur.h` says more of it.
pub fn reverse(sheet: &[u8], run: &[u8]) -> Result<(Vec<u8>, u64), Refusal> {
    let mut improved = vec![0; run.len()];
    let (mut word, mut distance) = (NO_WORD, 0.0);
    let number = slices::reverse(sheet, run, &mut improved, &mut word, &mut distance);
    unless_refused(number, word)?;
    Ok((improved, whole(distance)))
}

/// Empties runs into the others where that lowers the cost: the runs that are left.
pub fn eliminate(sheet: &[u8], runs: &[Vec<u8>]) -> Result<Vec<Vec<u8>>, Refusal> {
    let (calls, ends) = joined(runs.iter().map(|run| &run[..]));
    let (mut left_calls, mut left_ends) = (vec![0; calls.len()], vec![0; ends.len()]);
    let (mut word, mut counts) = (NO_WORD, [0; 2]);
    let number = slices::eliminate(
        sheet,
        &calls,
        &ends,
        &mut left_calls,
        &mut left_ends,
        &mut word,
        &mut counts,
    );
    unless_refused(number, word)?;
    Ok(stretches(&left_calls, &left_ends[..counts[1]]).collect())
}
