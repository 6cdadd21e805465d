//! The timeline of a run: its calls with their times and loads, what it comes to, and all that it violates.
use crate::{slices, unless_refused, whole, GivenRun, Refusal, Rest, CALLS, NO_WORD};

/// The most violations of a run: one for each call, and four besides.
pub const VIOLATIONS: usize = CALLS + 4;

/// A call with its times, and what the bus carries after it.
#[derive(Clone, Copy, Debug, PartialEq, Eq)]
pub struct Stop {
    pub customer: u8,
    /// Before the break, where that is here.
    pub arrival: u64,
    /// When the service starts.
    pub begin: u64,
    pub departure: u64,
    pub seats: u64,
    pub wheelchairs: u64,
}

/// What a run violates.
#[derive(Clone, Copy, Debug, PartialEq, Eq)]
pub enum Violation {
    /// The bus is ready to serve after due, and the customer has no penalty.
    Window {
        customer: u64,
        ready: u64,
        due: u64,
    },
    /// The run needs its break and does not take it. Told only where no window is violated.
    Break,
    /// Of seats.
    Load {
        load: u64,
        capacity: u64,
    },
    Distance {
        distance: u64,
        limit: u64,
    },
    Duration {
        duration: u64,
        limit: u64,
    },
    Wheelchairs {
        load: u64,
        capacity: u64,
    },
    /// The first closed leg; 1 leaves the depot. Nothing else is told of such a run.
    ClosedLeg {
        leg: u64,
    },
}

impl Violation {
    pub const WINDOW: u8 = 1;
    pub const BREAK: u8 = 2;
    pub const LOAD: u8 = 3;
    pub const DISTANCE: u8 = 4;
    pub const DURATION: u8 = 5;
    pub const WHEELCHAIRS: u8 = 6;
    pub const CLOSED_LEG: u8 = 7;

    /// The library numbers no other violations.
    fn from_number(number: u8, [a, b, c]: [u64; 3]) -> Violation {
        match number {
            Violation::WINDOW => Violation::Window {
                customer: a,
                ready: b,
                due: c,
            },
            Violation::BREAK => Violation::Break,
            Violation::LOAD => Violation::Load {
                load: a,
                capacity: b,
            },
            Violation::DISTANCE => Violation::Distance {
                distance: a,
                limit: b,
            },
            Violation::DURATION => Violation::Duration {
                duration: a,
                limit: b,
            },
            Violation::WHEELCHAIRS => Violation::Wheelchairs {
                load: a,
                capacity: b,
            },
            _ => Violation::ClosedLeg { leg: a },
        }
    }
}

/// A run with its times, legal or not.
#[derive(Clone, Debug, PartialEq, Eq)]
pub struct Timeline {
    /// None where a leg of the run is closed.
    pub stops: Vec<Stop>,
    /// The break, where it is taken.
    pub rest: Option<Rest>,
    pub distance: u64,
    pub duration: u64,
    pub lateness: u64,
    pub lateness_pay: u64,
    pub violations: Vec<Violation>,
}

/// Tells the timeline of a run, a [`GivenRun`] or one of a plan, with its break where it says. A break that would start past latest is not taken.
///
/// ```
/// use lizsomdur::{timeline, Customer, GivenRun, Sheet, Violation};
///
/// let sheet = Sheet::new()
///     .capacity(3)
///     .customer(Customer::new(2))
///     .customer(Customer::new(2))
///     .distances([0, 10, 12, 10, 0, 5, 12, 5, 0])
///     .tour([1, 2])
///     .bytes();
/// let run = GivenRun { calls: &[1, 2], break_place: None };
/// let told = timeline(&sheet, &run)?;
/// assert_eq!((told.stops[1].arrival, told.stops[1].seats, told.duration), (15, 4, 27));
/// assert_eq!(told.violations, [Violation::Load { load: 4, capacity: 3 }]);
/// # Ok::<(), lizsomdur::Refusal>(())
/// ```
pub fn timeline<'a, Given>(sheet: &[u8], run: &'a Given) -> Result<Timeline, Refusal>
where
    &'a Given: Into<GivenRun<'a>>,
{
    let run: GivenRun = run.into();
    let (mut times, mut loads) = ([0.0; 3 * CALLS], [0; 2 * CALLS]);
    let (mut numbers, mut figures) = ([0; VIOLATIONS], [0.0; 3 * VIOLATIONS]);
    let (mut counts, mut totals, mut word) = ([0; 3], [0.0; 5], NO_WORD);
    let number = slices::visits(
        sheet,
        run.calls,
        usize::from(run.break_place.unwrap_or(0)),
        &mut times,
        &mut loads,
        &mut numbers,
        &mut figures,
        &mut counts,
        &mut totals,
        &mut word,
    );
    unless_refused(number, word)?;
    let totals = totals.map(whole);
    let stops = run.calls[..counts[0]].iter().enumerate();
    let violations = numbers[..counts[1]].iter().enumerate();
    Ok(Timeline {
        stops: stops
            .map(|(k, &customer)| Stop {
                customer,
                arrival: whole(times[3 * k]),
                begin: whole(times[3 * k + 1]),
                departure: whole(times[3 * k + 2]),
                seats: loads[2 * k],
                wheelchairs: loads[2 * k + 1],
            })
            .collect(),
        rest: (counts[2] > 0).then_some(Rest {
            place: counts[2] as u8,
            start: totals[4],
        }),
        distance: totals[0],
        duration: totals[1],
        lateness: totals[2],
        lateness_pay: totals[3],
        violations: violations
            .map(|(k, &number)| {
                let row = [figures[3 * k], figures[3 * k + 1], figures[3 * k + 2]];
                Violation::from_number(number, row.map(whole))
            })
            .collect(),
    })
}
