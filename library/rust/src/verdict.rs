//! What the marker says of a cutting.
use std::error::Error;
use std::fmt;

/// What is said of a cutting: the first rule that it breaks or, where it breaks none, what it is worth. Runs, places and positions are numbered from 1.
///
/// ```
/// let verdict = lizsomdur::Verdict::Overload { run: 2, load: 5, capacity: 4 };
/// assert_eq!(verdict.number(), lizsomdur::Verdict::OVERLOAD);
/// assert_eq!(verdict.to_string(), "overload in run 2: 5 over 4");
/// ```
#[derive(Clone, Copy, Debug, PartialEq, Eq)]
pub enum Verdict {
    /// The calls differ from the planner's served customers, first at this position.
    OtherCalls {
        position: u64,
    },
    /// Of seats.
    Overload {
        run: u64,
        load: u64,
        capacity: u64,
    },
    BreakTooLate {
        run: u64,
        place: u64,
        customer: u64,
        start: u64,
        latest: u64,
    },
    WindowMissed {
        run: u64,
        place: u64,
        customer: u64,
        readiness: u64,
        due: u64,
    },
    BreakMissing {
        run: u64,
        duration: u64,
        earliest: u64,
    },
    TooFar {
        run: u64,
        distance: u64,
        limit: u64,
    },
    TooLong {
        run: u64,
        duration: u64,
        limit: u64,
    },
    /// As cheap as the planner's.
    Best,
    Dearer {
        by: u64,
    },
    /// Only where lateness is paid and there is a break, and the mark is by the clock.
    Cheaper {
        by: u64,
    },
    /// Of wheelchair places, where the seats are enough.
    WheelchairOverload {
        run: u64,
        load: u64,
        capacity: u64,
    },
    /// The run's first leg without a road, by its number in the run: 1 leaves the depot.
    RoadClosed {
        run: u64,
        leg: u64,
    },
}

/// The numbers of the verdicts, as in `lizsomdur.h`.
impl Verdict {
    pub const OTHER_CALLS: u32 = 1;
    pub const OVERLOAD: u32 = 2;
    pub const BREAK_TOO_LATE: u32 = 3;
    pub const WINDOW_MISSED: u32 = 4;
    pub const BREAK_MISSING: u32 = 5;
    pub const TOO_FAR: u32 = 6;
    pub const TOO_LONG: u32 = 7;
    pub const BEST: u32 = 8;
    pub const DEARER: u32 = 9;
    pub const CHEAPER: u32 = 10;
    pub const WHEELCHAIR_OVERLOAD: u32 = 11;
    pub const ROAD_CLOSED: u32 = 12;

    /// Its number.
    pub fn number(&self) -> u32 {
        match self {
            Verdict::OtherCalls { .. } => Self::OTHER_CALLS,
            Verdict::Overload { .. } => Self::OVERLOAD,
            Verdict::BreakTooLate { .. } => Self::BREAK_TOO_LATE,
            Verdict::WindowMissed { .. } => Self::WINDOW_MISSED,
            Verdict::BreakMissing { .. } => Self::BREAK_MISSING,
            Verdict::TooFar { .. } => Self::TOO_FAR,
            Verdict::TooLong { .. } => Self::TOO_LONG,
            Verdict::Best => Self::BEST,
            Verdict::Dearer { .. } => Self::DEARER,
            Verdict::Cheaper { .. } => Self::CHEAPER,
            Verdict::WheelchairOverload { .. } => Self::WHEELCHAIR_OVERLOAD,
            Verdict::RoadClosed { .. } => Self::ROAD_CLOSED,
        }
    }

    /// The verdict of that number in `lizsomdur.h`, with its values.
    pub(crate) fn from_number(number: u32, values: [u64; 5]) -> Verdict {
        let [a, b, c, d, e] = values;
        match number {
            Self::OTHER_CALLS => Verdict::OtherCalls { position: a },
            Self::OVERLOAD => Verdict::Overload {
                run: a,
                load: b,
                capacity: c,
            },
            Self::BREAK_TOO_LATE => Verdict::BreakTooLate {
                run: a,
                place: b,
                customer: c,
                start: d,
                latest: e,
            },
            Self::WINDOW_MISSED => Verdict::WindowMissed {
                run: a,
                place: b,
                customer: c,
                readiness: d,
                due: e,
            },
            Self::BREAK_MISSING => Verdict::BreakMissing {
                run: a,
                duration: b,
                earliest: c,
            },
            Self::TOO_FAR => Verdict::TooFar {
                run: a,
                distance: b,
                limit: c,
            },
            Self::TOO_LONG => Verdict::TooLong {
                run: a,
                duration: b,
                limit: c,
            },
            Self::BEST => Verdict::Best,
            Self::DEARER => Verdict::Dearer { by: a },
            Self::CHEAPER => Verdict::Cheaper { by: a },
            Self::WHEELCHAIR_OVERLOAD => Verdict::WheelchairOverload {
                run: a,
                load: b,
                capacity: c,
            },
            Self::ROAD_CLOSED => Verdict::RoadClosed { run: a, leg: b },
            _ => unreachable!("the library has twelve verdicts"),
        }
    }
}

impl fmt::Display for Verdict {
    fn fmt(&self, f: &mut fmt::Formatter) -> fmt::Result {
        use Verdict::*;
        match *self {
            OtherCalls { position } => write!(f, "other calls at position {position}"),
            Overload {
                run,
                load,
                capacity,
            } => write!(f, "overload in run {run}: {load} over {capacity}"),
            BreakTooLate {
                run,
                place,
                customer,
                start,
                latest,
            } => write!(
                f,
                "break too late in run {run} at call {place}, customer {customer}: {start} after {latest}"
            ),
            WindowMissed {
                run,
                place,
                customer,
                readiness,
                due,
            } => write!(
                f,
                "window missed in run {run} at call {place}, customer {customer}: {readiness} after {due}"
            ),
            BreakMissing {
                run,
                duration,
                earliest,
            } => write!(
                f,
                "break missing in run {run}: {duration} not before {earliest}"
            ),
            TooFar {
                run,
                distance,
                limit,
            } => write!(f, "too far in run {run}: {distance} over {limit}"),
            TooLong {
                run,
                duration,
                limit,
            } => write!(f, "too long in run {run}: {duration} over {limit}"),
            Best => write!(f, "best"),
            Dearer { by } => write!(f, "dearer by {by}"),
            Cheaper { by } => write!(f, "cheaper by {by}"),
            WheelchairOverload {
                run,
                load,
                capacity,
            } => write!(f, "wheelchair overload in run {run}: {load} over {capacity}"),
            RoadClosed { run, leg } => write!(f, "road closed in run {run}, leg {leg}"),
        }
    }
}

/// So that a program can hand on a fault as its own error.
impl Error for Verdict {}
