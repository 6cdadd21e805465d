//! The library's functions, and how long one takes for a question.
use crate::question::Question;
use crate::slices;
use crate::stopwatch::seconds;

/// Where the planner puts the break of a run, as in the package.
#[derive(Clone, Copy)]
pub enum Placement {
    Clock,
    Least,
}

#[derive(Clone, Copy)]
pub enum Call {
    Plan(Placement),
    Mark(Placement),
    Reverse,
    Eliminate,
    /// Of the calls given as one run, with its break at the first place given.
    Visits,
}

pub const CALLS: [Call; 7] = [
    Call::Plan(Placement::Clock),
    Call::Plan(Placement::Least),
    Call::Mark(Placement::Clock),
    Call::Mark(Placement::Least),
    Call::Reverse,
    Call::Eliminate,
    Call::Visits,
];

/// The most calls that a sheet has, and that runs have together.
pub const TOUR: usize = 63;
pub const MOST: usize = 128;

/// The most violations that a run has.
const VIOLATIONS: usize = MOST + 4;

/// How long is timed.
#[derive(Clone, Copy)]
pub struct Pace {
    /// The fewest turns.
    pub turns: u32,
    /// Microseconds of all turns together, where that makes more.
    pub whole: f64,
}

impl Pace {
    /// How many turns there are, where one takes this long.
    fn turns(self, turn: f64) -> u32 {
        self.turns.max((self.whole / turn) as u32)
    }
}

/// What the functions write.
#[derive(Default)]
pub struct Room {
    lists: [Vec<u8>; 4],
    starts: Vec<f64>,
    /// Of a timeline: times, loads, violations and their figures.
    times: Vec<f64>,
    loads: Vec<u64>,
    violations: Vec<u8>,
    figures: Vec<f64>,
    word: usize,
    pub counts: [usize; 3],
}

impl Room {
    fn new() -> Room {
        Room {
            lists: [(); 4].map(|()| vec![0; MOST]),
            starts: vec![0.0; MOST],
            times: vec![0.0; 3 * MOST],
            loads: vec![0; 2 * MOST],
            violations: vec![0; VIOLATIONS],
            figures: vec![0.0; 3 * VIOLATIONS],
            ..Room::default()
        }
    }
}

impl Call {
    pub fn name(self) -> &'static str {
        match self {
            Call::Plan(Placement::Clock) => "plan",
            Call::Plan(Placement::Least) => "plan_least",
            Call::Mark(Placement::Clock) => "mark",
            Call::Mark(Placement::Least) => "mark_least",
            Call::Reverse => "reverse",
            Call::Eliminate => "eliminate",
            Call::Visits => "visits",
        }
    }

    /// The number that the function returns.
    fn ask(self, sheet: &[u8], question: &Question, room: &mut Room) -> u32 {
        let Question {
            calls,
            ends,
            places,
            ..
        } = question;
        let Room {
            lists: [first, second, third, fourth],
            starts,
            times,
            loads,
            violations,
            figures,
            word,
            counts,
        } = room;
        match self {
            Call::Plan(by) => {
                let totals = &mut [0.0; 2];
                slices::plan(
                    by, sheet, first, second, third, starts, fourth, counts, totals, word,
                )
            }
            Call::Mark(by) => {
                slices::mark(by, sheet, calls, ends, places, word, &mut 0, &mut [0.0; 5])
            }
            Call::Reverse => slices::reverse(sheet, calls, first, word, &mut 0.0),
            Call::Eliminate => {
                slices::eliminate(sheet, calls, ends, first, second, word, &mut [0; 2])
            }
            Call::Visits => {
                let place = places.first().map_or(0, |&place| place.into());
                let totals = &mut [0.0; 5];
                slices::visits(
                    sheet, calls, place, times, loads, violations, figures, counts, totals, word,
                )
            }
        }
    }

    /// Microseconds of the shortest turn; none where the question is refused.
    pub fn time(self, question: &Question, pace: Pace) -> Option<f64> {
        let mut asked = Asked::new(self, question)?;
        for _ in 1..pace.turns(asked.least) {
            asked.again();
        }
        Some(asked.least)
    }

    /// The same of two questions, in turns, so that what else the machine does meets both alike.
    pub fn times(self, first: &Question, second: &Question, pace: Pace) -> Option<(f64, f64)> {
        let mut first = Asked::new(self, first)?;
        let mut second = Asked::new(self, second)?;
        for _ in 1..pace.turns(first.least + second.least) {
            first.again();
            second.again();
        }
        Some((first.least, second.least))
    }

    /// The question with the runs that a mark looks at from end to end: the plan's own.
    pub fn fitted(self, mut question: Question) -> Question {
        if let Call::Mark(by) = self {
            let mut room = Room::new();
            if Call::Plan(by).ask(&question.sheet(), &question, &mut room) == 0 {
                let Room {
                    lists: [served, ends, places, _],
                    counts,
                    ..
                } = room;
                question.calls = served[..counts[0]].to_vec();
                question.ends = ends[..counts[1]].to_vec();
                question.places = places[..counts[1]].to_vec();
            }
        }
        question
    }
}

/// A question that is asked again and again, and the shortest turn so far, in microseconds.
struct Asked<'a> {
    call: Call,
    question: &'a Question,
    sheet: Vec<u8>,
    room: Room,
    least: f64,
}

impl Asked<'_> {
    /// A first turn, if the question is not refused.
    fn new(call: Call, question: &Question) -> Option<Asked<'_>> {
        let mut asked = Asked {
            call,
            question,
            sheet: question.sheet(),
            room: Room::new(),
            least: f64::MAX,
        };
        (asked.again() == 0).then_some(asked)
    }

    fn again(&mut self) -> u32 {
        let mut number = 0;
        let time = seconds(|| number = self.call.ask(&self.sheet, self.question, &mut self.room));
        self.least = self.least.min(time * 1e6);
        number
    }
}
