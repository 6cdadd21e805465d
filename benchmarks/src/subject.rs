//! Each work on one sheet. Both have to give the same first; a sheet on which they don't ends the program.
use crate::clock::{beside, compare, Pace, Times};
use crate::fitted;
use crate::ga::SplitResult;
use crate::original;
use crate::port;
use crate::reader;
use crate::recipe::Recipe;
use crate::sheet::Sheet;
use crate::work::Work;

/// How many calls of the original a turn has at most where each is given tables of its own: as many as a cache holds.
const OWN_TABLES: u32 = 4;

/// A sheet, in words and read.
pub struct Subject {
    /// How it can be made again.
    pub name: String,
    pub recipe: Recipe,
    pub bytes: Vec<u8>,
    sheet: Sheet,
}

impl Subject {
    pub fn new(name: String, recipe: Recipe) -> Subject {
        let bytes = fitted::sheet(recipe);
        let words = reader::words(&bytes).expect("an accepted sheet");
        let sheet = Sheet::from_words(&words);
        Subject {
            name,
            recipe,
            bytes,
            sheet,
        }
    }

    /// The sheet's words.
    pub fn words(&self) -> impl Iterator<Item = u32> + '_ {
        let words = self.bytes.chunks_exact(4);
        words.map(|word| u32::from_le_bytes(word.try_into().expect("four bytes")))
    }

    /// The times of a work that the recipe allows.
    pub fn time(&self, work: Work, pace: Pace) -> Times {
        match work {
            Work::SplitTw => {
                let (theirs, cost) = (original::split_tw, original::cost);
                self.cut((work, pace), theirs, cost, port::split_tw)
            }
            Work::SplitLeast => self.least(pace),
            Work::Split => {
                let (theirs, cost) = (original::split, original::plain_cost);
                self.cut((work, pace), theirs, cost, port::split)
            }
            Work::Reverse => self.reverse(pace),
            Work::Eliminate => self.eliminate(pace),
            Work::Read => self.read(pace),
        }
    }

    /// Ends the program where the port's answer is another.
    fn same(&self, work: Work, expected: f64, found: f64) {
        if found != expected {
            let name = &self.name;
            eprintln!("{work} on {name}: {expected} is expected, and the port gives {found}");
            std::process::exit(1);
        }
    }

    /// A cut by both, and what the original's result costs.
    fn cut(
        &self,
        (work, pace): (Work, Pace),
        theirs: impl Fn(&Sheet) -> SplitResult,
        cost: impl Fn(&Sheet, &SplitResult) -> f64,
        ours: impl Fn(&[u8], u32) -> f64,
    ) -> Times {
        let expected = cost(&self.sheet, &theirs(&self.sheet));
        self.same(work, expected, ours(&self.bytes, 1));
        let theirs = |(): &mut ()| theirs(&self.sheet).total_distance;
        let ours = |rounds| ours(&self.bytes, rounds);
        compare(pace, u32::MAX, || (), theirs, ours)
    }

    /// Both placements of the break, by the port. By the clock it may cost more where lateness is paid, and never less.
    fn least(&self, pace: Pace) -> Times {
        let clock = |rounds| port::split_tw(&self.bytes, rounds);
        let least = |rounds| port::split_least(&self.bytes, rounds);
        let (dearest, found) = (clock(1), least(1));
        if self.recipe.penalties == 0 || found > dearest {
            self.same(Work::SplitLeast, dearest, found);
        }
        beside(pace, clock, least)
    }

    /// The table's notes on itself (its scale, its symmetry) are made anew in each call, as the port makes them.
    fn reverse(&self, pace: Pace) -> Times {
        let table = || self.sheet.distances.clone();
        let theirs = |table: &mut _| original::two_opt(&self.sheet, table);
        let ours = |rounds| port::two_opt(&self.bytes, rounds);
        self.same(Work::Reverse, theirs(&mut table()), ours(1));
        compare(pace, OWN_TABLES, table, theirs, ours)
    }

    /// Here too the table's notes are made anew.
    fn eliminate(&self, pace: Pace) -> Times {
        let run = self.recipe.run as usize;
        let vehicle = self.sheet.vehicle();
        let given = || {
            let runs = self.sheet.tour.chunks(run).map(<[usize]>::to_vec);
            (runs.collect(), self.sheet.distances.clone())
        };
        let theirs = |(runs, table): &mut (Vec<_>, _)| {
            original::eliminate(&self.sheet, &vehicle, std::mem::take(runs), table)
        };
        let ours = |rounds| port::eliminate(&self.bytes, run, rounds);
        self.same(Work::Eliminate, theirs(&mut given()), ours(1));
        compare(pace, OWN_TABLES, given, theirs, ours)
    }

    fn read(&self, pace: Pace) -> Times {
        let theirs = |(): &mut ()| original::read(&self.bytes);
        let ours = |rounds| port::read(&self.bytes, rounds);
        self.same(Work::Read, theirs(&mut ()), ours(1));
        compare(pace, u32::MAX, || (), theirs, ours)
    }
}
