//! The tables of the page: in a row a sheet, in a column its calls or the runs that elimination is given.
use crate::kinds::{Kind, FALLING, FULL_RUNS, LOADS, ORDINARY, PLACED, READ, RULES, SHUT};
use crate::recipe::Recipe;
use crate::spread::Spread;
use crate::subject::Subject;
use crate::work::Work;

pub struct Table {
    title: String,
    pub work: Work,
    columns: Vec<String>,
    /// Whether the times are also held against the first row's.
    grows: bool,
    /// A name, and a recipe for each column.
    rows: Vec<(&'static str, Vec<Recipe>)>,
}

impl Table {
    /// The sheets that a work allows, each fitted to each column's number.
    fn new(
        title: &str,
        work: Work,
        kinds: &[&[Kind]],
        columns: impl Iterator<Item = (String, u32)>,
        fit: impl Fn(Recipe, u32) -> Recipe,
    ) -> Table {
        let (columns, numbers): (Vec<String>, Vec<u32>) = columns.unzip();
        let fitted = |recipe| numbers.iter().map(|&n| fit(recipe, n)).collect();
        let kinds = kinds.concat().into_iter();
        let allowed = kinds.filter(|(_, recipe)| work.allowed(recipe));
        Table {
            title: title.to_string(),
            work,
            columns,
            grows: false,
            rows: allowed
                .map(|(name, recipe)| (name, fitted(recipe)))
                .collect(),
        }
    }

    /// How many cells there are.
    pub fn size(&self) -> usize {
        self.rows.len() * self.columns.len()
    }

    /// The sheets by rows.
    pub fn cells(&self) -> impl Iterator<Item = Subject> + '_ {
        self.rows.iter().flat_map(move |(name, recipes)| {
            let columns = self.columns.iter().zip(recipes);
            columns.map(move |(column, &recipe)| {
                Subject::new(format!("{name}, {column} ({})", self.title), recipe)
            })
        })
    }

    fn print_rows(&self, cells: &[impl ToString]) {
        println!("| Sheet | {} |", self.columns.join(" | "));
        println!("|---|{}", "---|".repeat(self.columns.len()));
        for ((name, _), row) in self.rows.iter().zip(cells.chunks(self.columns.len())) {
            let row: Vec<String> = row.iter().map(ToString::to_string).collect();
            println!("| {name} | {} |", row.join(" | "));
        }
        println!();
    }

    /// In Markdown, with what the measurements of each cell came to.
    pub fn print(&self, cells: &[Spread]) {
        println!("### {}\n", self.title);
        self.print_rows(cells);
        let mut medians: Vec<f64> = cells.iter().map(|cell| cell.median).collect();
        medians.sort_by(f64::total_cmp);
        let aim = self.work.aim();
        let above = medians.iter().filter(|&&median| median > aim).count();
        let (least, greatest) = (medians[0], medians[medians.len() - 1]);
        let count = medians.len();
        println!("Medians from {least:.2} to {greatest:.2}; {above} of {count} above {aim}.\n");
        if self.grows {
            println!("As many times as long as the first row, by the Rust and by the port:\n");
            self.print_rows(&self.growth(cells));
        }
    }

    /// The times of each cell over those of its column's first.
    fn growth(&self, cells: &[Spread]) -> Vec<String> {
        let first = cells.iter().take(self.columns.len()).cycle();
        let over = |(cell, first): (&Spread, &Spread)| {
            let (base, port) = (cell.base / first.base, cell.port / first.port);
            format!("{base:.1}, {port:.1}")
        };
        cells.iter().zip(first).map(over).collect()
    }
}

fn by_calls(title: &str, work: Work, kinds: &[&[Kind]], calls: &[u32]) -> Table {
    let columns = calls.iter().map(|&n| (format!("{n} calls"), n));
    let fit = |recipe, calls| Recipe { calls, ..recipe };
    Table::new(title, work, kinds, columns, fit)
}

fn by_runs() -> Table {
    let title = "Elimination: `eliminate_routes`, 63 calls";
    let columns = [1, 4, 16, 48].map(|n| (format!("runs of {n}"), n));
    let fit = |recipe, run| Recipe { run, ..recipe };
    Table::new(title, Work::Eliminate, &ALL, columns.into_iter(), fit)
}

const ALL: [&[Kind]; 4] = [&ORDINARY, &LOADS, &RULES, &FULL_RUNS];
const LOADED: [&[Kind]; 3] = [ORDINARY.split_at(2).0, &LOADS, &FULL_RUNS];
const BOTH: [u32; 2] = [16, 63];
const GROWING: [u32; 4] = [8, 16, 32, 63];

pub fn all() -> Vec<Table> {
    let (tw, reverse, growing) = (Work::SplitTw, Work::Reverse, &GROWING);
    let falling = "Elimination into a run of 61 calls, along which another costs less and less";
    let drops = "Growth of `split_tw` with drops, runs as long as the tour";
    let least = "Cutting with the least lateness pay, beside the clock";
    vec![
        by_calls(
            "Cutting with windows, limits and break: `split_tw`",
            tw,
            &ALL,
            &BOTH,
        ),
        by_calls(least, Work::SplitLeast, &[&PLACED], growing),
        by_calls("Cutting by loads: `split`", Work::Split, &LOADED, &BOTH),
        by_calls(
            "Reversal: `two_opt_improve`, the tour as one run",
            reverse,
            &ALL[..3],
            &BOTH,
        ),
        by_runs(),
        by_calls(falling, Work::Eliminate, &[&FALLING], &BOTH[1..]),
        by_calls("Reader", Work::Read, &[&ORDINARY, &READ], &BOTH),
        by_calls("Growth of `split_tw`", tw, &[&ORDINARY], growing),
        Table {
            grows: true,
            ..by_calls(drops, tw, &[&SHUT], growing)
        },
    ]
}
