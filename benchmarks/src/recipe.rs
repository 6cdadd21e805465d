//! What a sheet is made from: its size, its legs, and the rules that bind its runs.

/// How long the legs are.
#[derive(Clone, Copy, Debug)]
pub enum Legs {
    /// Along the streets of a square.
    Streets,
    /// Along streets, and longer by up to so much, there and back differently.
    OneWay(u32),
    /// A thousand, and below so much.
    Even(u32),
    /// Along a line that all customers stand on in order; the depot is as far from each.
    Line,
}

/// In which order the tour calls at its customers.
#[derive(Clone, Copy, Debug)]
pub enum Order {
    AtRandom,
    /// In the order of their numbers.
    InTurn,
    /// Always the nearest that is left.
    Nearest,
}

/// Which windows the customers have.
#[derive(Clone, Copy, Debug)]
pub enum Windows {
    None,
    /// Within a day, and as long as this at least and twice as long at most.
    Long(u32),
    /// Open until the recipe's runs call there.
    UntilCalled,
    /// At the calls behind the first of the recipe's runs: shut one unit too early for them to be that run's last.
    NotLast,
}

/// A limit of distance or duration.
#[derive(Clone, Copy, Debug)]
pub enum Limit {
    None,
    At(u32),
    /// What the longest of the recipe's runs comes to: one call more misses it.
    OfRuns,
    /// One less than the tour as one run comes to with the best of all single reversals.
    BelowReversals,
}

/// Why a customer can't be served.
#[derive(Clone, Copy, Debug)]
pub enum Shut {
    Weight,
    /// Due at 0: no run goes past it.
    Window,
    /// Too far from the depot: the limit of distance rules out to begin or end there, and longer runs have to be tried.
    Distance,
}

#[derive(Clone, Copy, Debug)]
pub struct Recipe {
    /// Gives the numbers that are drawn.
    pub seed: u64,
    pub places: u32,
    /// As many calls, or as many as there are customers.
    pub calls: u32,
    pub order: Order,
    pub legs: Legs,
    /// Whether there is a table of times; they are twice the distances.
    pub times: bool,
    /// The largest; the least is 1, or 0 where this is 0.
    pub demand: u32,
    pub capacity: u32,
    pub fixed: u32,
    /// As the demand.
    pub service: u32,
    pub windows: Windows,
    /// One customer in so many has a penalty; 0: none has.
    pub penalties: u32,
    /// Earliest, latest, duration.
    pub rest: Option<[u32; 3]>,
    pub distance: Limit,
    pub duration: Limit,
    /// One customer in so many is shut.
    pub shut: Option<(Shut, u32)>,
    /// How many calls the runs have that elimination is given, and that windows and limits are made for.
    pub run: u32,
}

/// 64 places, both leg tables, 63 calls, and no rule that binds.
pub const PLAIN: Recipe = Recipe {
    seed: 0,
    places: 64,
    calls: 63,
    order: Order::AtRandom,
    legs: Legs::Streets,
    times: true,
    demand: 40,
    capacity: 20_000,
    fixed: 50,
    service: 10,
    windows: Windows::None,
    penalties: 0,
    rest: None,
    distance: Limit::None,
    duration: Limit::None,
    shut: None,
    run: 16,
};
