//! The works that are timed.
use crate::recipe::Recipe;
use std::fmt;

#[derive(Clone, Copy)]
pub enum Work {
    SplitTw,
    /// `split_tw` with breaks where the least is paid for lateness. The original has none: it is held against the port's
    /// own `split_tw`, by the clock.
    SplitLeast,
    Split,
    Reverse,
    Eliminate,
    Read,
}

pub const WORKS: [Work; 6] = [
    Work::SplitTw,
    Work::SplitLeast,
    Work::Split,
    Work::Reverse,
    Work::Eliminate,
    Work::Read,
];

impl Work {
    /// The improvers refuse lateness pay, and without a break there is nothing to place.
    pub fn allowed(self, recipe: &Recipe) -> bool {
        match self {
            Work::Reverse | Work::Eliminate => recipe.penalties == 0,
            Work::SplitLeast => recipe.rest.is_some(),
            Work::SplitTw | Work::Split | Work::Read => true,
        }
    }

    /// The ratio that is aimed at: no greater than this.
    pub fn aim(self) -> f64 {
        match self {
            Work::SplitLeast => 20.0,
            _ => 1.0,
        }
    }
}

impl fmt::Display for Work {
    fn fmt(&self, f: &mut fmt::Formatter) -> fmt::Result {
        f.write_str(match self {
            Work::SplitTw => "`split_tw`",
            Work::SplitLeast => "`split_tw`, least lateness pay",
            Work::Split => "`split`",
            Work::Reverse => "reversal",
            Work::Eliminate => "elimination",
            Work::Read => "reader",
        })
    }
}
