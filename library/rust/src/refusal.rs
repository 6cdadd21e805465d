//! Why nothing was answered.
use std::error::Error;
use std::fmt;

/// Why nothing was answered, by the number that `lizsomdur.h` lists. It is shown by number, word and meaning:
///
/// ```
/// let cut_short = lizsomdur::plan(&[]).expect_err("no sheet");
/// assert_eq!(cut_short.number, lizsomdur::Refusal::NO_END);
/// assert_eq!(cut_short.to_string(), "refused 12 at word 0: the words end before F");
/// ```
#[derive(Clone, Copy, Debug, PartialEq, Eq)]
pub struct Refusal {
    pub number: u32,
    /// The index of the bad word, from 0, where the sheet itself is at fault.
    pub word: Option<usize>,
}

/// The numbers, and the table of all of them, from one list.
macro_rules! refusals {
    ($($name:ident = $number:literal, $meaning:literal;)*) => {
        impl Refusal {
            $(#[doc = concat!("Number ", $number, ": ", $meaning, ".")]
            pub const $name: u32 = $number;)*

            /// Each number with its name here and its meaning in words.
            pub const ALL: &'static [(u32, &'static str, &'static str)] =
                &[$(($number, stringify!($name), $meaning)),*];
        }
    };
}

refusals! {
    OUT_OF_RANGE = 1, "a number out of range, more than 128 calls, or a call that is no customer";
    OUT_OF_ORDER = 2, "ready above due, or earliest above latest";
    WRONG_END = 3, "F counts wrongly, or something stands behind it";
    LATENESS_PAY = 4, "lateness pay, on a sheet for an improver";
    WRONG_RUNS = 5, "run ends that fall or miss the number of calls, or in a mark an empty run or a wrong break place";
    WRONG_KIND = 11, "a kind that may not stand here";
    NO_END = 12, "the words end before F";
    LIST_TOO_SHORT = 13, "a lent list too short";
    REPEATED_CUSTOMER = 21, "a repeated customer, whom an earlier E word has called";
    CLOSURES_DIFFER = 22, "distance and time disagree on closure";
    CLOSED_LEG = 23, "a closed leg, on a sheet for an improver";
}

impl Refusal {
    /// What the number means, in words.
    pub fn meaning(&self) -> &'static str {
        let found = Self::ALL.iter().find(|(number, ..)| *number == self.number);
        found.map_or("a number that the library does not have", |row| row.2)
    }
}

impl fmt::Display for Refusal {
    fn fmt(&self, f: &mut fmt::Formatter) -> fmt::Result {
        write!(f, "refused {}", self.number)?;
        if let Some(word) = self.word {
            write!(f, " at word {word}")?;
        }
        write!(f, ": {}", self.meaning())
    }
}

impl Error for Refusal {}
