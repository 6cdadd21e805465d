//! What several measurements of the same come to.
use crate::clock::Times;
use std::fmt;

/// The median times, and the ratio's least, median and greatest value.
pub struct Spread {
    pub base: f64,
    pub port: f64,
    least: f64,
    pub median: f64,
    greatest: f64,
}

fn sorted(times: &[Times], of: impl Fn(&Times) -> f64) -> Vec<f64> {
    let mut numbers: Vec<f64> = times.iter().map(of).collect();
    numbers.sort_by(f64::total_cmp);
    numbers
}

impl Spread {
    /// Of one measurement at least.
    pub fn new(times: &[Times]) -> Spread {
        let middle = times.len() / 2;
        let ratios = sorted(times, Times::ratio);
        Spread {
            base: sorted(times, |each| each.base)[middle],
            port: sorted(times, |each| each.port)[middle],
            least: ratios[0],
            median: ratios[middle],
            greatest: ratios[ratios.len() - 1],
        }
    }
}

/// Microseconds, in some three digits.
fn micros(time: f64) -> String {
    match time {
        ..10.0 => format!("{time:.2}"),
        ..100.0 => format!("{time:.1}"),
        _ => format!("{time:.0}"),
    }
}

impl fmt::Display for Spread {
    fn fmt(&self, f: &mut fmt::Formatter) -> fmt::Result {
        let (base, port) = (micros(self.base), micros(self.port));
        let (least, median, greatest) = (self.least, self.median, self.greatest);
        write!(
            f,
            "{base} → {port}: {median:.2} [{least:.2}, {greatest:.2}]"
        )
    }
}
