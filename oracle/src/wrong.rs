//! Answers that are wrong on purpose: in each one thing is changed, so that whoever compares has to notice it.
use crate::source::Source;
use std::fmt;

/// The lines of an answer that may be left out: those that stand for a run or a call.
const LISTED: [&str; 6] = ["run", "drop", "visit", "violation", "reversed", "left"];

/// Two words of which one may stand for the other.
const OPPOSITES: [&str; 2] = ["feasible", "infeasible"];

/// Words behind which the first number says what the others are: each such number makes others of them.
const NUMBERED: [&str; 2] = ["violation", "verdict"];

/// Numbers in a line from this one on are of one kind.
const LAST: usize = 8;

/// What is changed: a number of a line, from 1 and counted anew behind a word, or 0 for the line that begins with the word; `word` is the last one before the number, with the number that says what the others are.
#[derive(Clone, PartialEq)]
struct Kind {
    word: String,
    number: usize,
}

/// A place in the answer: which line, which of its words, and what is changed there.
struct Spot {
    line: usize,
    at: usize,
    kind: Kind,
}

/// Draws what is changed, and keeps count of it.
pub struct Wrong {
    source: Source,
    counts: Vec<(Kind, usize)>,
}

impl Wrong {
    pub fn new(seed: u64) -> Wrong {
        Wrong {
            source: Source::new(seed),
            counts: Vec::new(),
        }
    }

    /// The answer with one thing changed, of the kinds that it has one that was changed least often.
    pub fn changed(&mut self, answer: &str) -> String {
        let spots = spots(answer);
        let least = spots.iter().map(|spot| self.count(&spot.kind)).min();
        let rare: Vec<&Spot> = spots
            .iter()
            .filter(|spot| Some(self.count(&spot.kind)) == least)
            .collect();
        let spot = self.source.any(&rare).expect("an answer has a number");
        match self.counts.iter_mut().find(|(kind, _)| *kind == spot.kind) {
            Some((_, count)) => *count += 1,
            None => self.counts.push((spot.kind.clone(), 1)),
        }
        let lines = answer.lines().enumerate();
        lines
            .filter_map(|(number, line)| match number == spot.line {
                true => spot.change(line),
                false => Some(format!("{line}\n")),
            })
            .collect()
    }

    fn count(&self, kind: &Kind) -> usize {
        let known = self.counts.iter().find(|(other, _)| other == kind);
        known.map_or(0, |&(_, count)| count)
    }
}

impl Spot {
    /// The line with one more in place of its number or with the opposite word, or none.
    fn change(&self, line: &str) -> Option<String> {
        let mut words: Vec<String> = line.split(' ').map(str::to_string).collect();
        let word = words[self.at].as_str();
        words[self.at] = if let Ok(number) = word.parse::<u64>() {
            (number + 1).to_string()
        } else {
            let opposite = OPPOSITES.contains(&word);
            let other = opposite.then(|| OPPOSITES.iter().find(|&&other| other != word));
            other??.to_string()
        };
        Some(words.join(" ") + "\n")
    }
}

/// Every number of the answer, and every line that may be left out or has an opposite.
fn spots(answer: &str) -> Vec<Spot> {
    let mut spots = Vec::new();
    for (line, text) in answer.lines().enumerate() {
        let mut kind = Kind {
            word: String::new(),
            number: 0,
        };
        for (at, word) in text.split(' ').enumerate() {
            if word.parse::<u64>().is_err() {
                kind = Kind {
                    word: word.to_string(),
                    number: 0,
                };
            } else {
                kind.number = LAST.min(kind.number + 1);
            }
            let whole = LISTED.contains(&word) || OPPOSITES.contains(&word);
            if kind.number > 0 || whole {
                let kind = kind.clone();
                spots.push(Spot { line, at, kind });
            }
            if kind.number == 1 && NUMBERED.contains(&kind.word.as_str()) {
                kind.word = format!("{} {word}", kind.word);
            }
        }
    }
    spots
}

/// How often what was changed.
impl fmt::Display for Wrong {
    fn fmt(&self, f: &mut fmt::Formatter) -> fmt::Result {
        let parts = self.counts.iter().map(|(kind, count)| match kind.number {
            0 => format!("{count} in a line of `{}`", kind.word),
            n => format!("{count} in number {n} behind `{}`", kind.word),
        });
        write!(f, "changed: {}", parts.collect::<Vec<_>>().join(", "))
    }
}
