//! What a sample of questions and answers has, by how many of them.
use crate::sheet::Sheet;
use crate::word::{ended, has_closed, has_second, is_closed, kind, most, word};
use crate::{listing, reader};
use std::fmt;

/// A run of so many calls counts as long, and a tour of so many.
const LONG: usize = 100;
const MANY: usize = 50;

/// How the answers to cuttings begin, and what they are then.
const MARKS: [(&str, &str); 15] = [
    ("refused 13", "refused by 13"),
    ("refused 1", "by 1"),
    ("refused 5", "by 5"),
    ("verdict 1", "other calls"),
    ("verdict 12", "road closed"),
    ("verdict 2", "overload"),
    ("verdict 11", "wheelchair overload"),
    ("verdict 3", "break too late"),
    ("verdict 4", "window missed"),
    ("verdict 5", "break missing"),
    ("verdict 6", "too far"),
    ("verdict 7", "too long"),
    ("verdict 8", "best"),
    ("verdict 9", "dearer"),
    ("verdict 10", "cheaper"),
];

/// Names in the order of their first question, each with its count.
#[derive(Default)]
pub struct Features {
    questions: usize,
    counts: Vec<(&'static str, usize)>,
}

impl Features {
    fn count(&mut self, name: &'static str, has: bool) {
        let known = self.counts.iter().position(|&(other, _)| other == name);
        let at = known.unwrap_or_else(|| {
            self.counts.push((name, 0));
            self.counts.len() - 1
        });
        self.counts[at].1 += usize::from(has);
    }

    /// A sheet that may be refused, and its listing.
    pub fn listing(&mut self, file: &[u8], answer: &str) {
        self.questions += 1;
        self.count("refused", answer.starts_with("refused"));
        self.count("for a call twice", answer.starts_with("refused 21 "));
        self.count("for closed apart", answer.starts_with("refused 22 "));
        self.count("with drops", answer.contains("drop "));
        self.count("with a break taken", answer.contains(" rest "));
        if let Ok(words) = reader::words(file) {
            self.sheet(&words);
            let second = has_second(&words) && listing::of(&without_second(&words)) != answer;
            self.count("cut otherwise for wheelchairs", second);
            let differs = |leg: u32| listing::of(&opened(&words, leg)) != answer;
            let closed = has_closed(&words);
            self.count("cut otherwise with closed legs of 0", closed && differs(0));
            self.count("with closed legs of 10000000", closed && differs(most(0xC)));
        }
    }

    /// An accepted sheet in words.
    fn sheet(&mut self, words: &[u32]) {
        let sheet = Sheet::from_words(words);
        self.count("with a symmetric table", sheet.distances.symmetric());
        self.count("of 50 calls or more", sheet.tour.len() >= MANY);
        self.count("with wheelchair places", has_second(words));
        self.count("with closed legs", has_closed(words));
    }

    /// An accepted sheet, its runs, and what is made of them.
    pub fn runs(&mut self, words: &[u32], routes: &[Vec<usize>], answer: &str) {
        self.questions += 1;
        self.sheet(words);
        self.count("with a second load over", answer.contains("violation 6 "));
        self.count(
            "with a run over a closed leg",
            answer.contains("violation 7 "),
        );
        let longest = routes.iter().map(Vec::len).max().unwrap_or(0);
        self.count("with a run of 4 calls or more", longest >= 4);
        self.count("with a run of 100 calls or more", longest >= LONG);
        self.count("with an empty run", routes.iter().any(Vec::is_empty));
        self.count("with violations", answer.contains("violation "));
        self.count("with a feasible run", answer.contains("\nfeasible "));
        let dropped = answer.contains("dropped ");
        self.count("with a call left out by `split`", dropped);
        self.count(
            "with closed legs and one left out",
            dropped && has_closed(words),
        );
        let reversed = lines(answer, "reversed ");
        self.count("with improved runs", !reversed.is_empty());
        let turned = std::iter::zip(&reversed, routes).filter(|(new, old)| new[1..] != old[..]);
        let turned = turned.map(|(_, old)| old.len()).max().unwrap_or(0);
        self.count("with a run turned", turned > 0);
        self.count("with a run of 100 calls or more turned", turned >= LONG);
        let filled = routes.iter().filter(|route| !route.is_empty()).count();
        let left = lines(answer, "left ").len();
        self.count("with a run eliminated", 0 < left && left < filled);
    }

    /// A cutting of a sheet that may be refused, and its mark.
    pub fn mark(&mut self, file: &[u8], answer: &str) {
        self.questions += 1;
        let words = reader::words(file);
        self.count("with a refused sheet", words.is_err());
        let said: Vec<&str> = answer.split_whitespace().take(2).collect();
        for (start, name) in MARKS {
            self.count(name, words.is_ok() && said.join(" ") == start);
        }
        if let Ok(words) = words {
            self.sheet(&words);
        }
    }

    /// An accepted sheet, its listing with the least lateness pay and by the clock, and the mark of a cutting beside the first.
    pub fn least(&mut self, words: &[u32], least: &str, clock: &str, mark: &str) {
        self.questions += 1;
        self.sheet(words);
        self.count("with drops", least.contains("drop "));
        self.count("with a break taken", least.contains(" rest "));
        self.count("planned otherwise by the clock", least != clock);
        let cost = |text: &str| {
            text.split(' ')
                .skip_while(|&w| w != "cost")
                .nth(1)
                .map(str::to_string)
        };
        self.count("dearer by the clock", cost(least) != cost(clock));
        for (start, name) in MARKS {
            let said: Vec<&str> = mark.split_whitespace().take(2).collect();
            self.count(name, said.join(" ") == start);
        }
    }
}

/// The sheet with a leg of this length in place of every closed one.
fn opened(words: &[u32], leg: u32) -> Vec<u32> {
    let open = |&w: &u32| {
        if is_closed(w) {
            word(kind(w), leg)
        } else {
            w
        }
    };
    words.iter().map(open).collect()
}

/// The sheet with seats alone.
fn without_second(words: &[u32]) -> Vec<u32> {
    let before = words[..words.len() - 1].iter().copied();
    ended(before.filter(|&w| kind(w) != 0).collect())
}

/// The numbers of the answer's lines that begin with this word.
fn lines(answer: &str, word: &str) -> Vec<Vec<usize>> {
    let rest = answer.lines().filter_map(|line| line.strip_prefix(word));
    let numbers = |rest: &str| {
        rest.split(' ')
            .map(|n| n.parse().expect("a number"))
            .collect()
    };
    rest.map(numbers).collect()
}

impl fmt::Display for Features {
    fn fmt(&self, f: &mut fmt::Formatter) -> fmt::Result {
        write!(f, "{} questions", self.questions)?;
        for (name, count) in &self.counts {
            write!(f, ", {count} {name}")?;
        }
        Ok(())
    }
}
