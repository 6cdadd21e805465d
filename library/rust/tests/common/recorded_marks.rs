//! Recorded cuttings with the marks of the oracle's own marker.
use super::records;
use lizsomdur::{Placement, Refusal};

/// A cutting as the library is lent it; its lists may have anything wrong.
pub struct Recorded {
    pub sheet: Vec<u8>,
    pub calls: Vec<u8>,
    pub ends: Vec<u8>,
    pub places: Vec<u8>,
    /// The verdict's number and values, or the refusal.
    pub mark: Result<(u32, Vec<u64>), Refusal>,
}

/// Those beside the plan of this placement that are in the repository, and the fresh ones if there are any.
pub fn recorded_marks(placement: Placement) -> Vec<Recorded> {
    marks(letter(placement))
}

/// Those that are wrong on purpose.
pub fn wrong_marks(placement: Placement) -> Vec<Recorded> {
    marks(letter(placement).to_ascii_uppercase())
}

/// The kind of the records.
fn letter(placement: Placement) -> u8 {
    match placement {
        Placement::Clock => b'm',
        Placement::Least => b'p',
    }
}

fn marks(kind: u8) -> Vec<Recorded> {
    let records = records(kind).into_iter();
    records
        .map(|(question, answer)| {
            let mut parts = question.splitn(4, |&byte| byte == b'\n');
            let mut part = || parts.next().expect("three lines and a sheet");
            Recorded {
                calls: list(part()),
                ends: list(part()),
                places: list(part()),
                sheet: part().to_vec(),
                mark: mark(&answer),
            }
        })
        .collect()
}

/// The numbers of a line.
fn list(line: &[u8]) -> Vec<u8> {
    let line = std::str::from_utf8(line).expect("text");
    let numbers = line.split_whitespace();
    numbers.map(|n| n.parse().expect("a byte")).collect()
}

/// `verdict NUMBER VALUE..`, `refused NUMBER` or `refused NUMBER at WORD`.
fn mark(answer: &str) -> Result<(u32, Vec<u64>), Refusal> {
    let words: Vec<&str> = answer.split_whitespace().collect();
    let numbers = words.iter().filter_map(|word| word.parse().ok());
    let numbers: Vec<u64> = numbers.collect();
    let number = numbers[0] as u32;
    match words[0] {
        "verdict" => Ok((number, numbers[1..].to_vec())),
        _ => Err(Refusal {
            number,
            word: numbers.get(1).map(|&word| word as usize),
        }),
    }
}
