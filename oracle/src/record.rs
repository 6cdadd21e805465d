//! Recorded answers: for each question the length of its bytes, the bytes, the length of its answer, and the answer; lengths are 32 bits, little-endian. The first byte of a question says its kind, as a small letter; a capital says that the answer is wrong on purpose.
use crate::features::Features;
use crate::wrong::Wrong;
use crate::{answer, questions};
use std::io::Write;

/// A question of this kind is a sheet, and its answer the listing.
const SHEET: u8 = b's';

/// The cases, `count` generated sheets and those of Solomon's files, to standard output; what they have, to standard error.
pub fn write(out: &mut Out, seed: u64, count: usize, files: &[String]) {
    let mut features = Features::default();
    for file in questions::sheets(seed, count, files) {
        let answer = answer(&file);
        features.listing(&file, &answer);
        out.put(SHEET, &file, &answer);
    }
    eprintln!("{features}");
}

/// Where records go: to standard output, as they are or each with one thing changed.
pub struct Out {
    wrong: Option<Wrong>,
}

impl Out {
    pub fn right() -> Out {
        Out { wrong: None }
    }

    pub fn wrong(seed: u64) -> Out {
        Out {
            wrong: Some(Wrong::new(seed)),
        }
    }

    /// A question behind its kind and its answer, each behind its length.
    pub fn put(&mut self, kind: u8, question: &[u8], answer: &str) {
        match &mut self.wrong {
            None => part(kind, question, answer),
            Some(wrong) => {
                let changed = wrong.changed(answer);
                assert_ne!(changed, answer, "a wrong answer is another one");
                part(kind.to_ascii_uppercase(), question, &changed);
            }
        }
    }

    /// What was changed, to standard error.
    pub fn close(&self) {
        if let Some(wrong) = &self.wrong {
            eprintln!("{wrong}");
        }
    }
}

fn part(kind: u8, question: &[u8], answer: &str) {
    let mut out = std::io::stdout().lock();
    for part in [&[&[kind], question].concat(), answer.as_bytes()] {
        let length = u32::try_from(part.len()).expect("a short part");
        out.write_all(&length.to_le_bytes())
            .expect("standard output");
        out.write_all(part).expect("standard output");
    }
}
