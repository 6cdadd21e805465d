//! What a function is asked: a sheet, and runs for those that take them.
use crate::word::bytes;
use std::fs;
use std::path::Path;

/// The words of a sheet.
pub fn words_of(sheet: &[u8]) -> Vec<u32> {
    let words = sheet.chunks_exact(4);
    words
        .map(|word| u32::from_le_bytes(word.try_into().expect("four bytes")))
        .collect()
}

#[derive(Clone)]
pub struct Question {
    pub words: Vec<u32>,
    pub calls: Vec<u8>,
    pub ends: Vec<u8>,
    /// The break place of each run, for a mark.
    pub places: Vec<u8>,
}

impl Question {
    /// A sheet alone.
    pub fn of(words: Vec<u32>) -> Question {
        Question {
            words,
            calls: Vec::new(),
            ends: Vec::new(),
            places: Vec::new(),
        }
    }

    /// The bytes of the sheet.
    pub fn sheet(&self) -> Vec<u8> {
        bytes(&self.words)
    }

    /// Writes NAME.sheet and, where runs are given, NAME.runs: lines of the calls, the run ends and the break places.
    pub fn keep(&self, folder: &Path, name: &str) {
        let write = |end: &str, bytes: &[u8]| {
            fs::write(folder.join(format!("{name}.{end}")), bytes).expect("a folder to write to");
        };
        write("sheet", &self.sheet());
        if !self.calls.is_empty() {
            let line = |list: &Vec<u8>| {
                let numbers: Vec<String> = list.iter().map(u8::to_string).collect();
                numbers.join(" ") + "\n"
            };
            let lines: String = [&self.calls, &self.ends, &self.places].map(line).concat();
            write("runs", lines.as_bytes());
        }
    }

    /// What `keep` wrote, if it did.
    pub fn kept(folder: &Path, name: &str) -> Option<Question> {
        let path = |end: &str| folder.join(format!("{name}.{end}"));
        let sheet = fs::read(path("sheet")).ok()?;
        let runs = fs::read_to_string(path("runs")).unwrap_or_default();
        let mut lists = runs.lines().map(|line| {
            let numbers = line.split_whitespace().map(|number| number.parse());
            numbers
                .collect::<Result<Vec<u8>, _>>()
                .expect("numbers of a byte")
        });
        let mut list = || lists.next().unwrap_or_default();
        Some(Question {
            words: words_of(&sheet),
            calls: list(),
            ends: list(),
            places: list(),
        })
    }
}
