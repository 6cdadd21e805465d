//! The sheets that a planner is asked about, as bytes: the bench cases, generated ones, and Solomon's instances.
use crate::edges::{all, damaged, on_edge};
use crate::source::Source;
use crate::word::{bytes, word};
use crate::{cases, random, reader, solomon};

/// The bench cases, sheets at the largest size, `count` generated sheets, and the sheets of Solomon's files.
pub fn sheets(seed: u64, count: usize, files: &[String]) -> impl Iterator<Item = Vec<u8>> + '_ {
    let mut source = Source::new(seed);
    let cases = cases::sheets().into_iter().map(|words| bytes(&words));
    let longest = longest(&mut source);
    let generated = (0..count).map(move |number| generated(&mut source, number));
    let instances = files.iter().flat_map(|file| from_file(file));
    cases.chain(longest).chain(generated).chain(instances)
}

/// A sheet of 8,643 words, the same with a 64th call, and with a word behind its end.
fn longest(source: &mut Source) -> [Vec<u8>; 3] {
    let words = random::full(source);
    let mut call_more = words.clone();
    call_more.insert(words.len() - 1, word(0xE, 1));
    let word_more = [&words[..], &[word(0xE, 1)]].concat();
    [words, call_more, word_more].map(|words| bytes(&words))
}

/// Sheet number `number`. Of a thousand 250 are small, 550 medium, 175 long, 24 large and one full; of each size one in four is as it was drawn, one is damaged, and two are on an edge.
fn generated(source: &mut Source, number: usize) -> Vec<u8> {
    let mut words = match number % 40 {
        0..10 => random::small(source),
        10..32 => random::medium(source),
        32..39 => random::long(source),
        _ if number % 1000 == 999 => random::full(source),
        _ => random::large(source),
    };
    match number / 40 % 4 {
        0 => bytes(&words),
        1 => damaged(source, &words),
        _ => {
            for _ in 0..2 {
                words = moved(source, words);
            }
            bytes(&words)
        }
    }
}

/// The sheet with a number moved onto an edge, if it is then accepted, and one time in eight if not.
fn moved(source: &mut Source, words: Vec<u32>) -> Vec<u32> {
    let mut moved = words.clone();
    let tour = all(&words, 0xE);
    on_edge(source, &mut moved, &tour);
    if source.one_in(8) || reader::words(&bytes(&moved)).is_ok() {
        moved
    } else {
        words
    }
}

/// The first 25 customers of a Solomon file, and all 50 where it has them.
fn from_file(file: &str) -> Vec<Vec<u8>> {
    let text = std::fs::read_to_string(file).expect("a Solomon file");
    let sizes: &[usize] = if file.contains(".50.") {
        &[25, 50]
    } else {
        &[25]
    };
    let sheets = sizes.iter().flat_map(|&n| solomon::sheets(&text, n));
    sheets.map(|words| bytes(&words)).collect()
}
