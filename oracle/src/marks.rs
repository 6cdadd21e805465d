//! Generated cuttings with their marks, as records.
//!
//! A question is a line of calls, one of run ends and one of break places, and a sheet behind them. The answer is `verdict` with its number and values, `refused` with the number that refuses the lists, or what a listing says of a refused sheet.
use crate::edges::{damaged, on_edges};
use crate::faults::at_fault;
use crate::features::Features;
use crate::marker::{mark, spans, Cutting, Verdict, BEST, CHEAPER, DEARER, OTHER_CALLS};
use crate::record::Out;
use crate::sheet::Sheet;
use crate::source::Source;
use crate::spoiled::spoil;
use crate::word::bytes;
use crate::{cases, cuttings, plan, reader, ruled};

/// A question of this kind is a cutting.
const MARK: u8 = b'm';

/// A cutting of each bench case and of `count` generated sheets, to standard output; what they have, to standard error.
pub fn write(out: &mut Out, seed: u64, count: usize) {
    let mut source = Source::new(seed);
    let mut features = Features::default();
    let mut put = |cutting: &Cutting, file: &[u8]| {
        let answer = answer(file, cutting);
        features.mark(file, &answer);
        let question = [lines(cutting).as_bytes(), file].concat();
        out.put(MARK, &question, &answer);
    };
    for words in cases::sheets() {
        put(&cuttings::drawn(&mut source, &words), &bytes(&words));
    }
    for number in 0..count {
        let (cutting, file) = question(&mut source, number);
        put(&cutting, &file);
    }
    eprintln!("{features}");
}

/// A cutting, and the bytes of a sheet. One cutting in four has something wrong in its lists, one sheet in 25 is damaged.
fn question(source: &mut Source, number: usize) -> (Cutting, Vec<u8>) {
    let (words, mut cutting) = cut_sheet(source, number);
    if source.one_in(4) {
        spoil(source, &words, &mut cutting);
    }
    let file = match source.below(25) {
        0 => damaged(source, &words),
        _ => bytes(&words),
    };
    (cutting, file)
}

/// A cutting drawn from a sheet's plan, and that sheet with numbers moved to what the cutting comes to. Of those that break no rule or have other calls, which are many, two in three are passed over.
fn cut_sheet(source: &mut Source, number: usize) -> (Vec<u32>, Cutting) {
    loop {
        let words = ruled::sheet(source, number);
        let cutting = cuttings::drawn(source, &words);
        let words = moved(source, words, &cutting);
        match marked(&words, &cutting) {
            Ok((OTHER_CALLS | BEST | DEARER, _)) if !source.one_in(3) => (),
            _ => return (words, cutting),
        }
    }
}

/// The sheet with numbers moved onto the edges of a run of the cutting, then with limits moved to where the cutting just breaks or keeps them, one after the other; each time if it is still accepted.
fn moved(source: &mut Source, mut words: Vec<u32>, cutting: &Cutting) -> Vec<u32> {
    let runs: Vec<_> = spans(cutting).collect();
    if let Some(&(start, end, _)) = source.any(&runs) {
        let calls = cutting.calls[start..end].iter().map(|&c| c as u32);
        let mut moved = words.clone();
        on_edges(source, &mut moved, &calls.collect::<Vec<_>>());
        words = accepted(moved).unwrap_or(words);
    }
    while source.one_in(2) {
        let verdict = marked(&words, cutting).ok();
        let moved = verdict.and_then(|verdict| at_fault(source, &words, &verdict));
        match moved.and_then(accepted) {
            Some(moved) => words = moved,
            None => break,
        }
    }
    words
}

fn accepted(words: Vec<u32>) -> Option<Vec<u32>> {
    reader::words(&bytes(&words)).ok()
}

/// The mark beside the Rust's plan of an accepted sheet. Only where lateness is paid and there is a break may it be Cheaper.
fn marked(words: &[u32], cutting: &Cutting) -> Result<Verdict, u32> {
    let sheet = Sheet::from_words(words);
    let plan = plan::of(words);
    let said = mark(&sheet, &plan.served, plan.cost as u64, cutting);
    let cheaper = matches!(said, Ok((CHEAPER, _)));
    assert!(
        !cheaper || cuttings::priced(&sheet),
        "the Rust cuts at least cost"
    );
    said
}

fn answer(file: &[u8], cutting: &Cutting) -> String {
    let words = match reader::words(file) {
        Ok(words) => words,
        Err((number, word)) => return format!("refused {number} at {word}\n"),
    };
    answered(marked(&words, cutting))
}

/// A mark as the answer of a record.
pub fn answered(said: Result<Verdict, u32>) -> String {
    match said {
        Ok((number, values)) => {
            let numbers = [&[number.into()], &values[..]].concat();
            format!("verdict {}", line(&numbers))
        }
        Err(number) => format!("refused {number}\n"),
    }
}

/// The lists of a cutting, a line each. The library takes their numbers in bytes.
pub fn lines(cutting: &Cutting) -> String {
    let lists = [&cutting.calls, &cutting.ends, &cutting.places];
    assert!(lists.iter().all(|list| list.iter().all(|&n| n < 256)));
    lists.map(|list| line(list)).concat()
}

/// Numbers with blanks between them.
fn line<T: ToString>(numbers: &[T]) -> String {
    let numbers: Vec<String> = numbers.iter().map(T::to_string).collect();
    numbers.join(" ") + "\n"
}
