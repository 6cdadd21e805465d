//! Plans with the least lateness pay wherever the break goes, and marks beside them, as records: those of the brute force in placing.rs.
use crate::features::Features;
use crate::marker::{mark, spans, Cutting, CHEAPER};
use crate::marks::{answered, lines};
use crate::record::Out;
use crate::sheet::Sheet;
use crate::source::Source;
use crate::word::bytes;
use crate::{cases, cuttings, listing, placing, random, ruled};

/// A question of this kind is a sheet, and its answer the listing of the plan with the least lateness pay ..
const PLAN: u8 = b'l';

/// .. and of this kind a cutting, marked beside that plan.
const MARK: u8 = b'p';

/// More calls have too many cuttings.
const MOST: usize = 9;

/// Each bench case and `count` generated sheets with up to nine calls, each with a plan, and with a mark of a cutting; what they have, to standard error.
pub fn write(out: &mut Out, seed: u64, count: usize) {
    let mut source = Source::new(seed);
    let mut features = Features::default();
    let cases = cases::sheets().into_iter();
    let mut sheets: Vec<Vec<u32>> = cases.filter(|words| few(words)).collect();
    sheets.extend((0..count).map(|number| drawn(&mut source, number)));
    for words in sheets {
        let sheet = Sheet::from_words(&words);
        let plan = placing::of(&sheet);
        let (text, clock) = (plan.listing(&sheet), listing::of(&words));
        assert_eq!(
            drops(&text),
            drops(&clock),
            "the clock drops the same calls"
        );
        out.put(PLAN, &bytes(&words), &text);
        let cutting = to_mark(&mut source, &words, &sheet, &plan);
        let said = mark(&sheet, plan.served(), plan.cost(&sheet), &cutting);
        assert!(
            !matches!(said, Ok((CHEAPER, _))),
            "no legal cutting is cheaper"
        );
        let answer = answered(said);
        features.least(&words, &text, &clock, &answer);
        let question = [lines(&cutting).as_bytes(), &bytes(&words)].concat();
        out.put(MARK, &question, &answer);
    }
    eprintln!("{features}");
}

/// A sheet with up to nine calls: every other one with narrow windows and a break, as in bench case q, and of these every other one such that the clock plans it otherwise.
fn drawn(source: &mut Source, number: usize) -> Vec<u32> {
    loop {
        let words = match number % 8 {
            0 => random::small(source),
            1 => random::medium(source),
            2..4 => random::ruled(source),
            _ => ruled::narrow(source),
        };
        if few(&words) && (number % 8 < 6 || parted(&words)) {
            return words;
        }
    }
}

fn few(words: &[u32]) -> bool {
    Sheet::from_words(words).tour.len() <= MOST
}

/// The lines of a listing that name dropped calls.
fn drops(text: &str) -> Vec<&str> {
    let lines = text.lines();
    lines.filter(|line| line.starts_with("drop ")).collect()
}

/// Whether the two placements plan the sheet otherwise.
fn parted(words: &[u32]) -> bool {
    let sheet = Sheet::from_words(words);
    placing::of(&sheet).listing(&sheet) != listing::of(words)
}

/// One in four is the plan itself, one the clock's plan with a change or two; the others have a break of the plan moved to any place of its run.
fn to_mark(source: &mut Source, words: &[u32], sheet: &Sheet, plan: &placing::Plan) -> Cutting {
    let mut cutting = plan.cutting();
    match source.below(4) {
        0 => (),
        1 => cutting = cuttings::drawn(source, words),
        _ => {
            let runs: Vec<_> = spans(&cutting).enumerate().collect();
            let rest = sheet.limits.rest.is_some();
            if let (Some(&(run, (start, end, _))), true) = (source.any(&runs), rest) {
                cutting.places[run] = source.below((end - start) as u32 + 1) as usize;
            }
        }
    }
    cutting
}
