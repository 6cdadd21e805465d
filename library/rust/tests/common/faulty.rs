//! Sheets that are refused: their bytes, the refusal's number, and the index of the bad word.
use super::sheets::Sheet;
use super::worked::{base, with_closed, with_window};
use super::{bytes, sample, words};
use lizsomdur::NO_ROAD;

pub type Faulty = (Vec<u8>, u32, usize);

/// Sample m with one word changed. Where it has several faults, they count in the order 11, 1, 21, 2, 22, 3.
fn changed() -> Vec<Faulty> {
    let table = [
        (0, 0x1000_0000, 1),
        (0, 0x1000_0041, 1),
        (0, 0x0000_0001, 11),
        (1, 0x200F_4241, 1),
        (1, 0x0000_0004, 11),
        (2, 0x000F_4241, 1),
        (2, 0x3098_9681, 1),
        (4, 0x6000_0013, 2),
        (3, 0x0000_0000, 11),
        (6, 0xCFFF_FFFF, 11),
        (6, 0xF000_0000, 11),
        (6, 0x7000_8000, 1),
        (7, 0x0000_8000, 1),
        (8, 0x0000_0001, 11),
        (9, 0x9000_0000, 11),
        (11, 0xC098_9681, 1),
        (11, 0xCFFF_FFFE, 1),
        (2, 0x3FFF_FFFF, 1),
        (7, 0x8FFF_FFFF, 1),
        (20, 0xE000_0003, 1),
        (20, 0xE000_0001, 21),
        (20, 0x0000_0001, 11),
        (21, 0xF000_0014, 3),
    ];
    table
        .into_iter()
        .map(|(index, word, number)| {
            let mut words = words(&sample("m"));
            words[index] = word;
            (bytes(&words), number, index)
        })
        .collect()
}

/// Wheelchair places said twice, in the head and of a customer: the second of the words is bad.
fn said_twice() -> Vec<Faulty> {
    let table = [(2, 3), (7, 8)];
    table
        .into_iter()
        .map(|(index, bad)| {
            let mut words = words(&sample("m"));
            words.splice(index..index, [1, 1]);
            (bytes(&words), 11, bad)
        })
        .collect()
}

/// The base with times, and a leg that has a road by one table alone, or a wrong time: the word of the time is bad. Distances and times begin at words 7 and 16.
fn closed_apart() -> Vec<Faulty> {
    let timed = Sheet {
        times: vec![1; 9],
        ..base()
    };
    let closed = with_closed(timed.clone(), &[(1, 2), (2, 2)]);
    let table = [
        (&timed, 7 + 5, NO_ROAD, 22, 16 + 5),
        (&timed, 16 + 5, NO_ROAD, 22, 16 + 5),
        (&timed, 16, NO_ROAD, 22, 16),
        (&closed, 7 + 5, 1, 22, 16 + 5),
        (&closed, 16 + 8, 1, 22, 16 + 8),
        (&closed, 16 + 5, NO_ROAD - 1, 1, 16 + 5),
    ];
    table
        .into_iter()
        .map(|(sheet, index, value, number, bad)| {
            let mut words = words(&sheet.with(&[1, 1]));
            words[index] = words[index] & 0xF000_0000 | value;
            (bytes(&words), number, bad)
        })
        .collect()
}

/// Sample m ended too early or too late, with one to three bytes left over or without.
fn cut_short_or_continued() -> Vec<Faulty> {
    let sheet = sample("m");
    let before_end = sheet.len() - 4;
    let short = (0..4).map(|more| (sheet[..before_end + more].to_vec(), 12, 21));
    let long = (1..=4).map(|more| ([&sheet[..], &[0xF0; 4][..more]].concat(), 3, 22));
    let none = (0..4).map(|more| (sheet[..more].to_vec(), 12, 0));
    short.chain(long).chain(none).collect()
}

pub fn faulty() -> Vec<Faulty> {
    let late_window = with_window(base(), [10, 9], None).with(&[]);
    let first_of_two = with_window(base(), [10, 9], None).with(&[9]);
    let others = vec![
        (late_window, 2, 6),
        (first_of_two, 2, 6),
        (base().with(&[1, 2, 2, 1]), 21, 16 + 2),
        (base().with(&[1; 129]), 21, 16 + 1),
    ];
    let kinds = [changed(), said_twice(), closed_apart()];
    [&kinds.concat()[..], &cut_short_or_continued(), &others].concat()
}
