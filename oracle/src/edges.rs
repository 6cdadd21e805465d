//! Sheets on an edge, and damaged ones.
use crate::source::Source;
use crate::word::{bytes, ended, kind, most, most_at, second_capacity, value, word, CLOSED};

/// The kinds of the numbers that a run is held against.
const LIMITS: [u32; 7] = [0, 2, 4, 5, 6, 9, 0xA];

/// Moves one of the sheet's numbers onto an edge of a run of the first of these calls.
pub fn on_edge(source: &mut Source, words: &mut [u32], calls: &[u32]) {
    if let Some(last) = source.index(calls) {
        on_edge_of(source, words, &calls[..=last], &LIMITS);
    }
}

/// Moves one of the sheet's numbers of these kinds to what a run of these calls comes to, or to one below or above that: load, distance, duration, arrival.
fn on_edge_of(source: &mut Source, words: &mut [u32], calls: &[u32], kinds: &[u32]) {
    let run = run(words, calls);
    let edges: Vec<usize> = (0..words.len())
        .filter(|&at| kinds.contains(&kind(words[at])))
        .filter(|&at| kind(words[at]) != 0 || second_capacity(words) == Some(at))
        .collect();
    let Some(&at) = source.any(&edges) else {
        return;
    };
    let number = match kind(words[at]) {
        0 => run.second_load,
        2 => run.load,
        4 => run.distance,
        5 => run.duration,
        _ => run.arrivals[source.below(run.arrivals.len() as u32) as usize],
    };
    words[at] = word(kind(words[at]), source.near(number).min(most(3)));
}

/// Moves a number of each kind, every other one, onto an edge of a run of these calls.
pub fn on_edges(source: &mut Source, words: &mut [u32], calls: &[u32]) {
    for kind in LIMITS {
        if source.one_in(2) {
            on_edge_of(source, words, calls, &[kind]);
        }
    }
}

/// The values of the words of this kind.
pub fn all(words: &[u32], wanted: u32) -> Vec<u32> {
    let these = words.iter().filter(|&&w| kind(w) == wanted);
    these.map(|&w| value(w)).collect()
}

/// A leg table, with 0 in place of a closed leg.
fn opened(words: &[u32], kind: u32) -> Vec<u32> {
    let legs = all(words, kind).into_iter();
    legs.map(|leg| if leg == CLOSED { 0 } else { leg })
        .collect()
}

/// What a run comes to that waits for nobody.
struct Run {
    load: u32,
    second_load: u32,
    distance: u32,
    duration: u32,
    arrivals: Vec<u32>,
}

fn run(words: &[u32], calls: &[u32]) -> Run {
    let [demands, services] = [7, 8].map(|kind| all(words, kind));
    let [legs, times] = [0xC, 0xD].map(|kind| opened(words, kind));
    let second = second_demands(words);
    let times = if times.is_empty() { &legs } else { &times };
    let places = value(words[0]);
    let mut run = Run {
        load: 0,
        second_load: 0,
        distance: 0,
        duration: 0,
        arrivals: Vec::new(),
    };
    let mut at = 0;
    for &customer in calls.iter().chain([&0]) {
        let leg = (at * places + customer) as usize;
        run.distance += legs[leg];
        run.duration += times[leg];
        run.arrivals.push(run.duration);
        if customer > 0 {
            run.load += demands[customer as usize - 1];
            run.second_load += second[customer as usize - 1];
            run.duration += services[customer as usize - 1];
        }
        at = customer;
    }
    run
}

/// The second demand of each customer, 0 where it is not said.
fn second_demands(words: &[u32]) -> Vec<u32> {
    let records = words.windows(2).filter(|pair| kind(pair[0]) == 7);
    let second = |pair: &[u32]| match kind(pair[1]) {
        0 => value(pair[1]),
        _ => 0,
    };
    records.map(second).collect()
}

/// The sheet's bytes with something wrong, or right after all.
pub fn damaged(source: &mut Source, words: &[u32]) -> Vec<u8> {
    let mut words = words.to_vec();
    for _ in 0..1 + source.below(2) {
        if words.is_empty() {
            break;
        }
        let at = place(source, words.len() as u32) as usize;
        match source.below(12) {
            0 => words[at] ^= 1 << source.below(32),
            1 => drop(words.remove(at)),
            2 => words.insert(at, word(source.below(16), source.below(20))),
            3 => words.truncate(at),
            4 => words[at] = word(source.below(16), value(words[at])),
            5 => words[at] = word(kind(words[at]), beyond(source, most_at(&words, at))),
            6 => words.push(word(source.below(16), source.below(3))),
            7 => words = with_more_calls(source, words),
            8 => words = with_a_call_again(source, words),
            9 => damage_second(source, &mut words, at),
            10 => damage_leg(source, &mut words),
            _ => words.swap(at, 0),
        }
    }
    let mut file = bytes(&words);
    if source.one_in(3) {
        file.truncate(file.len().saturating_sub(source.below(5) as usize));
    }
    if source.one_in(4) {
        file.extend((0..source.below(4)).map(|_| 0));
    }
    file
}

/// Says one of the second capacity and demands twice, or gives it a number at an end of its range or one past it; where there is none, puts one in at this index.
fn damage_second(source: &mut Source, words: &mut Vec<u32>, at: usize) {
    let said: Vec<usize> = (0..words.len())
        .filter(|&at| kind(words[at]) == 0)
        .collect();
    match source.any(&said) {
        Some(&at) if source.one_in(3) => words.insert(at, words[at]),
        Some(&at) => words[at] = word(0, beyond(source, most_at(words, at))),
        None => words.insert(at, word(0, source.below(3))),
    }
}

/// Closes or opens a leg in one table alone, or gives it a number between the longest leg's and a closed one's.
fn damage_leg(source: &mut Source, words: &mut [u32]) {
    let legs: Vec<usize> = (0..words.len())
        .filter(|&at| [0xC, 0xD].contains(&kind(words[at])))
        .collect();
    if let Some(&at) = source.any(&legs) {
        let leg = match source.below(6) {
            0 => most(0xC) + 1,
            1 => CLOSED - 1,
            _ if value(words[at]) == CLOSED => source.below(3),
            _ => CLOSED,
        };
        words[at] = word(kind(words[at]), leg);
    }
}

/// An index below `length`: near the beginning, near the end, or anywhere, so that long tables don't take all the damage.
fn place(source: &mut Source, length: u32) -> u32 {
    match source.below(3) {
        0 => source.below(length.min(12)),
        1 => length - 1 - source.below(length.min(6)),
        _ => source.below(length),
    }
}

/// The sheet with its last calls again, up to 127 to 130 calls in all.
fn with_more_calls(source: &mut Source, mut words: Vec<u32>) -> Vec<u32> {
    words.pop();
    let calls = words.iter().filter(|&&w| kind(w) == 0xE).count();
    let last = match words.last() {
        Some(&last) if kind(last) == 0xE => last,
        _ => word(0xE, 1),
    };
    let wanted = 127 + source.below(4) as usize;
    words.extend((calls..wanted).map(|_| last));
    ended(words)
}

/// The sheet with one of its calls a second time, anywhere behind the first of them; now and then with another one, too.
fn with_a_call_again(source: &mut Source, mut words: Vec<u32>) -> Vec<u32> {
    words.pop();
    for _ in 0..1 + source.below(2) {
        let calls: Vec<usize> = (0..words.len())
            .filter(|&at| kind(words[at]) == 0xE)
            .collect();
        if let Some(&at) = source.any(&calls) {
            let behind = source.below((words.len() - at) as u32) as usize;
            words.insert(at + 1 + behind, words[at]);
        }
    }
    ended(words)
}

/// A number at an end of a range up to `most`, or one past it.
fn beyond(source: &mut Source, most: u32) -> u32 {
    if source.one_in(2) {
        source.below(2)
    } else {
        most + source.below(2)
    }
}
