//! The plan whose breaks go where the least is paid for lateness, by brute force: every way to cut the calls, and in each run every break place. Written from the requests alone; of the Rust's code nothing is asked but the lookups of numbers.
use crate::marker::{ride, Cutting, Ride};
use crate::sheet::Sheet;

/// A run by its first and last position among the calls held, its break place, and what it comes to.
struct Placed {
    start: usize,
    end: usize,
    place: usize,
    ride: Ride,
}

/// The runs of a plan, what they cost and how far they go, and the positions dropped, from 0, in drop order.
pub struct Plan {
    held: Vec<usize>,
    runs: Vec<Placed>,
    dropped: Vec<usize>,
}

/// That of an accepted sheet. A call is dropped where the calls held up to it have no legal cutting, whatever the break places.
pub fn of(sheet: &Sheet) -> Plan {
    let (mut held, mut dropped) = (Vec::new(), Vec::new());
    let mut runs = Vec::new();
    for (position, &call) in sheet.tour.iter().enumerate() {
        held.push(call);
        match cheapest(sheet, &held) {
            Some(cut) => runs = cut,
            None => {
                held.pop();
                dropped.push(position);
            }
        }
    }
    Plan {
        held,
        runs,
        dropped,
    }
}

/// Of all legal cuttings the cheapest; of those the one whose last run starts first, then the one before it, and so on.
fn cheapest(sheet: &Sheet, calls: &[usize]) -> Option<Vec<Placed>> {
    let inner = calls.len() - 1;
    let cuttings = (0..1_u32 << inner).filter_map(|cuts| cutting(sheet, calls, cuts));
    cuttings.min_by_key(|runs| {
        let cost: u64 = runs.iter().map(|run| run.ride.cost(sheet)).sum();
        let starts = runs.iter().rev().map(|run| run.start);
        (cost, starts.collect::<Vec<_>>())
    })
}

/// The calls with a cut behind number k + 1 wherever bit k is set, if each run has a place.
fn cutting(sheet: &Sheet, calls: &[usize], cuts: u32) -> Option<Vec<Placed>> {
    let inner = (1..calls.len()).filter(|end| cuts >> (end - 1) & 1 == 1);
    let ends: Vec<usize> = inner.chain([calls.len()]).collect();
    let starts = std::iter::once(0).chain(ends.iter().copied());
    let spans = starts.zip(ends.iter().copied());
    spans
        .map(|(start, end)| {
            let (place, ride) = placed(sheet, &calls[start..end])?;
            Some(Placed {
                start,
                end,
                place,
                ride,
            })
        })
        .collect()
}

/// The place with which the run is legal and pays least for lateness; of equals that of the earlier return, then the earlier place, none before all calls.
pub fn placed(sheet: &Sheet, calls: &[usize]) -> Option<(usize, Ride)> {
    let last = sheet.limits.rest.map_or(0, |_| calls.len());
    let legal = (0..=last).filter_map(|place| Some((place, ride(sheet, calls, place).ok()?)));
    legal.min_by_key(|(place, ride)| (ride.pay, ride.home, *place))
}

impl Plan {
    pub fn served(&self) -> &[usize] {
        &self.held
    }

    pub fn cost(&self, sheet: &Sheet) -> u64 {
        self.runs.iter().map(|run| run.ride.cost(sheet)).sum()
    }

    /// The plan as a cutting to be marked.
    pub fn cutting(&self) -> Cutting {
        Cutting {
            calls: self.held.clone(),
            ends: self.runs.iter().map(|run| run.end).collect(),
            places: self.runs.iter().map(|run| run.place).collect(),
        }
    }

    /// As the listing program would print it.
    pub fn listing(&self, sheet: &Sheet) -> String {
        let runs = self.runs.iter().map(|run| {
            let calls = self.held[run.start..run.end].iter();
            let calls: String = calls.map(|call| format!(" {call}")).collect();
            let rest = run.ride.start.map(|s| format!(" rest {} {s}", run.place));
            format!("run{calls}{}\n", rest.unwrap_or_default())
        });
        let dropped = self.dropped.iter();
        let drops = dropped.map(|&position| format!("drop {}\n", sheet.tour[position]));
        let distance: u64 = self.runs.iter().map(|run| run.ride.distance).sum();
        let cost = self.cost(sheet);
        let (served, gone) = (self.held.len(), self.dropped.len());
        let total = format!("total {distance} cost {cost} served {served} dropped {gone}\n");
        runs.chain(drops).chain([total]).collect()
    }
}
