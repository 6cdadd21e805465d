//! Distances of all pairs of places, by rows, in each of the forms that a recipe names.
use crate::recipe::Legs;
use crate::source::Source;

/// The side of the square, and the step of the line.
const SIDE: u32 = 100;
const STEP: u32 = 10;
const EVEN: u32 = 1_000;

impl Legs {
    pub fn draw(self, source: &mut Source, places: u32) -> Vec<u32> {
        match self {
            Legs::Streets => streets(source, places),
            Legs::OneWay(more) => {
                let legs = streets(source, places);
                legs.iter().map(|leg| leg + source.below(more)).collect()
            }
            Legs::Even(more) => (0..places * places)
                .map(|_| EVEN + source.below(more))
                .collect(),
            Legs::Line => pairs(places, |a, b| match (a, b) {
                (0, 0) => 0,
                (0, _) | (_, 0) => STEP * places,
                _ => STEP * a.abs_diff(b),
            }),
        }
    }
}

fn pairs(places: u32, leg: impl Fn(u32, u32) -> u32) -> Vec<u32> {
    let leg = &leg;
    (0..places)
        .flat_map(|a| (0..places).map(move |b| leg(a, b)))
        .collect()
}

fn streets(source: &mut Source, places: u32) -> Vec<u32> {
    let at: Vec<(u32, u32)> = (0..places)
        .map(|_| (source.below(SIDE), source.below(SIDE)))
        .collect();
    pairs(places, |a, b| {
        let (a, b) = (at[a as usize], at[b as usize]);
        a.0.abs_diff(b.0) + a.1.abs_diff(b.1)
    })
}
