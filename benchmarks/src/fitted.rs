//! Windows and limits that are made for a draft's own runs.
use crate::draft::{Draft, FAR};
use crate::recipe::{Limit, Recipe, Shut, Windows};

/// Distance and duration of a run.
#[derive(Clone, Copy)]
struct Length {
    distance: u32,
    duration: u32,
}

/// The bytes of the recipe's sheet.
pub fn sheet(recipe: Recipe) -> Vec<u8> {
    let mut draft = Draft::new(recipe);
    match recipe.windows {
        Windows::UntilCalled => draft.open_until_called(),
        Windows::NotLast => draft.open_until_last(),
        Windows::None | Windows::Long(_) => {}
    }
    let distance = match recipe.shut {
        Some((Shut::Distance, _)) => Some(FAR),
        _ => draft.limit(recipe.distance, |run| run.distance),
    };
    let duration = draft.limit(recipe.duration, |run| run.duration);
    draft.sheet(distance, duration)
}

impl Draft {
    fn runs(&self) -> std::slice::Chunks<'_, u32> {
        self.tour.chunks(self.recipe.run as usize)
    }

    /// Goes along a run, without a break and whether it is late or not; says when it calls where.
    fn walk(&self, run: impl Iterator<Item = u32>, mut called: impl FnMut(u32, u32)) -> Length {
        let slow = if self.recipe.times { 2 } else { 1 };
        let (mut distance, mut time, mut here) = (0, 0, 0);
        for place in run {
            let leg = self.distances[self.leg(here, place)];
            distance += leg;
            time += slow * leg;
            called(place, time);
            let customer = &self.customers[place as usize - 1];
            time = time.max(customer.window.map_or(0, |(ready, _)| ready)) + customer.service;
            here = place;
        }
        let home = self.distances[self.leg(here, 0)];
        Length {
            distance: distance + home,
            duration: time + slow * home,
        }
    }

    fn open_until_called(&mut self) {
        let mut due = vec![0; self.recipe.places as usize];
        for run in self.runs() {
            self.walk(run.iter().copied(), |place, time| {
                due[place as usize] = time.max(due[place as usize]);
            });
        }
        for (customer, &due) in self.customers.iter_mut().zip(&due[1..]) {
            customer.window = customer.window.or(Some((0, due)));
        }
    }

    fn open_until_last(&mut self) {
        let (first, others) = self
            .tour
            .split_at(self.tour.len().min(self.recipe.run as usize));
        let mut due = Vec::new();
        for &call in others.iter().filter(|call| !first.contains(call)) {
            let mut last = 0;
            let run = first.iter().copied().chain([call]);
            self.walk(run, |_, time| last = time);
            due.push((call, last.saturating_sub(1)));
        }
        for (call, due) in due {
            self.customers[call as usize - 1].window = Some((0, due));
        }
    }

    fn limit(&self, limit: Limit, of: impl Fn(Length) -> u32) -> Option<u32> {
        match limit {
            Limit::None => None,
            Limit::At(most) => Some(most),
            Limit::OfRuns => self
                .runs()
                .map(|run| of(self.walk(run.iter().copied(), |_, _| ())))
                .max(),
            Limit::BelowReversals => self.reversals().map(|run| of(run).saturating_sub(1)).min(),
        }
    }

    /// The tour as one run, with each stretch of it reversed.
    fn reversals(&self) -> impl Iterator<Item = Length> + '_ {
        let tour = &self.tour;
        let ends = (0..tour.len()).flat_map(|i| (i + 2..=tour.len()).map(move |j| (i, j)));
        ends.map(move |(i, j)| {
            let turned = tour[i..j].iter().rev();
            let run = tour[..i].iter().chain(turned).chain(&tour[j..]);
            self.walk(run.copied(), |_, _| ())
        })
    }
}
