//! A sheet in the making: what its recipe has drawn.
use crate::recipe::{Order, Recipe, Shut, Windows};
use crate::source::Source;
use crate::word::{bytes, ended, word};

/// Longer than any other run: a leg to or from the depot that rules a customer out, and the limit that does so.
pub const FAR: u32 = 100_000;
const DAY: u32 = 1_000;
const MOST_PENALTY: u32 = 3;

pub struct Customer {
    pub demand: u32,
    pub service: u32,
    pub window: Option<(u32, u32)>,
    pub penalty: Option<u32>,
}

pub struct Draft {
    pub recipe: Recipe,
    /// Place 1 comes first.
    pub customers: Vec<Customer>,
    pub distances: Vec<u32>,
    pub tour: Vec<u32>,
}

impl Draft {
    pub fn new(recipe: Recipe) -> Draft {
        let mut source = Source::new(recipe.seed);
        let places = recipe.places;
        let mut draft = Draft {
            recipe,
            customers: (1..places)
                .map(|_| customer(&mut source, &recipe))
                .collect(),
            distances: recipe.legs.draw(&mut source, places),
            tour: Vec::new(),
        };
        draft.tour = draft.tour(&mut source);
        for place in 1..places {
            match recipe.shut {
                Some((by, every)) if place % every == 0 => draft.shut(by, place),
                _ => {}
            }
        }
        draft
    }

    /// From place a to place b, in the table of distances.
    pub fn leg(&self, a: u32, b: u32) -> usize {
        (a * self.recipe.places + b) as usize
    }

    fn tour(&self, source: &mut Source) -> Vec<u32> {
        let customers = self.recipe.places - 1;
        let calls = self.recipe.calls.min(customers);
        match self.recipe.order {
            Order::AtRandom => {
                let indexes = source.some(customers, calls);
                indexes.iter().map(|&index| 1 + index).collect()
            }
            Order::InTurn => (1..=calls).collect(),
            Order::Nearest => {
                let (mut here, mut left) = (0, (1..=customers).collect());
                let next = |_| self.nearest(&mut here, &mut left);
                (0..calls).map(next).collect()
            }
        }
    }

    /// Goes on to the nearest place that is left.
    fn nearest(&self, here: &mut u32, left: &mut Vec<u32>) -> u32 {
        let far = |place: u32| self.distances[self.leg(*here, place)];
        let at = (0..left.len()).min_by_key(|&k| far(left[k]));
        *here = left.swap_remove(at.expect("a place"));
        *here
    }

    fn shut(&mut self, by: Shut, place: u32) {
        let (out, home) = (self.leg(0, place), self.leg(place, 0));
        let customer = &mut self.customers[place as usize - 1];
        match by {
            Shut::Weight => customer.demand = self.recipe.capacity + 1,
            Shut::Window => (customer.window, customer.penalty) = (Some((0, 0)), None),
            Shut::Distance => {
                self.distances[out] += FAR;
                self.distances[home] += FAR;
            }
        }
    }

    /// The bytes of the sheet, with these limits of distance and duration.
    pub fn sheet(&self, distance: Option<u32>, duration: Option<u32>) -> Vec<u8> {
        let recipe = &self.recipe;
        let head = [(1, recipe.places), (2, recipe.capacity), (3, recipe.fixed)];
        let mut words: Vec<u32> = head.map(|(kind, value)| word(kind, value)).to_vec();
        words.extend(distance.map(|limit| word(4, limit)));
        words.extend(duration.map(|limit| word(5, limit)));
        words.extend(recipe.rest.iter().flatten().map(|&time| word(6, time)));
        for customer in &self.customers {
            words.extend([word(7, customer.demand), word(8, customer.service)]);
            let window = customer
                .window
                .map(|(ready, due)| [word(9, ready), word(0xA, due)]);
            words.extend(window.into_iter().flatten());
            words.extend(customer.penalty.map(|penalty| word(0xB, penalty)));
        }
        words.extend(self.distances.iter().map(|&leg| word(0xC, leg)));
        if recipe.times {
            words.extend(self.distances.iter().map(|&leg| word(0xD, 2 * leg)));
        }
        words.extend(self.tour.iter().map(|&call| word(0xE, call)));
        bytes(&ended(words))
    }
}

fn customer(source: &mut Source, recipe: &Recipe) -> Customer {
    let mut up_to = |most: u32| most.min(1) + source.below(most.max(1));
    let (demand, service) = (up_to(recipe.demand), up_to(recipe.service));
    let window = match recipe.windows {
        Windows::Long(least) => {
            let ready = source.below(DAY);
            Some((ready, ready + least + source.below(least)))
        }
        _ => None,
    };
    let pays = recipe.penalties > 0 && source.one_in(recipe.penalties);
    Customer {
        demand,
        service,
        window,
        penalty: pays.then(|| 1 + source.below(MOST_PENALTY)),
    }
}
