//! Sheets, written from what they say.
use crate::NO_ROAD;

/// A customer of a [`Sheet`].
#[derive(Clone, Debug, Default, PartialEq, Eq)]
pub struct Customer {
    seats: u32,
    wheelchairs: Option<u32>,
    service: u32,
    window: Option<[u32; 2]>,
    penalty: Option<u32>,
}

impl Customer {
    /// A customer who asks for so many seats (to 32,767), whose service takes no time, at any time.
    pub fn new(seats: u32) -> Customer {
        Customer {
            seats,
            ..Customer::default()
        }
    }

    /// The wheelchair places that the customer asks for (to 32,767).
    pub fn wheelchairs(mut self, places: u32) -> Customer {
        self.wheelchairs = Some(places);
        self
    }

    /// How long the service takes.
    pub fn service(mut self, time: u32) -> Customer {
        self.service = time;
        self
    }

    /// Service does not begin before ready, and after due it is late.
    pub fn window(mut self, ready: u32, due: u32) -> Customer {
        self.window = Some([ready, due]);
        self
    }

    /// What each unit of lateness costs (to 1,000). Without it the customer is not served late.
    pub fn penalty(mut self, penalty: u32) -> Customer {
        self.penalty = Some(penalty);
        self
    }

    fn write(&self, words: &mut Vec<u32>) {
        put(words, 0x7, [self.seats]);
        put(words, 0x0, self.wheelchairs);
        put(words, 0x8, [self.service]);
        if let Some([ready, due]) = self.window {
            put(words, 0x9, [ready]);
            put(words, 0xA, [due]);
        }
        put(words, 0xB, self.penalty);
    }
}

/// A sheet by what it says, which writes the words for it.
///
/// Numbers are to 10,000,000 where nothing else is said. What it is told is not tested: where that makes no sheet (a number out of range, a table with
/// too few legs, a customer called twice), the functions of this package refuse the bytes by number and word, and never take them for another sheet.
///
/// ```
/// use lizsomdur::{plan, Customer, Sheet};
///
/// // Two customers, 10 and 12 from the depot; there is no road from the first to the second.
/// let sheet = Sheet::new()
///     .capacity(4)
///     .customer(Customer::new(2))
///     .customer(Customer::new(1).wheelchairs(1).service(5).window(20, 30).penalty(3))
///     .wheelchair_places(1)
///     .distances([
///         [Some(0), Some(10), Some(12)],
///         [Some(10), Some(0), None],
///         [Some(12), Some(5), Some(0)],
///     ].concat())
///     .tour([1, 2]);
/// assert_eq!(plan(&sheet.bytes())?.runs.len(), 2);
/// # Ok::<(), lizsomdur::Refusal>(())
/// ```
#[derive(Clone, Debug, Default, PartialEq, Eq)]
pub struct Sheet {
    capacity: u32,
    wheelchair_places: Option<u32>,
    fixed_cost: u32,
    distance_limit: Option<u32>,
    duration_limit: Option<u32>,
    rest: Option<[u32; 3]>,
    customers: Vec<Customer>,
    distances: Vec<Option<u32>>,
    times: Vec<Option<u32>>,
    tour: Vec<u8>,
}

impl Sheet {
    /// A sheet that says nothing yet: no seats, no customers, no legs, no calls.
    pub fn new() -> Sheet {
        Sheet::default()
    }

    /// The seats of a vehicle (to 1,000,000).
    pub fn capacity(mut self, seats: u32) -> Sheet {
        self.capacity = seats;
        self
    }

    /// The wheelchair places of a vehicle (to 1,000,000).
    pub fn wheelchair_places(mut self, places: u32) -> Sheet {
        self.wheelchair_places = Some(places);
        self
    }

    /// What every run costs beside its distance and its lateness.
    pub fn fixed_cost(mut self, cost: u32) -> Sheet {
        self.fixed_cost = cost;
        self
    }

    /// The most distance of a run.
    pub fn distance_limit(mut self, limit: u32) -> Sheet {
        self.distance_limit = Some(limit);
        self
    }

    /// The latest that a run is home.
    pub fn duration_limit(mut self, limit: u32) -> Sheet {
        self.duration_limit = Some(limit);
        self
    }

    /// The driver's break: its earliest and its latest start, and how long it is.
    pub fn rest(mut self, earliest: u32, latest: u32, duration: u32) -> Sheet {
        self.rest = Some([earliest, latest, duration]);
        self
    }

    /// One more customer, at the next place: the first is at place 1, for 0 is the depot.
    pub fn customer(mut self, customer: Customer) -> Sheet {
        self.customers.push(customer);
        self
    }

    /// How many places there are: the depot and those of the customers (at most 64 on a sheet).
    pub fn places(&self) -> usize {
        self.customers.len() + 1
    }

    /// The distances by rows: first those from the depot to each place, then those from place 1, and so on. `None` is a leg without a road.
    pub fn distances<Leg: Into<Option<u32>>>(
        mut self,
        legs: impl IntoIterator<Item = Leg>,
    ) -> Sheet {
        self.distances = legs.into_iter().map(Into::into).collect();
        self
    }

    /// The times in the same order, with `None` for the same legs. Without them a time is the distance.
    pub fn times<Leg: Into<Option<u32>>>(mut self, legs: impl IntoIterator<Item = Leg>) -> Sheet {
        self.times = legs.into_iter().map(Into::into).collect();
        self
    }

    /// The calls: the customers to serve, in order, none of them twice.
    pub fn tour(mut self, customers: impl IntoIterator<Item = u8>) -> Sheet {
        self.tour = customers.into_iter().collect();
        self
    }

    /// The bytes that the functions of this package take.
    pub fn bytes(&self) -> Vec<u8> {
        self.words()
            .into_iter()
            .flat_map(u32::to_le_bytes)
            .collect()
    }

    fn words(&self) -> Vec<u32> {
        let mut words = Vec::new();
        put(&mut words, 0x1, [counted(self.places())]);
        put(&mut words, 0x2, [self.capacity]);
        put(&mut words, 0x0, self.wheelchair_places);
        put(&mut words, 0x3, [self.fixed_cost]);
        put(&mut words, 0x4, self.distance_limit);
        put(&mut words, 0x5, self.duration_limit);
        put(&mut words, 0x6, self.rest.into_iter().flatten());
        for customer in &self.customers {
            customer.write(&mut words);
        }
        put_legs(&mut words, 0xC, &self.distances);
        put_legs(&mut words, 0xD, &self.times);
        put(&mut words, 0xE, self.tour.iter().map(|&call| call.into()));
        let before = counted(words.len());
        put(&mut words, 0xF, [before]);
        words
    }
}

/// The largest value of a word that is not `NO_ROAD`. It is in no range, so that it can stand for every number that a word does not hold.
const BEYOND: u32 = NO_ROAD - 1;

fn counted(count: usize) -> u32 {
    u32::try_from(count).unwrap_or(BEYOND)
}

/// Adds words of one kind.
fn put(words: &mut Vec<u32>, kind: u32, values: impl IntoIterator<Item = u32>) {
    let values = values.into_iter().map(|value| value.min(BEYOND));
    words.extend(values.map(|value| kind << 28 | value));
}

/// Adds the words of a leg table.
fn put_legs(words: &mut Vec<u32>, kind: u32, legs: &[Option<u32>]) {
    let values = legs
        .iter()
        .map(|leg| leg.map_or(NO_ROAD, |length| length.min(BEYOND)));
    words.extend(values.map(|value| kind << 28 | value));
}
