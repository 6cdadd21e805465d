//! Sheets by what they hold, and their words.
use super::ended;

/// A customer's words.
#[derive(Clone, Default)]
pub struct Customer {
    pub demand: u32,
    /// The second demand.
    pub wheelchairs: Option<u32>,
    pub service: u32,
    /// Ready and due.
    pub window: Option<[u32; 2]>,
    pub penalty: Option<u32>,
}

/// A sheet without its calls.
#[derive(Clone, Default)]
pub struct Sheet {
    pub capacity: u32,
    /// The second capacity.
    pub wheelchairs: Option<u32>,
    pub fixed: u32,
    pub distance_limit: Option<u32>,
    pub duration_limit: Option<u32>,
    /// Earliest, latest and duration.
    pub rest: Option<[u32; 3]>,
    /// Those of the places from 1 on.
    pub customers: Vec<Customer>,
    /// By rows.
    pub distances: Vec<u32>,
    /// By rows, or none.
    pub times: Vec<u32>,
}

/// Words of one kind.
fn of(kind: u32, values: &[u32]) -> Vec<u32> {
    values.iter().map(|value| kind << 28 | value).collect()
}

impl Customer {
    fn words(&self) -> Vec<u32> {
        let window = self
            .window
            .map(|[ready, due]| [0x9000_0000 | ready, 0xA000_0000 | due]);
        [
            of(7, &[self.demand]),
            of(0, self.wheelchairs.as_slice()),
            of(8, &[self.service]),
            window.as_slice().concat(),
            of(0xB, self.penalty.as_slice()),
        ]
        .concat()
    }
}

impl Sheet {
    /// The bytes that the library reads, with these calls.
    pub fn with(&self, calls: &[u8]) -> Vec<u8> {
        let words = [
            of(1, &[self.customers.len() as u32 + 1]),
            of(2, &[self.capacity]),
            of(0, self.wheelchairs.as_slice()),
            of(3, &[self.fixed]),
            of(4, self.distance_limit.as_slice()),
            of(5, self.duration_limit.as_slice()),
            of(6, &self.rest.as_slice().concat()),
            self.customers.iter().flat_map(Customer::words).collect(),
            of(0xC, &self.distances),
            of(0xD, &self.times),
        ];
        ended(words.concat(), calls)
    }
}
