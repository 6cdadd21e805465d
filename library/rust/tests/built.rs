//! Sheets that the package writes, beside the same ones written by the tests' own hand.
mod common;
use common::worked::{
    base, marked, of_closed, with_break, with_capacity, with_distance_limit, with_window,
};
use common::{records, sample, text, words};
use lizsomdur::{plan, Customer, Refusal, Sheet, NO_ROAD};

/// What a sheet says, word by word, told to a new one.
#[derive(Default)]
struct Reread {
    sheet: Sheet,
    customers: Vec<Customer>,
    rest: Vec<u32>,
    ready: u32,
    distances: Vec<Option<u32>>,
    times: Vec<Option<u32>>,
    tour: Vec<u8>,
}

impl Reread {
    fn head(&mut self, change: impl FnOnce(Sheet) -> Sheet) {
        self.sheet = change(std::mem::take(&mut self.sheet));
    }

    fn customer(&mut self, change: impl FnOnce(Customer) -> Customer) {
        let customer = self.customers.pop().expect("a customer");
        self.customers.push(change(customer));
    }

    fn word(&mut self, kind: u32, value: u32) {
        let leg = (value != NO_ROAD).then_some(value);
        match kind {
            0x2 => self.head(|sheet| sheet.capacity(value)),
            0x0 if self.customers.is_empty() => self.head(|sheet| sheet.wheelchair_places(value)),
            0x0 => self.customer(|customer| customer.wheelchairs(value)),
            0x3 => self.head(|sheet| sheet.fixed_cost(value)),
            0x4 => self.head(|sheet| sheet.distance_limit(value)),
            0x5 => self.head(|sheet| sheet.duration_limit(value)),
            0x6 => self.rest.push(value),
            0x7 => self.customers.push(Customer::new(value)),
            0x8 => self.customer(|customer| customer.service(value)),
            0x9 => self.ready = value,
            0xA => {
                let ready = self.ready;
                self.customer(|customer| customer.window(ready, value));
            }
            0xB => self.customer(|customer| customer.penalty(value)),
            0xC => self.distances.push(leg),
            0xD => self.times.push(leg),
            0xE => self.tour.push(value as u8),
            _ => assert!(kind == 0x1 || kind == 0xF),
        }
    }

    fn finish(self) -> Sheet {
        let mut sheet = self.sheet;
        if let [earliest, latest, duration] = self.rest[..] {
            sheet = sheet.rest(earliest, latest, duration);
        }
        for customer in self.customers {
            sheet = sheet.customer(customer);
        }
        let sheet = sheet.distances(self.distances).times(self.times);
        sheet.tour(self.tour)
    }
}

/// Asserts that a sheet that says the same has the same bytes.
fn written_again(name: &str, sheet: &[u8]) {
    let mut reread = Reread::default();
    for word in words(sheet) {
        reread.word(word >> 28, word & NO_ROAD);
    }
    let built = reread.finish();
    assert!(built.bytes() == sheet, "{name}: {built:?}");
    assert_eq!(built.places() as u32, words(sheet)[0] & NO_ROAD, "{name}");
}

#[test]
fn samples_and_worked_sheets_are_written_again() {
    for name in [
        "m",
        "drops",
        "refused",
        "repeat",
        "wheelchairs",
        "ford",
        "full",
    ] {
        written_again(name, &sample(name));
    }
    let closed = of_closed().into_iter().map(|(cut, _)| cut);
    for cut in marked().into_iter().chain(closed) {
        written_again(cut.name, &cut.sheet);
    }
}

#[test]
fn recorded_sheets_are_written_again() {
    let records = [records(b's'), records(b'l')].concat();
    let accepted = records.iter().filter(|(sheet, _)| plan(sheet).is_ok());
    let accepted = accepted.map(|(sheet, answer)| written_again(answer, sheet));
    assert!(accepted.count() > 700);
}

/// The base of the bench cases, with other customers or another leg from 1 to 0 and from 1 to 2.
fn two(first: Customer, home: u32, between: u32) -> Sheet {
    Sheet::new()
        .capacity(4)
        .customer(first)
        .customer(Customer::new(2))
        .distances([0, 10, 12, home, 0, between, 12, between, 0])
        .tour([1, 2])
}

fn plain() -> Sheet {
    two(Customer::new(2), 10, 5)
}

/// The bench cases of the scope document, each with the tests' own sheet where it is not the base with another leg.
fn cases() -> Vec<(&'static str, Sheet, Vec<u8>)> {
    let first = || Customer::new(2);
    let [mut equal, mut far_home] = [base(), with_distance_limit(27)];
    (equal.distances[5], equal.distances[7]) = (22, 22);
    far_home.distances[3] = 30;
    let due = |due, penalty| with_window(base(), [0, due], penalty).with(&[1, 2]);
    let limit = |limit| with_distance_limit(limit).with(&[1, 2]);
    let at_price = with_window(with_break(0, 30), [12, 13], Some(5));
    let broken = |earliest, latest, tour: &[u8]| with_break(earliest, latest).with(tour);
    vec![
        ("a", plain(), base().with(&[1, 2])),
        ("b", plain().capacity(3), with_capacity(3).with(&[1, 2])),
        ("c", plain().capacity(1), with_capacity(1).with(&[1, 2])),
        ("d", plain().tour([]), base().with(&[])),
        ("e", two(first(), 10, 22), equal.with(&[1, 2])),
        ("f", two(first().window(0, 10), 10, 5), due(10, None)),
        ("g", two(first().window(0, 9), 10, 5), due(9, None)),
        (
            "h",
            two(first().window(0, 9).penalty(3), 10, 5),
            due(9, Some(3)),
        ),
        ("i", plain().distance_limit(27), limit(27)),
        ("j", plain().distance_limit(26), limit(26)),
        ("k", plain().distance_limit(23), limit(23)),
        (
            "l",
            two(first(), 30, 5).distance_limit(27),
            far_home.with(&[1, 2]),
        ),
        ("m", plain().rest(20, 30, 4), broken(20, 30, &[1, 2])),
        ("n", plain().rest(20, 30, 4).tour([1]), broken(20, 30, &[1])),
        ("o", plain().rest(5, 9, 4), broken(5, 9, &[1, 2])),
        ("p", plain().rest(5, 10, 4), broken(5, 10, &[1, 2])),
        (
            "q",
            two(first().window(12, 13).penalty(5), 10, 5).rest(0, 30, 4),
            at_price.with(&[1, 2]),
        ),
    ]
}

/// The proved program crates/test_cases says what each costs.
#[test]
fn bench_cases_are_written_and_planned() {
    let proved = text("crates/test_cases/stdout");
    for (name, built, sheet) in cases() {
        assert_eq!(built.bytes(), sheet, "case {name}");
        let plan = plan(&sheet).expect("an accepted sheet");
        let costs = format!("cost {} distance {}", plan.cost, plan.distance);
        let said = |line: &str| line.starts_with(&format!("{name}: ")) && line.ends_with(&costs);
        assert!(proved.lines().any(said), "case {name}: {costs}");
    }
}

/// Each number beyond its range, also where it leaves no bit for the kind of the word or would be a closed leg, and each list with too few or too many.
#[test]
fn what_is_no_sheet_is_refused() {
    let many = (0..64).fold(plain(), |sheet, _| sheet.customer(Customer::new(0)));
    let legs = |count| vec![1u32; count];
    let table = [
        (many, Refusal::OUT_OF_RANGE, 0),
        (plain().capacity(u32::MAX), Refusal::OUT_OF_RANGE, 1),
        (plain().wheelchair_places(1 << 28), Refusal::OUT_OF_RANGE, 2),
        (plain().fixed_cost(0x1000_0004), Refusal::OUT_OF_RANGE, 2),
        (plain().distance_limit(NO_ROAD), Refusal::OUT_OF_RANGE, 3),
        (plain().duration_limit(u32::MAX), Refusal::OUT_OF_RANGE, 3),
        (plain().rest(0, u32::MAX, 0), Refusal::OUT_OF_RANGE, 4),
        (plain().rest(9, 8, 0), Refusal::OUT_OF_ORDER, 4),
        (two(Customer::new(32_768), 1, 1), Refusal::OUT_OF_RANGE, 3),
        (
            two(Customer::new(0).wheelchairs(1 << 28), 1, 1),
            Refusal::OUT_OF_RANGE,
            4,
        ),
        (
            two(Customer::new(0).service(u32::MAX), 1, 1),
            Refusal::OUT_OF_RANGE,
            4,
        ),
        (
            two(Customer::new(0).window(9, 8), 1, 1),
            Refusal::OUT_OF_ORDER,
            6,
        ),
        (
            two(Customer::new(0).penalty(1_001), 1, 1),
            Refusal::OUT_OF_RANGE,
            5,
        ),
        (two(Customer::new(0), NO_ROAD, 1), Refusal::OUT_OF_RANGE, 10),
        (
            two(Customer::new(0), u32::MAX, 1),
            Refusal::OUT_OF_RANGE,
            10,
        ),
        (plain().distances(legs(0)), Refusal::WRONG_KIND, 7),
        (plain().distances(legs(8)), Refusal::WRONG_KIND, 15),
        (plain().distances(legs(10)), Refusal::WRONG_KIND, 16),
        (plain().times([u32::MAX]), Refusal::OUT_OF_RANGE, 16),
        (plain().times(legs(8)), Refusal::WRONG_KIND, 24),
        (plain().times(legs(10)), Refusal::WRONG_KIND, 25),
        (
            plain().times(legs(8).into_iter().map(Some).chain([None])),
            Refusal::CLOSURES_DIFFER,
            24,
        ),
        (plain().tour([1, 0]), Refusal::OUT_OF_RANGE, 17),
        (plain().tour([255]), Refusal::OUT_OF_RANGE, 16),
        (plain().tour([2, 1, 2]), Refusal::REPEATED_CUSTOMER, 18),
    ];
    for (row, (sheet, number, word)) in table.into_iter().enumerate() {
        let refused = Refusal {
            number,
            word: Some(word),
        };
        assert_eq!(plan(&sheet.bytes()), Err(refused), "row {row}");
    }
}
