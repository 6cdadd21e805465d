//! The worked sheets and the cuttings of their calls that crates/test_marks marks.
use super::sheets::{Customer, Sheet};
use lizsomdur::NO_ROAD;

/// A cutting to be marked.
pub struct Marked {
    /// As in crates/test_marks/stdout.
    pub name: &'static str,
    pub sheet: Vec<u8>,
    /// The calls and the break place of each run.
    pub runs: Vec<(Vec<u8>, u8)>,
}

/// Two customers, 10 and 12 from the depot and 5 from each other; a bus takes both.
pub fn base() -> Sheet {
    let customer = Customer {
        demand: 2,
        ..Customer::default()
    };
    Sheet {
        capacity: 4,
        customers: vec![customer.clone(), customer],
        distances: vec![0, 10, 12, 10, 0, 5, 12, 5, 0],
        ..Sheet::default()
    }
}

/// The base with another capacity.
pub fn with_capacity(capacity: u32) -> Sheet {
    Sheet { capacity, ..base() }
}

/// The base with a wheelchair place for each customer, and so many seats and wheelchair places in a bus.
pub fn with_wheelchairs(capacity: u32, wheelchairs: u32) -> Sheet {
    let mut sheet = with_capacity(capacity);
    sheet.wheelchairs = Some(wheelchairs);
    for customer in &mut sheet.customers {
        customer.wheelchairs = Some(1);
    }
    sheet
}

/// The base with a break of 4.
pub fn with_break(earliest: u32, latest: u32) -> Sheet {
    Sheet {
        rest: Some([earliest, latest, 4]),
        ..base()
    }
}

/// The sheet with a window for customer 1 and, perhaps, a penalty.
pub fn with_window(mut sheet: Sheet, window: [u32; 2], penalty: Option<u32>) -> Sheet {
    sheet.customers[0].window = Some(window);
    sheet.customers[0].penalty = penalty;
    sheet
}

/// The base with a distance limit.
pub fn with_distance_limit(limit: u32) -> Sheet {
    Sheet {
        distance_limit: Some(limit),
        ..base()
    }
}

/// The sheet with these legs closed, each by where it starts and where it ends.
pub fn with_closed(mut sheet: Sheet, legs: &[(usize, usize)]) -> Sheet {
    let places = sheet.customers.len() + 1;
    for &(from, to) in legs {
        for table in [&mut sheet.distances, &mut sheet.times] {
            if let Some(leg) = table.get_mut(from * places + to) {
                *leg = NO_ROAD;
            }
        }
    }
    sheet
}

fn customer(demand: u32, service: u32, window: Option<[u32; 2]>, penalty: Option<u32>) -> Customer {
    Customer {
        demand,
        service,
        window,
        penalty,
        ..Customer::default()
    }
}

/// A sheet with service, windows, a penalty, a fixed cost, both limits and a break, on which each customer can be served alone.
pub fn full() -> Sheet {
    Sheet {
        capacity: 4,
        fixed: 3,
        distance_limit: Some(60),
        duration_limit: Some(80),
        rest: Some([24, 30, 4]),
        customers: vec![
            customer(1, 1, Some([0, 14]), None),
            customer(2, 0, None, None),
            customer(1, 20, Some([0, 31]), None),
            customer(1, 3, None, None),
            customer(1, 1, Some([26, 27]), Some(5)),
        ],
        distances: [
            [0, 10, 12, 25, 20, 6],
            [10, 0, 5, 16, 15, 9],
            [12, 5, 0, 20, 30, 3],
            [25, 16, 20, 0, 20, 20],
            [20, 15, 30, 20, 0, 20],
            [6, 9, 3, 20, 20, 0],
        ]
        .concat(),
        ..Sheet::default()
    }
}

fn cut(name: &'static str, sheet: &Sheet, tour: &[u8], runs: &[(&[u8], u8)]) -> Marked {
    Marked {
        name,
        sheet: sheet.with(tour),
        runs: runs
            .iter()
            .map(|&(calls, place)| (calls.to_vec(), place))
            .collect(),
    }
}

/// The tour as one run.
fn whole(name: &'static str, sheet: &Sheet, tour: &[u8], place: u8) -> Marked {
    cut(name, sheet, tour, &[(tour, place)])
}

fn of_base() -> Vec<Marked> {
    let (base, due) = (base(), |due| with_window(base(), [0, due], None));
    let at_price = with_window(with_break(0, 30), [12, 13], Some(5));
    let between = with_closed(base.clone(), &[(1, 2), (2, 1)]);
    vec![
        whole("q", &at_price, &[1, 2], 2),
        whole("best", &base, &[1, 2], 0),
        cut("dearer", &base, &[1, 2], &[(&[1], 0), (&[2], 0)]),
        whole("both measures full", &with_wheelchairs(4, 2), &[1, 2], 0),
        cut(
            "a bay each",
            &with_wheelchairs(4, 1),
            &[1, 2],
            &[(&[1], 0), (&[2], 0)],
        ),
        cut("changed", &base, &[1, 2], &[(&[1, 1], 0)]),
        cut("left out", &base, &[1, 2], &[(&[1], 0)]),
        cut("none", &base, &[1, 2], &[]),
        cut("too many", &base, &[1, 2], &[(&[1, 2], 0), (&[1], 0)]),
        cut("nothing", &with_capacity(1), &[1, 2], &[]),
        cut("no bay", &with_wheelchairs(4, 0), &[1, 2], &[]),
        cut("served", &due(9), &[1, 2], &[(&[2], 0)]),
        whole("dropped", &due(9), &[1, 2], 0),
        whole("load", &with_capacity(3), &[1, 2], 0),
        whole("wheelchairs", &with_wheelchairs(4, 1), &[1, 2], 0),
        whole(
            "seats before wheelchairs",
            &with_wheelchairs(3, 1),
            &[1, 2],
            0,
        ),
        whole("window", &due(14), &[2, 1], 0),
        whole("break", &with_break(5, 10), &[1, 2], 2),
        whole("missing", &with_break(20, 30), &[1, 2], 0),
        whole("far", &with_distance_limit(26), &[1, 2], 0),
        whole("closed", &between, &[1, 2], 0),
        whole("closed the other way", &between, &[2, 1], 0),
        cut("a run each", &between, &[1, 2], &[(&[1], 0), (&[2], 0)]),
        whole("home before earliest", &with_break(21, 30), &[1], 0),
        whole("break not needed", &with_break(21, 30), &[1], 1),
        whole("home at earliest", &with_break(20, 30), &[1], 0),
        whole("n", &with_break(20, 30), &[1], 1),
    ]
}

fn of_full() -> Vec<Marked> {
    let full = full();
    vec![
        whole("full best", &full, &[1, 2], 2),
        cut("full dearer", &full, &[1, 2], &[(&[1], 0), (&[2], 1)]),
        whole("full cheaper", &full, &[5, 2], 2),
        whole("full break taken", &full, &[2], 1),
        whole("full load", &full, &[2, 4, 5, 3], 1),
        whole("full break", &full, &[2, 4], 2),
        whole("full window", &full, &[1], 1),
        whole("full missing", &full, &[4], 0),
        whole("full at earliest", &full, &[2], 0),
        whole("full far", &full, &[4, 2], 1),
        whole("full long", &full, &[3, 2], 1),
        cut(
            "calls before load",
            &full,
            &[2, 1, 3, 4],
            &[(&[2, 2, 2, 2], 0)],
        ),
        whole("load before walk", &full, &[2, 1, 3, 4], 0),
        whole("break before window", &full, &[2, 3], 2),
        whole("earlier call first", &full, &[2, 1, 3], 3),
        whole("walk before missing", &full, &[2, 1], 0),
        whole("missing before distance", &full, &[2, 4], 0),
        whole("distance before duration", &full, &[2, 4], 1),
        cut(
            "first run first",
            &full,
            &[3, 2, 1],
            &[(&[3, 2], 1), (&[1], 1)],
        ),
        cut(
            "second run long",
            &full,
            &[1, 3, 2],
            &[(&[1], 0), (&[3, 2], 1)],
        ),
        cut("second run window", &full, &[2, 1], &[(&[2], 1), (&[1], 1)]),
    ]
}

/// Cuttings of sheets with closed legs, each with what is said of it.
pub fn of_closed() -> Vec<(Marked, &'static str)> {
    let singles: &[(&[u8], u8)] = &[(&[1], 0), (&[2], 0)];
    let ford = with_closed(base(), &[(1, 2)]);
    let full_bus = with_closed(with_capacity(3), &[(1, 2)]);
    let no_way_out = with_closed(base(), &[(0, 2)]);
    let no_way_home = with_closed(base(), &[(1, 0)]);
    let due_home = with_closed(with_break(15, 30), &[(0, 2)]);
    let either = "road closed in run 1, leg 2";
    vec![
        (whole("ford", &ford, &[1, 2], 0), either),
        (cut("round the ford", &ford, &[1, 2], singles), "best"),
        (whole("the other way", &ford, &[2, 1], 0), "best"),
        (whole("road before load", &full_bus, &[1, 2], 0), either),
        (whole("no way out", &no_way_out, &[1, 2], 0), "best"),
        (
            cut("second run closed", &no_way_out, &[1, 2], singles),
            "road closed in run 2, leg 1",
        ),
        (
            cut("first run before road", &due_home, &[1, 2], singles),
            "break missing in run 1: 20 not before 15",
        ),
        (
            whole("calls before road", &no_way_home, &[1, 2], 0),
            "other calls at position 1",
        ),
    ]
}

/// All that crates/test_marks marks, in the order of its stdout.
pub fn marked() -> Vec<Marked> {
    [of_base(), of_full()].into_iter().flatten().collect()
}
