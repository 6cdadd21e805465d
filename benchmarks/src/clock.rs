//! The time of a call by the port, and of what it is held against.
use crate::stopwatch::seconds;
use std::hint::black_box;
use std::time::Instant;

/// Microseconds of one call of each.
#[derive(Clone, Copy)]
pub struct Times {
    /// By the original, or by the port's own cut by the clock.
    pub base: f64,
    pub port: f64,
}

impl Times {
    pub fn ratio(&self) -> f64 {
        self.port / self.base
    }
}

/// How long it is measured, in seconds.
#[derive(Clone, Copy)]
pub struct Pace {
    /// A turn of one of both, where a call is not longer.
    pub turn: f64,
    /// All turns of both together; there are three at least.
    pub whole: f64,
}

const LEAST_TURNS: u32 = 3;
const MOST_ROUNDS: f64 = 5_000.0;
/// The port is not taken to be faster than so many times, which a disturbed first look may say.
const MOST_FASTER: f64 = 10.0;
/// Where two functions of the port are held against each other: a first look has so many calls, and none is taken to be
/// shorter than this.
const TRIED: u32 = 20;
const LEAST_CALL: f64 = 1e-7;

impl Pace {
    /// How many calls a turn has, where one takes this long.
    fn rounds(self, call: f64) -> u32 {
        (self.turn / call).clamp(1.0, MOST_ROUNDS) as u32
    }

    /// A turn of both, as often as there is time for.
    fn turns(self, mut both: impl FnMut()) {
        let (start, mut turns) = (Instant::now(), 0);
        while turns < LEAST_TURNS || start.elapsed().as_secs_f64() < self.whole {
            both();
            turns += 1;
        }
    }
}

/// One turn of the original. What its calls are given is made before its time begins, and freed after it ends.
fn turn<Given>(rounds: u32, give: impl Fn() -> Given, work: impl Fn(&mut Given) -> f64) -> f64 {
    let mut given: Vec<Given> = (0..rounds).map(|_| give()).collect();
    let time = seconds(|| {
        for each in &mut given {
            black_box(work(black_box(each)));
        }
    });
    time / f64::from(rounds)
}

/// One turn of the port, in seconds. It reads the sheet once per turn: a turn without a call is the time of that.
fn port_turn(port: impl Fn(u32) -> f64, rounds: u32) -> f64 {
    seconds(|| {
        black_box(port(rounds));
    })
}

/// A function of the port: how many calls a turn has, and the best turns with and without them.
struct Turns<Port> {
    port: Port,
    rounds: u32,
    many: f64,
    none: f64,
}

impl<Port: Fn(u32) -> f64> Turns<Port> {
    /// A first look at so many calls says how long one takes, which is taken to be `least` at least.
    fn new(port: Port, pace: Pace, tried: u32, least: f64) -> Turns<Port> {
        let best = |rounds| port_turn(&port, rounds).min(port_turn(&port, rounds));
        let none = best(0);
        let call = (best(tried) - none) / f64::from(tried);
        Turns {
            rounds: pace.rounds(call.max(least)),
            port,
            many: f64::MAX,
            none,
        }
    }

    fn again(&mut self) {
        self.many = self.many.min(port_turn(&self.port, self.rounds));
        self.none = self.none.min(port_turn(&self.port, 0));
    }

    /// Microseconds of one call, without the reading.
    fn call(&self) -> f64 {
        (self.many - self.none) * 1e6 / f64::from(self.rounds)
    }
}

/// Both in turns, so that what else the machine does meets both alike; the best turn counts. A turn of the original
/// has at most so many calls.
pub fn compare<Given>(
    pace: Pace,
    most: u32,
    give: impl Fn() -> Given,
    original: impl Fn(&mut Given) -> f64,
    port: impl Fn(u32) -> f64,
) -> Times {
    let mut first = turn(1, &give, &original).min(turn(1, &give, &original));
    let theirs = pace.rounds(first);
    let mut ours = Turns::new(port, pace, theirs, first / MOST_FASTER);
    pace.turns(|| {
        first = first.min(turn(theirs.min(most), &give, &original));
        ours.again();
    });
    Times {
        base: first * 1e6,
        port: ours.call(),
    }
}

/// The same of two functions of the port.
pub fn beside(pace: Pace, base: impl Fn(u32) -> f64, port: impl Fn(u32) -> f64) -> Times {
    let mut base = Turns::new(base, pace, TRIED, LEAST_CALL);
    let mut port = Turns::new(port, pace, TRIED, LEAST_CALL);
    pace.turns(|| {
        base.again();
        port.again();
    });
    Times {
        base: base.call(),
        port: port.call(),
    }
}
