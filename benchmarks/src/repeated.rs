//! The tables over several passes. Each is a process of its own, so that it meets other addresses and another moment.
use crate::clock::{Pace, Times};
use crate::spread::Spread;
use crate::tables;
use std::process::{exit, Command, Stdio};

const PASSES: usize = 5;
const PACE: Pace = Pace {
    turn: 0.000_5,
    whole: 0.025,
};
/// The argument that makes a process one of the passes.
pub const PASS: &str = "--pass";

/// Times each cell of each table, and writes both times on a line.
pub fn pass() {
    for table in tables::all() {
        for subject in table.cells() {
            let Times { base, port } = subject.time(table.work, PACE);
            println!("{base} {port}");
        }
    }
}

/// The lines of another process; where it fails, this one does too.
fn passed() -> Vec<Times> {
    let program = std::env::current_exe().expect("this program's path");
    let output = Command::new(program)
        .arg(PASS)
        .stderr(Stdio::inherit())
        .output()
        .expect("this program");
    if !output.status.success() {
        exit(1);
    }
    let text = String::from_utf8(output.stdout).expect("numbers");
    text.lines().map(times).collect()
}

fn times(line: &str) -> Times {
    let (base, port) = line.split_once(' ').expect("two numbers");
    let number = |text: &str| text.parse().expect("a number");
    Times {
        base: number(base),
        port: number(port),
    }
}

pub fn print() {
    let passes: [Vec<Times>; PASSES] = std::array::from_fn(|_| passed());
    let cell = |k| Spread::new(&passes.each_ref().map(|pass| pass[k]));
    let mut cells = (0..passes[0].len()).map(cell);
    for table in tables::all() {
        let count = table.size();
        table.print(&cells.by_ref().take(count).collect::<Vec<_>>());
    }
}
