//! Holds a listing program against the Rust, sheet by sheet.
use crate::features::Features;
use crate::{answer, questions};
use std::io::Write;
use std::process::{Command, Stdio};

/// The cases, `count` generated sheets and Solomon's; whether all answers are alike.
pub fn all(program: &str, seed: u64, count: usize, files: &[String]) -> bool {
    let mut features = Features::default();
    let mut unlike = 0;
    for file in questions::sheets(seed, count, files) {
        let expected = answer(&file);
        let given = run(program, &file);
        features.listing(&file, &expected);
        if expected != given {
            unlike += 1;
            if unlike <= 3 {
                println!("unlike: {file:02X?}\nthe Rust:\n{expected}the program:\n{given}");
            }
        }
    }
    println!("{features}: {unlike} unlike");
    unlike == 0
}

/// What the program prints for this standard input.
fn run(program: &str, file: &[u8]) -> String {
    let mut child = Command::new(program)
        .stdin(Stdio::piped())
        .stdout(Stdio::piped())
        .spawn()
        .expect("the program");
    // A program that stops reading early closes its end: that is no fault.
    let _ = child.stdin.take().expect("its input").write_all(file);
    let out = child.wait_with_output().expect("its output");
    String::from_utf8_lossy(&out.stdout).into_owned()
}
