//! `printed`: the plan printer, run on lines of every kind; what it prints is compared with the independent program.

mod lines;

use crate::pool::Design;
use compare::model::{Fault, Model, Plant};
use std::collections::BTreeMap;
use std::io::Write;
use std::process::{Command, Stdio};
use std::thread::sleep;
use std::time::Duration;

/// The least number of lines of a run.
const LEAST: usize = 500;

/// What the printer prints for an input. With `pieces` its bytes come one at a time, so that it has to read again and
/// again. It may end before it has read all, but no signal may end it.
fn asked(printer: &str, input: &[u8], pieces: bool) -> Result<Vec<u8>, String> {
    let failed = |error: std::io::Error| format!("{printer}: {error}");
    let piped = Command::new(printer).stdin(Stdio::piped()).stdout(Stdio::piped()).spawn();
    let mut child = piped.map_err(failed)?;
    if let Some(mut to) = child.stdin.take() {
        for piece in input.chunks(if pieces { 1 } else { input.len().max(1) }) {
            let _ = to.write_all(piece).and_then(|()| to.flush());
            sleep(Duration::from_millis(pieces.into()));
        }
    }
    let output = child.wait_with_output().map_err(failed)?;
    match output.status.code() {
        Some(_) => Ok(output.stdout),
        None => Err(format!("{printer}: {}", output.status)),
    }
}

/// An input as it can be shown; of a long one the first bytes.
fn shown(input: &[u8]) -> String {
    let more = if input.len() > 80 { format!(" … ({} bytes)", input.len()) } else { String::new() };
    format!("\"{}\"{more}", input[..input.len().min(80)].escape_ascii())
}

/// The run: all lines of the seed, and some of them in pieces.
pub fn run(printer: &str, seed: u64) -> Result<(), String> {
    println!("seed {seed}");
    let (mut model, mut counts) = (Model::new(Plant::NONE), BTreeMap::new());
    let lines = lines::all(seed);
    for (number, input) in lines.iter().enumerate() {
        let expected = model.print(input);
        let printed = asked(printer, input, input.len() < 40 && number.is_multiple_of(20))?;
        if printed != expected.as_bytes() {
            let (input, printed) = (shown(input), String::from_utf8_lossy(&printed));
            return Err(format!("for {input} the printer printed\n{printed}and should print\n{expected}"));
        }
        let plan = expected.starts_with(|first: char| first.is_ascii_digit());
        *counts.entry(if plan { "a plan" } else { expected.trim_end() }.to_string()).or_insert(0u64) += 1;
    }
    let counts: Vec<String> = counts.iter().map(|(answer, times)| format!("{answer} x {times}")).collect();
    println!("{} lines: {}, no difference", lines.len(), counts.join(", "));
    if lines.len() >= LEAST && counts.len() == 5 {
        Ok(())
    } else {
        Err(format!("fewer than {LEAST} lines, or not each answer came"))
    }
}

/// The first line for which a program with the fault prints otherwise than one without.
pub fn find(fault: Fault, seed: u64, _: &[Design]) -> Option<String> {
    let (mut right, mut faulty) = (Model::new(Plant::NONE), Model::new(Plant::of(fault)));
    let mut lines = lines::all(seed).into_iter();
    lines.find(|input| right.print(input) != faulty.print(input)).map(|input| format!("line {}", shown(&input)))
}
