//! `faults`: each planted fault must be found by the comparison.

use crate::call::Call;
use crate::generator::Generator;
use crate::pool::{self, Design};
use crate::{losses, printed, sequences};
use compare::model::{Fault, Model, Plant};
use std::panic::{catch_unwind, set_hook, AssertUnwindSafe};

/// How many calls are tried before a fault counts as not found.
const MOST: usize = 100_000;

/// Compares a program with each fault planted until an answer differs, and prints the call that found it.
pub fn run(seed: u64) -> Result<(), String> {
    println!("seed {seed}");
    set_hook(Box::new(|_| ()));
    let (pool, mut missed) = (pool::all(), Vec::new());
    for (fault, ways) in planted() {
        let calls: Option<Vec<String>> = ways.iter().map(|find| find(fault, seed, &pool)).collect();
        match calls {
            Some(calls) => println!("found {fault:?} ({})\n  by {}", fault.text(), calls.join("\n  by ")),
            None => missed.push(format!("{fault:?}")),
        }
    }
    let all = planted().count();
    println!("{} of {all} planted faults found", all - missed.len());
    if missed.is_empty() {
        Ok(())
    } else {
        Err(format!("not found: {}", missed.join(", ")))
    }
}

/// Looks for a fault, by the seed and the pool, and shows the call that finds it.
type Find = fn(Fault, u64, &[Design]) -> Option<String>;

/// Lists of faults, each with the ways in which its faults are looked for; each way must find them.
const SOUGHT: [(&[Fault], &[Find]); 5] = [
    (Fault::MAPPING, &[find]),
    (Fault::PLAN, &[find]),
    (Fault::ARRAY, &[sequences::find]),
    (Fault::REBUILD, &[losses::find, sequences::find]),
    (Fault::PRINTER, &[printed::find]),
];

fn planted() -> impl Iterator<Item = (Fault, &'static [Find])> {
    SOUGHT.into_iter().flat_map(|(faults, ways)| faults.iter().map(move |fault| (*fault, ways)))
}

/// The first call on which the faulty program answers otherwise, or breaks down over a design it should have refused.
fn find(fault: Fault, seed: u64, pool: &[Design]) -> Option<String> {
    let mut model = Model::new(Plant::of(fault));
    let mut differs = |call: &Call| {
        let faulty = catch_unwind(AssertUnwindSafe(|| call.ask_model(&mut model)));
        call.ask_library().ok() != faulty.ok()
    };
    let mut calls = Generator::new(seed, pool).take(MOST).enumerate();
    calls.find(|(_, call)| differs(call)).map(|(number, call)| format!("call {number}: {call}"))
}
