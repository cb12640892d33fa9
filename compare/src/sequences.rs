//! `sequences`: calls on arrays, many on each, asked of the proved library and of the independent program alike; after
//! every call the answers and every lent byte are compared.

pub mod array;
pub mod call;
pub mod crash;
mod damage;
mod limit;
pub mod pair;
mod spoil;
pub mod steps;
pub mod taken;
mod watch;

use crate::pool::{self, Design};
use crate::tally::Tally;
use call::Kind;
use compare::model::{Fault, Model, Plant};
use crash::At;
use std::panic::{catch_unwind, AssertUnwindSafe};
use steps::Steps;
use taken::Taken;
use watch::Watch;

/// The number of sequences of a run, unless it is told another: of 28 to 40 calls each.
pub const COUNT: u64 = 4_000;

/// How many sequences, beyond those that take the pool's designs in turn, are tried before a fault is looked for near the
/// limit, and then counts as not found.
const MOST: u64 = 300;

/// The run: `count` sequences of the seed, beginning with number `from`, then the arrays near the limit. What a run must
/// show is asked of one that is not shorter than usual.
pub fn run(seed: u64, from: u64, count: u64) -> Result<(), String> {
    println!("seed {seed}");
    crash::watch();
    let (pool, mut model) = (pool::all(), Model::new(Plant::NONE));
    let mut tally = Tally::of(Kind::ALL.map(|kind| (kind.name(), kind.refusals())));
    let (mut watch, mut taken) = (Watch::default(), Taken::default());
    for number in from..from + count {
        let mut steps = Steps::new(seed, number, &pool);
        taken.add(&steps.array);
        sequence(number, &mut steps, &mut model, &mut watch, &mut tally)
            .map_err(|fault| format!("sequence {number} of seed {seed}, {fault}"))?;
    }
    limit::run(&pool, &mut model, |kind, refusal| tally.add(kind as usize, refusal))?;
    tally.print();
    watch.print();
    taken.print(", and some near the limit");
    println!("{} calls, {} accepted, no difference", tally.calls(), tally.accepted());
    if count < COUNT {
        return Ok(());
    }
    tally.demands()
}

/// Takes all steps of a sequence; the error shows the call with all that it was lent.
fn sequence(
    number: u64,
    steps: &mut Steps,
    model: &mut Model,
    watch: &mut Watch,
    tally: &mut Tally,
) -> Result<(), String> {
    let mut pair = steps.shelves();
    watch.start(steps.settled);
    let mut call = 0;
    while let Some(step) = steps.next(pair.now()) {
        crash::at(At::Sequence, number, call);
        let failed = |fault| format!("call {call}: {fault}\n  asked: {:#}", step.call);
        let answer = pair.step(&step, model).map_err(failed)?;
        tally.add(step.call.kind as usize, answer.refusal);
        watch.after(&step, &answer, model, pair.now(), &steps.array.given).map_err(failed)?;
        call += 1;
    }
    Ok(())
}

/// The first call on which a program with the fault answers otherwise, leaves another byte, or breaks down.
pub fn find(fault: Fault, seed: u64, pool: &[Design]) -> Option<String> {
    let mut model = Model::new(Plant::of(fault));
    let first = pool.len() as u64;
    for sequence in first..first + MOST {
        let mut steps = Steps::new(seed, sequence, pool);
        let (mut pair, mut number) = (steps.shelves(), 0);
        while let Some(step) = steps.next(pair.now()) {
            let stepped = catch_unwind(AssertUnwindSafe(|| pair.step(&step, &mut model)));
            if !matches!(stepped, Ok(Ok(_))) {
                return Some(format!("call {number} of sequence {sequence}: {}", step.call));
            }
            number += 1;
        }
    }
    limit::run(pool, &mut model, |_, _| ()).err()
}
