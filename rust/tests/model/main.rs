//! Random calls through the safe functions and of the independent program (`compare/src/model.rs`): answers and every lent byte
//! are compared. HIMZOLVEN_SEED takes a seed; otherwise 1 and a fresh one are taken. Besides, the examples of document 01.

mod designs;
mod examples;
mod lent;
mod sequence;
mod step;
mod tally;

use compare::model::{Fault, Model, Plant};
use compare::random::Random;
use himzolven::Design;
use sequence::Sequence;
use std::panic::{AssertUnwindSafe, catch_unwind};
use std::time::{SystemTime, UNIX_EPOCH};
use tally::Tally;

fn seeds() -> Vec<u64> {
    let fresh = || SystemTime::now().duration_since(UNIX_EPOCH).map_or(0, |since| since.as_nanos() as u64);
    let named = std::env::var("HIMZOLVEN_SEED").ok();
    named.map_or_else(|| vec![1, fresh()], |seed| vec![seed.parse().expect("HIMZOLVEN_SEED is a number")])
}

/// Calls of one seed: the designs' calls, a sequence on an array of each design of the pool, and the largest sizes.
fn calls(seed: u64, pool: &[Design], model: &mut Model, tally: &mut Tally) -> Result<(), String> {
    let mut random = Random::new(seed);
    (0..=100).chain([u32::MAX]).try_for_each(|v| designs::held(v, model, tally))?;
    (0..400).try_for_each(|_| designs::check(pool, &mut random, model, tally))?;
    for design in pool {
        let steps = if design.v() > 13 { 20 } else { 300 };
        Sequence::new(design, Random::new(random.next())).run(steps, model, tally)?;
    }
    sequence::largest_sizes(&designs::complete(91), model)
}

#[test]
fn random_calls_answer_as_the_independent_program() {
    let pool = designs::pool();
    for seed in seeds() {
        println!("HIMZOLVEN_SEED={seed}");
        let mut tally = Tally::default();
        calls(seed, &pool, &mut Model::new(Plant::NONE), &mut tally)
            .unwrap_or_else(|difference| panic!("{difference}"));
        tally.print();
        tally.expect(designs::REFUSALS.into_iter().chain(sequence::refusals()));
    }
}

/// Faults of the independent program that the safe functions cannot show: they take no list to fill and no design that is not
/// checked. And no array here is above the limit.
const HIDDEN: [Fault; 4] =
    [Fault::FillLongerList, Fault::FillStoresOnRefusal, Fault::SixBeforeFive, Fault::SevenNoLimit];

/// Whether the calls of some seed find what is planted: an answer or a byte differs, or the faulty program breaks down.
fn found(plant: Plant, pool: &[Design]) -> bool {
    (1..=4).any(|seed| {
        let mut model = Model::new(plant);
        let compared = catch_unwind(AssertUnwindSafe(|| calls(seed, pool, &mut model, &mut Tally::default())));
        !matches!(compared, Ok(Ok(())))
    })
}

#[test]
fn a_fault_planted_in_the_independent_program_is_found() {
    let pool = designs::pool();
    let faults = [Fault::MAPPING, Fault::ARRAY, Fault::PLAN, Fault::REBUILD].concat();
    let planted: Vec<Fault> = faults.into_iter().filter(|fault| !HIDDEN.contains(fault)).collect();
    assert!(!found(Plant::NONE, &pool), "without a fault there is a difference");
    let missed: Vec<&Fault> = planted.iter().filter(|fault| !found(Plant::of(**fault), &pool)).collect();
    assert!(missed.is_empty(), "not found: {missed:?}");
    println!("{} planted faults, each found", planted.len());
}
