//! `losses`: disks are lost and rebuilt, by the proved library and by the independent program; every byte, mark, count and
//! place is compared. Every loss of up to five disks of design F, then random losses.

mod design_f;
mod held;

use crate::given::Given;
use crate::loss;
use crate::pool::{self, Design};
use crate::sequences::array::Array;
use crate::sequences::call::Reply;
use crate::sequences::crash::{self, At};
use crate::sequences::steps::drawn;
use crate::sequences::taken::Taken;
use compare::model::{Fault, Model, Plant};
use compare::random::Random;
use held::Held;
use std::panic::{catch_unwind, AssertUnwindSafe};

/// The number of arrays of a run, unless it is told another, and of those with v = 91; the losses of each array.
pub const COUNT: u64 = 2_000;
const LARGEST: u64 = 20;
const EACH: usize = 10;

/// How often a run must see losses that are rebuilt and such that are refused, on right parities and on any bytes.
const LEAST: u64 = 1_000;

/// How many arrays are tried before a fault counts as not found.
const MOST: u64 = 400;

/// How many losses were rebuilt and refused, each on right parities and on any bytes.
#[derive(Default)]
struct Seen {
    rebuilt: [u64; 2],
    refused: [u64; 2],
}

impl Seen {
    fn add(&mut self, settled: bool, reply: &Reply) {
        let counts = if reply.refusal == 0 { &mut self.rebuilt } else { &mut self.refused };
        counts[usize::from(!settled)] += 1;
    }

    fn text(&self) -> String {
        let Seen { rebuilt: [right, wrong], refused: [right13, wrong13] } = self;
        format!("right parities: {right} rebuilt, {right13} refused; any bytes: {wrong} rebuilt, {wrong13} refused")
    }
}

/// The run: design F, then `count` arrays of the seed from number `from` on, with random losses, then those with v = 91.
/// What a run must show is asked of one that is not shorter than usual.
pub fn run(seed: u64, from: u64, count: u64) -> Result<(), String> {
    println!("seed {seed}");
    crash::watch();
    let (pool, mut model) = (pool::all(), Model::new(Plant::NONE));
    if count >= COUNT {
        design_f::run(seed, &mut model).map_err(|fault| format!("design F, seed {seed}: {fault}"))?;
    }
    let (mut seen, mut taken) = (Seen::default(), Taken::default());
    for number in from..from + count {
        let failed = |fault| format!("array {number} of seed {seed}, {fault}");
        random_losses(seed, number, &pool, &mut model, &mut taken, &mut seen).map_err(failed)?;
    }
    println!("{} random losses of 0 to 9 disks; {}", count * EACH as u64, seen.text());
    taken.print("");
    if count < COUNT {
        return Ok(());
    }
    let of_91: Vec<Design> = pool.into_iter().filter(|design| design.v == 91).collect();
    let largest: Vec<Design> = of_91.into_iter().cycle().take(LARGEST as usize).collect();
    let (mut seen91, mut taken) = (Seen::default(), Taken::default());
    for number in 0..LARGEST {
        let failed = |fault| format!("array {number} with v = 91 of seed {seed}, {fault}");
        random_losses(seed, number, &largest, &mut model, &mut taken, &mut seen91).map_err(failed)?;
    }
    println!("{} losses on v = 91; {}", LARGEST * EACH as u64, seen91.text());
    taken.print("");
    println!("no difference");
    let enough = [seen.rebuilt, seen.refused].concat().iter().all(|times| *times >= LEAST);
    if enough {
        Ok(())
    } else {
        Err(format!("not each kind of loss came {LEAST} times"))
    }
}

/// The losses of one array; the first arrays take the designs in turn.
fn random_losses(
    seed: u64,
    number: u64,
    pool: &[Design],
    model: &mut Model,
    taken: &mut Taken,
    seen: &mut Seen,
) -> Result<(), String> {
    let (held, mut random) = held(seed, number, pool);
    taken.add(&held.array);
    for at in 0..EACH {
        crash::at(At::Losses, number, at as u64);
        let lost = loss::drawn(held.array.given.v, held.array.given.g, &mut random);
        let reply = held.lose(&lost, &mut random, model).map_err(|fault| format!("loss {at}: {fault}"))?;
        seen.add(held.settled, &reply);
    }
    Ok(())
}

/// An array and what draws its losses; seed and number settle both.
fn held(seed: u64, number: u64, pool: &[Design]) -> (Held, Random) {
    let mut random = Random::new(Random::new(seed).next() ^ Random::new(!number).next());
    let design = match pool.get(number as usize) {
        Some(design) => design.clone(),
        None => drawn(pool, &mut random),
    };
    let (array, settled) = (Array::drawn(&design, &mut random), random.one_in(3));
    (Held::of(array, settled, &mut random), random)
}

/// The first loss on which a program with the fault answers otherwise, leaves another byte, or breaks down.
pub fn find(fault: Fault, seed: u64, pool: &[Design]) -> Option<String> {
    let mut model = Model::new(Plant::of(fault));
    let first = pool.len() as u64;
    for number in first..first + MOST {
        let (held, mut random) = held(seed, number, pool);
        for at in 0..EACH {
            let lost = loss::drawn(held.array.given.v, held.array.given.g, &mut random);
            let stepped = catch_unwind(AssertUnwindSafe(|| held.lose(&lost, &mut random, &mut model)));
            if !matches!(stepped, Ok(Ok(_))) {
                let Given { v, k, g, u, .. } = held.array.given;
                return Some(format!("loss {at} of array {number}: v={v} k={k} g={g} u={u} lost={lost:?}"));
            }
        }
    }
    None
}
