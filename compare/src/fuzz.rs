//! `fuzz`: raw strings of bytes, each decoded to one call of the eleven, asked of the proved library and of the independent
//! program alike. New strings are mutations of a small corpus; one that shows an answer not seen before joins it.

mod decode;
mod mutate;

use crate::given::Given;
use crate::pool::{self, Design};
use crate::run::both;
use crate::sequences::call::Kind as ArrayKind;
use crate::sequences::crash::{self, At};
use crate::sequences::pair::{Pair, Shelf};
use crate::tally::Tally;
use crate::{call::Kind, lent::Lent};
use compare::model::{Fault, Model, Plant};
use compare::random::Random;
use decode::{decoded, seeds, Decoded};
use mutate::mutated;
use std::collections::HashSet;
use std::panic::{catch_unwind, set_hook, AssertUnwindSafe};

/// The number of strings of a run, unless it is told another.
pub const COUNT: u64 = 300_000;

/// How many strings are tried before a fault counts as not found.
const FAULTY: u64 = 100_000;

/// The most strings of the corpus.
const MOST: usize = 512;

/// How often each call must be accepted, and refused by each of its numbers, in a run that is not shorter than usual.
const LEAST: u64 = 20;

/// Designs whose check costs the independent program more are left to `compare`.
const COST: usize = 10_000;

/// What an answer shows; the corpus is kept by it.
#[derive(Clone, Copy, PartialEq, Eq, Hash)]
struct Shown {
    /// The call's index among the eleven.
    call: usize,
    refusal: u32,
    place: u32,
    /// The binary digits of what was counted.
    counted: u32,
    /// Of an accepted call those of v, k, g that it takes.
    sizes: [u32; 3],
}

impl Shown {
    fn of(call: usize, refusal: u32, place: u32, counted: u32, given: &Given) -> Shown {
        let taken = match call {
            _ if refusal != 0 => 0,
            fill if fill == Kind::Fill as usize => 1,
            check if check == Kind::Check as usize => 2,
            _ => 3,
        };
        let sizes = [0, 1, 2].map(|at: usize| if at < taken { [given.v, given.k, given.g][at] } else { 0 });
        Shown { call, refusal, place, counted: 32 - counted.leading_zeros(), sizes }
    }
}

struct Fuzz {
    random: Random,
    pool: Vec<Design>,
    corpus: Vec<Vec<u8>>,
    shown: HashSet<Shown>,
    left: std::vec::IntoIter<Vec<u8>>,
}

impl Fuzz {
    fn new(seed: u64) -> Fuzz {
        let mut pool = pool::all();
        pool.retain(|design| design.cost() < COST);
        let left = seeds(&pool).into_iter();
        Fuzz { random: Random::new(seed), pool, corpus: Vec::new(), shown: HashSet::new(), left }
    }

    /// The next string: first the seeds as they are.
    fn next(&mut self) -> Vec<u8> {
        self.left.next().unwrap_or_else(|| mutated(&self.corpus, &mut self.random))
    }

    /// Keeps a string if its answer shows something new; where the corpus is full, one of it goes.
    fn keep(&mut self, input: Vec<u8>, shown: Shown) {
        if !self.shown.insert(shown) {
            return;
        }
        if self.corpus.len() == MOST {
            self.corpus.swap_remove(self.random.below(MOST));
        }
        self.corpus.push(input);
    }
}

/// Asks both about a string; the error says what differs.
fn asked(input: &[u8], pool: &[Design], model: &mut Model) -> Result<Shown, String> {
    match decoded(input, pool) {
        Decoded::Plain(call) => {
            let reply = both(&call, model)?;
            Ok(Shown::of(call.kind as usize, reply.answer().refusal, reply.answer().place, 0, &call.given))
        }
        Decoded::Array(step, bytes, shift) => {
            let shelf = || Shelf { array: Lent::of(&bytes, shift), marks: Lent::of(&step.marks, shift / 2) };
            let reply = Pair::of(shelf(), shelf(), shift / 3)
                .step(&step, model)
                .map_err(|fault| format!("{fault}\n  asked: {:#}", step.call))?;
            let call = Kind::ALL.len() + step.call.kind as usize;
            Ok(Shown::of(call, reply.refusal, reply.place, reply.counted[0], &step.call.given))
        }
    }
}

/// The run: `count` strings from the seed, counted from 0.
pub fn run(seed: u64, count: u64) -> Result<(), String> {
    println!("seed {seed}");
    crash::watch();
    let (mut fuzz, mut model) = (Fuzz::new(seed), Model::new(Plant::NONE));
    let plain = Kind::ALL.map(|kind| (kind.name(), kind.refusals()));
    let mut tally = Tally::of(plain.into_iter().chain(ArrayKind::ALL.map(|kind| (kind.name(), kind.refusals()))));
    for number in 0..count {
        let input = fuzz.next();
        crash::at(At::Fuzz, seed, number);
        let shown = asked(&input, &fuzz.pool, &mut model)
            .map_err(|fault| format!("string {number} of seed {seed}, {}: {fault}", hex(&input)))?;
        tally.add(shown.call, shown.refusal);
        fuzz.keep(input, shown);
    }
    tally.print();
    println!("{} strings, a corpus of {}, {} accepted, no difference", count, fuzz.corpus.len(), tally.accepted());
    if count < COUNT {
        return Ok(());
    }
    tally.each(LEAST)
}

fn hex(input: &[u8]) -> String {
    input.iter().map(|byte| format!("{byte:02x}")).collect()
}

/// Whether there is a string on which a program with the fault answers otherwise, leaves another byte, or breaks down.
fn found(fault: Fault, seed: u64) -> bool {
    let (mut fuzz, mut model) = (Fuzz::new(seed), Model::new(Plant::of(fault)));
    (0..FAULTY).any(|_| {
        let input = fuzz.next();
        match catch_unwind(AssertUnwindSafe(|| asked(&input, &fuzz.pool, &mut model))) {
            Ok(Ok(shown)) => {
                fuzz.keep(input, shown);
                false
            }
            _ => true,
        }
    })
}

/// Faults that show only with designs or arrays larger than those of this run; `compare faults` looks for them.
const LARGE: [Fault; 3] = [Fault::FiftyOne, Fault::BytesWrap, Fault::SevenNoLimit];

/// Plants each other fault of the calls in the independent program; each must be found.
pub fn faults(seed: u64) -> Result<(), String> {
    println!("seed {seed}");
    set_hook(Box::new(|_| ()));
    let mut all = [Fault::MAPPING, Fault::PLAN, Fault::ARRAY, Fault::REBUILD].concat();
    all.retain(|fault| !LARGE.contains(fault));
    let missed: Vec<&Fault> = all.iter().filter(|fault| !found(**fault, seed)).collect();
    println!("{} of {} planted faults found by raw strings", all.len() - missed.len(), all.len());
    if missed.is_empty() {
        Ok(())
    } else {
        Err(format!("not found: {missed:?}"))
    }
}
