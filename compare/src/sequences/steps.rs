//! The steps of a sequence: calls on one array, valid and hostile mixed, and what the harness does between them.

use super::array::Array;
use super::call::{Call, Kind};
use super::damage::{damage, scrambled};
use super::pair::{Pair, Shelf, Step};
use super::spoil::{inside, spoil};
use crate::hostile::wild_numbers;
use crate::lent::Lent;
use crate::loss;
use crate::pool::Design;
use compare::random::Random;

/// One sequence; the seed and its number settle it.
pub struct Steps {
    random: Random,
    pub array: Array,
    /// What the array holds before the first step: anything, or user bytes with right parities.
    pub settled: bool,
    left: usize,
    first: bool,
}

impl Steps {
    /// The first sequences take the designs of the pool in turn, so that each is taken; the others draw one.
    pub fn new(seed: u64, number: u64, pool: &[Design]) -> Steps {
        let mut random = Random::new(Random::new(seed).next() ^ Random::new(number).next());
        let design = match pool.get(number as usize) {
            Some(design) => design.clone(),
            None => drawn(pool, &mut random),
        };
        let array = Array::drawn(&design, &mut random);
        let (settled, left) = (random.one_in(2), 28 + random.below(13));
        Steps { random, array, settled, left, first: true }
    }

    /// The two shelves as they are before the first step.
    pub fn shelves(&mut self) -> Pair {
        let mut bytes = self.random.bytes(self.array.bytes());
        if self.settled {
            self.array.settle(&mut bytes);
        }
        let marks: Vec<u8> = (0..self.array.sizes.disks).map(|_| self.random.below(2) as u8).collect();
        let shift = self.random.below(32);
        let shelf = || Shelf { array: Lent::of(&bytes, shift), marks: Lent::of(&marks, shift / 2) };
        Pair::of(shelf(), shelf(), shift / 3)
    }

    /// The next step, from what the array and the marks hold now; none after the last.
    pub fn next(&mut self, now: &Shelf) -> Option<Step> {
        self.left = self.left.checked_sub(1)?;
        let format = std::mem::take(&mut self.first) && !self.settled && self.random.one_in(2);
        if format {
            return Some(self.valid(Kind::Format, now));
        }
        let (kind, valid) = match self.random.below(48) {
            0..=3 => (Kind::Format, 30),
            4..=13 => (Kind::Read, 60),
            14..=29 => (Kind::Write, 70),
            30..=39 => (Kind::Audit, 70),
            _ => (Kind::Rebuild, 50),
        };
        let of_hundred = self.random.below(100);
        Some(if of_hundred < valid {
            self.valid(kind, now)
        } else if of_hundred < 98 {
            self.spoiled(kind, now)
        } else {
            self.wild(kind, now)
        })
    }

    /// A step whose call is accepted; of rebuild it may be refused with 13.
    fn valid(&mut self, kind: Kind, now: &Shelf) -> Step {
        let user_unit = self.user_unit();
        let four = self.array.four(user_unit).expect("the user unit is below their number");
        let (offset, length) = inside(self.array.given.u, &mut self.random);
        let old = &now.array.list()[self.array.start(four[0]) + offset as usize..][..length];
        let bytes = if kind == Kind::Write { self.new_bytes(old) } else { self.random.bytes(length) };
        let mut marks = self.marks(kind, now.marks.list());
        let asked = match kind {
            Kind::Read => &four[..1],
            Kind::Write => &four[..],
            Kind::Format | Kind::Audit | Kind::Rebuild => &[],
        };
        asked.iter().for_each(|place| marks[place.disk as usize] = 0);
        let damage = match kind {
            Kind::Audit if self.random.one_in(2) => damage(&mut self.array, &mut self.random),
            Kind::Rebuild if !self.random.one_in(4) => scrambled(&self.array, &marks, &mut self.random),
            _ => Vec::new(),
        };
        let (array, disks, given) = (self.array.bytes(), marks.len(), self.array.given.clone());
        let null = self.random.one_in(2);
        let call = Call { kind, given, array, marks: disks, user_unit, offset, bytes, null };
        Step { marks, damage, repair: !self.random.one_in(6), call }
    }

    /// A step spoiled for one refusal, sometimes for two or three: then the one tested first must win.
    fn spoiled(&mut self, kind: Kind, now: &Shelf) -> Step {
        let mut step = self.valid(kind, now);
        for _ in 0..self.random.pick(&[1, 1, 1, 1, 1, 1, 2, 2, 3]) {
            let number = self.random.pick(kind.refusals());
            spoil(&mut step, number, &mut self.array, &mut self.random);
        }
        step
    }

    /// A step in whose call every number is wild.
    fn wild(&mut self, kind: Kind, now: &Shelf) -> Step {
        let mut step = self.valid(kind, now);
        if self.random.one_in(2) {
            wild_numbers(&mut step.call.given, &mut self.random);
        }
        (step.call.user_unit, step.call.offset) = (self.random.wild(), self.random.next());
        step.call.array = self.random.below(step.call.array + 1);
        step
    }

    /// A user unit, often one of the first or the last.
    fn user_unit(&mut self) -> u32 {
        let most = self.array.sizes.user_units as usize;
        let any = self.random.below(most);
        let near = self.random.below(most.min(4));
        self.random.pick(&[0, most - 1, near, most - 1 - near, any, any, any, any]) as u32
    }

    /// Bytes to write where the old ones lie: any, those already there, others in one bit, all alike.
    fn new_bytes(&mut self, old: &[u8]) -> Vec<u8> {
        let mut bytes = old.to_vec();
        match self.random.below(10) {
            0 => {}
            1 if !bytes.is_empty() => bytes[self.random.below(old.len())] ^= 1 << self.random.below(8),
            2 => bytes.fill(self.random.pick(&[0, 0xFF])),
            3 => bytes.iter_mut().for_each(|byte| *byte ^= 0xA5),
            _ => bytes = self.random.bytes(old.len()),
        }
        bytes
    }

    /// Marks of 0 and 1: those that are there with none above 1, none, some more, or any; of rebuild a drawn loss.
    fn marks(&mut self, kind: Kind, now: &[u8]) -> Vec<u8> {
        if kind == Kind::Rebuild {
            let (v, g) = (self.array.given.v, self.array.given.g);
            return loss::marks(self.array.sizes.disks, &loss::drawn(v, g, &mut self.random));
        }
        let mut marks: Vec<u8> = now.iter().map(|mark| u8::from(*mark == 1)).collect();
        match self.random.below(8) {
            0..=2 => {}
            3 | 4 => marks.fill(0),
            5 | 6 => (0..3).for_each(|_| marks[self.random.below(now.len())] = 1),
            _ => marks.iter_mut().for_each(|mark| *mark = self.random.below(2) as u8),
        }
        marks
    }
}

/// A design, mostly with other labels: one of the smallest, whose units can be long, or any, the large ones seldom.
pub fn drawn(pool: &[Design], random: &mut Random) -> Design {
    let smallest = random.one_in(3);
    loop {
        let design = &pool[random.below(pool.len())];
        let taken = if smallest { design.cost() <= 400 } else { random.one_in(1 + design.cost() / 10_000) };
        if taken {
            return if random.one_in(4) { design.clone() } else { design.relabelled(random) };
        }
    }
}
