//! Random sequences of calls on one array, accepted and refused ones mixed.

use crate::lent::{REDZONE, Twice};
use crate::step::{Call, Shelf, Step};
use crate::tally::Tally;
use compare::model::Model;
use compare::random::Random;
use himzolven::{Design, Geometry, Sizes, UserUnit};

/// A call's name, the refusals that it is spoiled for (2 to 5 are the design's), and the call with numbers that it accepts.
type Kind = (&'static str, &'static [u32], fn(Valid) -> Call);

const KINDS: [Kind; 9] = [
    ("sizes", &[6], |_| Call::Sizes),
    ("map", &[6, 10], |valid| Call::Map { user: valid.user }),
    ("role", &[6, 9], |valid| Call::Role { disk: valid.disk, unit: valid.unit }),
    ("plan", &[6, 9, 14], |valid| Call::Plan { disk: valid.disk, length: valid.list }),
    ("format", &[6, 7, 8], |_| Call::Format),
    ("read", &[6, 7, 8, 10, 11, 12], |Valid { user, offset, bytes, .. }| Call::Read {
        user,
        offset,
        length: bytes.len(),
    }),
    ("write", &[6, 7, 8, 10, 11, 12], |Valid { user, offset, bytes, .. }| Call::Write { user, offset, bytes }),
    ("audit", &[6, 7], |_| Call::Audit),
    ("rebuild", &[6, 7, 8, 13], |_| Call::Rebuild),
];

/// The calls with their refusals.
pub fn refusals() -> impl Iterator<Item = (&'static str, &'static [u32])> {
    KINDS.into_iter().map(|(name, refusals, _)| (name, refusals))
}

/// Numbers that calls accept.
struct Valid {
    user: u32,
    disk: u32,
    unit: u32,
    offset: u64,
    bytes: Vec<u8>,
    list: usize,
}

/// One array of a design with what is lent besides it.
pub struct Sequence<'a> {
    geometry: Geometry<'a>,
    sizes: Sizes,
    shelf: Shelf,
    random: Random,
}

impl<'a> Sequence<'a> {
    /// A geometry with at most about 20,000 bytes, unless it has more units; the array holds noise.
    pub fn new(design: &'a Design, mut random: Random) -> Sequence<'a> {
        let primes: Vec<u32> = [2, 3, 5, 7, 11, 13].into_iter().filter(|g| *g >= design.k()).collect();
        let g = random.pick(&primes);
        let units = Geometry { design, g, u: 1 }.sizes().expect("g and u are allowed").bytes;
        let most = (20_000 / units).clamp(1, 4096);
        let any = 1 + random.below(most);
        let geometry = Geometry { design, g, u: random.pick(&[1, most, any]) as u32 };
        let sizes = geometry.sizes().expect("g and u are allowed");
        let shelf = Shelf {
            array: Twice::of(&random.bytes(sizes.bytes), 0xA5),
            marks: Twice::of(&vec![0; sizes.marks], 1),
            bytes: Twice::of(&random.bytes(most), 0x5A),
            list: Twice::of(&vec![7; sizes.plan], 9),
        };
        Sequence { geometry, sizes, shelf, random }
    }

    /// Makes some steps with both; the first difference is an error.
    pub fn run(&mut self, steps: usize, model: &mut Model, tally: &mut Tally) -> Result<(), String> {
        let design = self.geometry.design;
        for _ in 0..steps {
            let (name, refusals, call) = self.random.pick(&KINDS);
            let step = self.drawn(refusals, call);
            let (ours, theirs) = (step.ours(design, &mut self.shelf), step.theirs(design, &mut self.shelf, model));
            let unlike = self.shelf.unlike();
            if ours != theirs || !unlike.is_empty() {
                let asked = format!("v = {}, k = {}, {step:?}", design.v(), design.k());
                return Err(format!("{asked}: {ours:?}, independently {theirs:?}; lists that differ: {unlike:?}"));
            }
            tally.add(name, &ours);
        }
        Ok(())
    }

    /// A step that is accepted if no disk in its way is lost; or one that is spoiled for one refusal, or for two.
    fn drawn(&mut self, refusals: &[u32], call: fn(Valid) -> Call) -> Step {
        self.losses();
        let Geometry { g, u, .. } = self.geometry;
        let mut step = Step { g, u, array: self.sizes.bytes, marks: self.sizes.marks, call: call(self.valid()) };
        for _ in 0..self.random.pick(&[0, 0, 0, 1, 1, 2]) {
            let number = self.random.pick(refusals);
            self.spoil(&mut step, number);
        }
        step
    }

    /// The marks before a step: of no disk, or of some, which then hold noise.
    fn losses(&mut self) {
        self.shelf.marks.change(|marks| marks.fill(0));
        let length = self.sizes.bytes / self.sizes.marks;
        for _ in 0..self.random.pick(&[0, 0, 1, 2, 3, 3, 4]) {
            let (disk, noise) = (self.random.below(self.sizes.marks), self.random.bytes(length));
            self.shelf.marks.change(|marks| marks[disk] = 1);
            self.shelf.array.change(|array| array[disk * length..][..length].copy_from_slice(&noise));
        }
    }

    fn valid(&mut self) -> Valid {
        let (random, sizes, u) = (&mut self.random, &self.sizes, self.geometry.u as usize);
        let offset = random.below(u + 1);
        let length = random.below(u - offset + 1);
        Valid {
            user: random.below(sizes.user_units as usize) as u32,
            disk: random.below(sizes.marks) as u32,
            unit: random.below(sizes.units as usize) as u32,
            offset: offset as u64,
            bytes: random.bytes(length),
            list: sizes.plan + random.below(REDZONE),
        }
    }

    /// Spoils a step so that this refusal applies, or so that a number is close to it.
    fn spoil(&mut self, step: &mut Step, number: u32) {
        let (random, sizes) = (&mut self.random, &self.sizes);
        match (number, &mut step.call) {
            (6, _) if random.one_in(2) => step.u = random.pick(&[0, 4097, u32::MAX]),
            (6, _) => step.g = random.pick(&[0, 1, 2, 3, 4, 5, 9, 14, 17, u32::MAX]),
            (7, Call::Audit) => step.array = other(sizes.bytes, random),
            (7, _) if random.one_in(2) => step.array = other(sizes.bytes, random),
            (7, _) => step.marks = other(sizes.marks, random),
            (8, _) => {
                let (disk, mark) = (random.below(sizes.marks), 2 + random.below(254) as u8);
                self.shelf.marks.change(|marks| (marks[disk], marks[disk / 2]) = (mark, mark));
            }
            (9, Call::Role { unit, .. }) if random.one_in(2) => *unit = beyond(random, sizes.units),
            (9, Call::Role { disk, .. } | Call::Plan { disk, .. }) => *disk = beyond(random, sizes.disks),
            (10, Call::Map { user } | Call::Read { user, .. } | Call::Write { user, .. }) => {
                *user = beyond(random, sizes.user_units);
            }
            (11, Call::Read { offset, .. } | Call::Write { offset, .. }) => {
                let end = u64::from(self.geometry.u) + 1;
                let any = random.next().max(end);
                *offset = random.pick(&[end, 1 << 32, u64::MAX, any]);
            }
            (12, Call::Read { user, .. } | Call::Write { user, .. }) => self.mark_four(*user),
            (13, _) => self.mark_groups(),
            (14, Call::Plan { length, .. }) => *length = random.pick(&[0, sizes.plan / 3, sizes.plan - 1]),
            _ => unreachable!("refusal {number} does not apply to {step:?}"),
        }
    }

    /// Marks the disks of a user unit's four places, or of the last ones of them.
    fn mark_four(&mut self, user: u32) {
        let Ok(four) = self.geometry.map(UserUnit(user)) else { return };
        let first = self.random.below(4);
        for place in &[four.data, four.outer, four.inner, four.both][first..] {
            self.shelf.marks.change(|marks| marks[place.disk.0 as usize] = 1);
        }
    }

    /// Marks all disks of two groups, which no rebuild restores.
    fn mark_groups(&mut self) {
        let g = self.geometry.g as usize;
        let first = self.random.below(self.sizes.marks / g - 1);
        self.shelf.marks.change(|marks| marks[first * g..][..2 * g].fill(1));
    }
}

/// A number that is too high for a bound: by one, by some, or by very much.
fn beyond(random: &mut Random, bound: u32) -> u32 {
    let (some, any) = (random.below(300) as u32, random.next() as u32);
    random.pick(&[bound, bound + some, u32::MAX, any.max(bound)])
}

/// Another length than the right one.
fn other(right: usize, random: &mut Random) -> usize {
    random.pick(&[0, right - 1, right / 2, right + 1, right + REDZONE])
}

/// The sizes of the geometry with the most bytes, which 32 bits don't hold.
pub fn largest_sizes(all_pairs_of_91: &Design, model: &mut Model) -> Result<(), String> {
    let bytes = || Twice::of(&[], 0);
    let mut shelf = Shelf { array: bytes(), marks: bytes(), bytes: bytes(), list: Twice::of(&[], 0) };
    let step = Step { g: 13, u: 4096, array: 0, marks: 0, call: Call::Sizes };
    let ours = step.ours(all_pairs_of_91, &mut shelf);
    let theirs = step.theirs(all_pairs_of_91, &mut shelf, model);
    if ours == theirs { Ok(()) } else { Err(format!("{step:?}: {ours:?}, independently {theirs:?}")) }
}
