//! From a raw string of bytes to a call. Every string is one: what it lacks is 0.

use crate::call::{Call, Kind};
use crate::given::Given;
use crate::pool::Design;
use crate::sequences::call::{Call as ArrayCall, Kind as ArrayKind};
use crate::sequences::pair::Step;
use compare::random::Random;

/// The most bytes of an array, and of any other list of raw length.
const MOST: u64 = 1 << 13;

/// Bounds of the rules and of the machine's numbers.
const BOUNDS: [u64; 10] =
    [4095, 4096, 4097, 0xFFFF, 0x1_0000, 0xFFFF_FFFF, 0x1_0000_0000, 1 << 63, u64::MAX - 1, u64::MAX];

/// A call without an array, or a step on one with the bytes it holds and where it starts.
pub enum Decoded {
    Plain(Call),
    Array(Step, Vec<u8>, usize),
}

/// The rest of a string.
struct Raw<'a>(std::slice::Iter<'a, u8>);

impl Raw<'_> {
    fn byte(&mut self) -> u8 {
        self.0.next().copied().unwrap_or(0)
    }

    fn wide(&mut self, bytes: usize) -> u64 {
        (0..bytes).fold(0, |number, _| number << 8 | u64::from(self.byte()))
    }

    /// A number: small ones are one byte, the others have a form.
    fn number(&mut self) -> u64 {
        match self.byte() {
            250 => BOUNDS[usize::from(self.byte()) % BOUNDS.len()],
            251 => self.wide(8),
            252 => self.wide(2),
            253 => self.wide(4),
            254 => u64::from(u32::MAX) - u64::from(self.byte()),
            255 => 1 << (self.byte() % 64),
            small => small.into(),
        }
    }

    /// A number that has a bound: the first, the last, the one too high, or any.
    fn below(&mut self, bound: u64) -> u32 {
        let number = match self.byte() {
            0 => 0,
            1 => bound.saturating_sub(1),
            2 => bound,
            _ => self.number(),
        };
        number as u32
    }

    /// An offset: at the unit's beginning, its end, so high that a sum wraps or 32 bits don't hold it, or any.
    fn offset(&mut self, u: u32) -> u64 {
        match self.byte() {
            low @ (0 | 1) => low.into(),
            2 => u.into(),
            3 => u64::MAX,
            4 => 1 << 32,
            _ => self.number(),
        }
    }

    /// A length: the right one, one near it, none, or any.
    fn length(&mut self, right: u64) -> usize {
        let length = match self.byte() {
            0 => right,
            1 => right.saturating_sub(1),
            2 => right.saturating_add(1),
            3 => 0,
            _ => self.number(),
        };
        length.min(MOST) as usize
    }

    /// Few of what a function makes of the string.
    fn few<T>(&mut self, most: u8, mut one: impl FnMut(&mut Self) -> T) -> Vec<T> {
        (0..self.byte() % most).map(|_| one(self)).collect()
    }

    /// The numbers and the design: one of the pool or a raw one, with some of its numbers changed.
    fn given(&mut self, pool: &[Design]) -> Given {
        let source = usize::from(self.byte());
        let [v, k, g, u] = [0; 4].map(|_: u32| self.number() as u32);
        let mut list = match source.checked_sub(1).and_then(|at| pool.get(at)) {
            Some(design) => design.numbers.clone(),
            None => self.few(64, |raw| raw.number() as u16),
        };
        for (at, number) in self.few(4, |raw| (raw.number(), raw.number() as u16)) {
            if let Some(changed) = list.get_mut(at as usize) {
                *changed = number;
            }
        }
        list.truncate(list.len() - usize::from(self.byte() == 1).min(list.len()));
        Given { v, k, g, u, list }
    }

    fn step(&mut self, kind: ArrayKind, given: Given, aim: &Aim) -> Decoded {
        let (user_unit, offset) = (self.below(aim.user_units), self.offset(given.u));
        let (array, marks) = (self.length(aim.bytes), self.length(aim.disks));
        let mut marked = vec![0; marks];
        for (disk, more, mark) in self.few(6, |raw| (raw.number() as usize, usize::from(raw.byte() % 16), raw.byte())) {
            let lost = marked.iter_mut().skip(disk).take(1 + more);
            lost.for_each(|to| *to = mark.max(1));
        }
        let length = self.number().min(MOST) as usize;
        let (null, shift, mut random) = (self.byte() == 1, usize::from(self.byte() % 64), Random::new(self.number()));
        let bytes = random.bytes(length);
        let call = ArrayCall { kind, given, array, marks, user_unit, offset, bytes, null };
        let step = Step { marks: marked, damage: Vec::new(), repair: false, call };
        Decoded::Array(step, random.bytes(array), shift)
    }
}

/// The bounds of a geometry, if it is valid. They are only aimed at: a wrong one would show in the counts.
struct Aim {
    disks: u64,
    units: u64,
    user_units: u64,
    bytes: u64,
    plan: u64,
}

impl Aim {
    fn at(given: &Given) -> Aim {
        let [v, k, g] = [given.v, given.k, given.g].map(|number| u64::from(number.min(100)));
        let (tuples, rows) = (given.list.len() as u64 / k.max(1), g.saturating_sub(1));
        let parts = v.saturating_sub(1) / k.saturating_sub(1).max(1);
        let (disks, units) = (v * g, parts * g);
        let bytes = (disks * units).saturating_mul(given.u.into());
        Aim { disks, units, user_units: tuples * k.saturating_sub(1) * rows * g, bytes, plan: 3 * parts * rows * k }
    }
}

pub fn decoded(input: &[u8], pool: &[Design]) -> Decoded {
    let mut raw = Raw(input.iter());
    let kind = usize::from(raw.byte()) % (Kind::ALL.len() + ArrayKind::ALL.len());
    let given = raw.given(pool);
    let aim = Aim::at(&given);
    if let Some(kind) = kind.checked_sub(Kind::ALL.len()) {
        return raw.step(ArrayKind::ALL[kind], given, &aim);
    }
    let (user_unit, disk, unit) = (raw.below(aim.user_units), raw.below(aim.disks), raw.below(aim.units));
    let room = raw.length(aim.plan);
    Decoded::Plain(Call { kind: Kind::ALL[kind], given, user_unit, disk, unit, room })
}

/// A string for a valid call of each kind with each design. Of a call on an array, the range has one byte at offset 1.
pub fn seeds(pool: &[Design]) -> Vec<Vec<u8>> {
    let calls = 0..(Kind::ALL.len() + ArrayKind::ALL.len()) as u8;
    let with = |kind: u8, (design, source): (&Design, u8)| {
        let g = design.groups()[0] as u8;
        let mut input = vec![kind, source, design.v as u8, design.k as u8, g, 3];
        input.extend([0, 0, 0, 1, 0, 0, 0, 1]);
        input.resize(26, 0);
        input
    };
    calls.flat_map(|kind| pool.iter().zip(1..).map(move |numbered| with(kind, numbered))).collect()
}

#[test]
fn every_string_is_a_call() {
    let (pool, mut random) = ([Design::f()], Random::new(1));
    let kind = |input: &[u8]| match decoded(input, &pool) {
        Decoded::Plain(call) => call.kind.name(),
        Decoded::Array(step, ..) => step.call.kind.name(),
    };
    assert_eq!(kind(&[]), "fill");
    assert_eq!(kind(&[10]), "rebuild");
    (0..1000).for_each(|length| assert!(!kind(&random.bytes(length)).is_empty()));
}
