//! The calls of a run: fixed corners first, then bursts of calls about one design and one g, valid and hostile mixed.

use crate::call::{Call, Kind};
use crate::given::Given;
use crate::hostile::{beyond, spoil, wild_numbers};
use crate::pool::{self, Design};
use compare::random::Random;

/// An endless stream of calls that the seed settles.
pub struct Generator<'a> {
    random: Random,
    pool: &'a [Design],
    /// How many designs of the pool had their first turn; all have one before any is drawn.
    turns: usize,
    corners: std::vec::IntoIter<Call>,
    burst: Burst,
}

/// A design with a g, and how many calls about it are left. The bounds are only aimed at: a wrong one would show in the
/// counts of what was answered.
struct Burst {
    design: Design,
    g: u32,
    disks: u32,
    units: u32,
    user_units: u32,
    /// The numbers of a plan.
    plan: usize,
    left: usize,
}

impl Burst {
    fn new(design: Design, g: u32, left: usize) -> Burst {
        let (v, k) = (design.v, design.k);
        let tuples = design.numbers.len() as u32 / k;
        let (parts, user_units) = ((v - 1) / (k - 1), tuples * (k - 1) * (g - 1) * g);
        let plan = (3 * parts * (g - 1) * k) as usize;
        Burst { design, g, disks: v * g, units: parts * g, user_units, plan, left }
    }
}

impl<'a> Generator<'a> {
    pub fn new(seed: u64, pool: &'a [Design]) -> Self {
        let burst = Burst::new(Design::f(), 3, 60);
        let corners = corners().into_iter();
        Generator { random: Random::new(seed), pool, turns: 0, corners, burst }
    }

    /// The next design: each of the pool once, then any, the large ones seldom, mostly with other labels.
    fn next_design(&mut self) -> Design {
        if let Some(design) = self.pool.get(self.turns) {
            self.turns += 1;
            return design.clone();
        }
        loop {
            let design = &self.pool[self.random.below(self.pool.len())];
            if self.random.one_in(1 + design.cost() / 20_000) {
                let plain = self.random.one_in(5);
                return if plain { design.clone() } else { design.relabelled(&mut self.random) };
            }
        }
    }

    fn next_burst(&mut self) -> Burst {
        let design = self.next_design();
        let (g, left) = (self.random.pick(&design.groups()), (4_000_000 / design.cost()).clamp(6, 60));
        Burst::new(design, g, left)
    }

    /// A number below the bound, often the first or the last ones.
    fn within(&mut self, bound: u32) -> u32 {
        match self.random.below(8) {
            0 => 0,
            1 => bound - 1,
            2 => bound - 1 - self.random.below(bound.min(16) as usize) as u32,
            _ => self.random.below(bound as usize) as u32,
        }
    }

    /// A list to fill: the right length for a held v or a wrong one, with stale numbers in it; or a v that is not held.
    fn fill(&mut self) -> Call {
        let (mut v, k) = self.random.pick(&pool::HELD);
        let mut length = (v * k) as usize;
        match self.random.below(8) {
            0 => length = self.random.pick(&[0, 1, length - 1, length + 1, 2 * length, length + 65536]),
            1 => length = self.random.below(1000),
            2 => v = self.random.pick(&[0, 1, 2, 6, 8, 9, 12, 51, 56, 58, 90, 92, 133, 183]),
            3 => {
                v = if self.random.one_in(2) { beyond(v + 1, &mut self.random) } else { self.random.below(100) as u32 }
            }
            _ => {}
        }
        let stale = self.random.next();
        let list = (0..length as u64).map(|at| (stale.wrapping_mul(2 * at + 1) >> 40) as u16).collect();
        let given = Given { v, list, ..Given::default() };
        Call { kind: Kind::Fill, given, user_unit: 0, disk: 0, unit: 0, room: 0 }
    }

    /// A valid call about the burst's array.
    fn valid(&mut self, kind: Kind) -> Call {
        let Burst { ref design, g, disks, units, user_units, plan, .. } = self.burst;
        let (v, k, list) = (design.v, design.k, design.numbers.clone());
        let any = 1 + self.random.below(4096) as u32;
        let u = self.random.pick(&[1, 1, 2, 512, 4095, 4096, 4096, any]);
        let (disk, unit, user_unit) = (self.within(disks), self.within(units), self.within(user_units));
        let room = plan + self.random.pick(&[0, 0, 0, 1, 2, 3, 64, plan]);
        Call { kind, given: Given { v, k, g, u, list }, user_unit, disk, unit, room }
    }

    /// A call spoiled for one refusal, sometimes for two: then the one tested first must win.
    fn spoiled(&mut self, kind: Kind) -> Call {
        let mut call = self.valid(kind);
        let aims = 1 + usize::from(self.random.one_in(4));
        for _ in 0..aims {
            let number = self.random.pick(kind.refusals());
            match number {
                9 => (call.disk, call.unit) = (self.burst.disks, self.burst.units),
                10 => call.user_unit = self.burst.user_units,
                14 => call.room = self.burst.plan,
                _ => {}
            }
            spoil(&mut call, number, &mut self.random);
        }
        call
    }

    /// A call in which every number is wild.
    fn wild(&mut self, kind: Kind) -> Call {
        let mut call = self.valid(kind);
        wild_numbers(&mut call.given, &mut self.random);
        (call.disk, call.unit, call.user_unit) = (self.random.wild(), self.random.wild(), self.random.wild());
        call.room = self.random.below(2 * call.room);
        call
    }
}

impl Iterator for Generator<'_> {
    type Item = Call;

    fn next(&mut self) -> Option<Call> {
        if let Some(call) = self.corners.next() {
            return Some(call);
        }
        if self.burst.left == 0 {
            self.burst = self.next_burst();
        }
        self.burst.left -= 1;
        let kind = match self.random.below(24) {
            0 | 1 => return Some(self.fill()),
            2..=4 => Kind::Check,
            5..=8 => Kind::Sizes,
            9..=13 => Kind::Map,
            14..=19 => Kind::Role,
            _ => Kind::Plan,
        };
        Some(match self.random.below(50) {
            0..=27 => self.valid(kind),
            28..=48 => self.spoiled(kind),
            _ => self.wild(kind),
        })
    }
}

/// Calls that every run makes: document 01's examples, and the corners that a random run could miss.
fn corners() -> Vec<Call> {
    let call = |kind, given| Call { kind, given, user_unit: 0, disk: 0, unit: 0, room: 54 };
    let f = Given { v: 7, k: 3, g: 3, u: 1, list: pool::F.to_vec() };
    let map = |user_unit| Call { user_unit, ..call(Kind::Map, f.clone()) };
    let plan = |disk| Call { disk, ..call(Kind::Plan, f.clone()) };
    let mut ninth = f.clone();
    ninth.list[18..].copy_from_slice(&[1, 4, 6]);
    let tenth = |length| call(Kind::Check, Given { v: 51, k: 8, list: vec![0; length], ..Given::default() });
    let twelfth = Given { v: 2, k: 2, g: 2, u: 1, list: vec![0, 1] };
    let mut calls: Vec<Call> = (0..86).map(map).chain((0..22).map(plan)).collect();
    calls.push(Call { disk: 9, ..call(Kind::Plan, Given { list: Design::held(7, 3).numbers, ..f.clone() }) });
    calls.extend([call(Kind::Check, ninth), tenth(0), tenth(360), tenth(408)]);
    calls.push(call(Kind::Sizes, Given { g: 9, ..f.clone() }));
    calls.extend([Kind::Sizes, Kind::Map].map(|kind| call(kind, twelfth.clone())));
    calls.push(call(Kind::Check, Given { list: Vec::new(), ..twelfth }));
    let largest = |u| Given { v: 91, k: 2, g: 13, u, list: Design::complete(91).numbers };
    calls.extend([1, 775, 776, 3104, 4096].map(|u| call(Kind::Sizes, largest(u))));
    calls.extend([6479, 6480].map(|room| Call { disk: 1182, room, ..call(Kind::Plan, largest(4096)) }));
    calls
}
