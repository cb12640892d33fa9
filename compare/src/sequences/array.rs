//! The array that a sequence of calls is about: what a caller has to know of it to aim.

use crate::given::Given;
use crate::pool::Design;
use compare::model::{Geometry, Model, Place, Plant, Sizes};
use compare::random::Random;

/// The most bytes of an array of a sequence.
const MOST: usize = 1 << 20;

/// Arrays of more bytes are drawn less often.
const SMALL: usize = 1 << 16;

/// Lengths of a unit at which a loop may turn: around powers of two.
const EDGES: [usize; 26] =
    [1, 2, 3, 7, 8, 9, 15, 16, 17, 31, 32, 33, 63, 64, 65, 127, 128, 129, 511, 512, 513, 1023, 2048, 4095, 4095, 4096];

/// The bytes of a unit, of which `room` and 4,096 are the most: often few, or around a power of two.
fn unit(room: usize, random: &mut Random) -> usize {
    let most = room.min(4096);
    match random.below(16) {
        0 => most,
        1 => random.pick(&[4093, 4094, 4095]).min(most),
        2 => 1 + random.below(most),
        3..=7 => random.pick(&EDGES).min(most),
        8..=10 => 1 + random.below(most.min(40)),
        11..=13 => 1 + random.below(most.min(8)),
        _ => 1,
    }
}

/// A valid geometry with its sizes. The independent program that is asked here never has a fault planted.
pub struct Array {
    pub given: Given,
    pub sizes: Sizes,
    model: Model,
}

impl Array {
    pub fn of(given: Given) -> Array {
        let mut model = Model::new(Plant::NONE);
        let sizes = model.sizes(&given.geometry(&given.list)).expect("the geometry is valid");
        Array { given, sizes, model }
    }

    /// An array of at most 1 MB with the design; many small ones, some of the largest u that fits.
    pub fn drawn(design: &Design, random: &mut Random) -> Array {
        let Design { v, k, ref numbers } = *design;
        let units = |g: u32| (v * g * (v - 1) / (k - 1) * g) as usize;
        let groups: Vec<u32> = design.groups().into_iter().filter(|g| units(*g) <= MOST).collect();
        loop {
            let g = random.pick(&groups).min(random.pick(&groups));
            let u = unit(MOST / units(g), random);
            if random.one_in(1 + units(g) * u / SMALL) {
                return Array::of(Given { v, k, g, u: u as u32, list: numbers.clone() });
            }
        }
    }

    pub fn bytes(&self) -> usize {
        self.sizes.bytes as usize
    }

    fn asked(&mut self) -> (&mut Model, Geometry<'_>) {
        (&mut self.model, self.given.geometry(&self.given.list))
    }

    /// The four units of a user unit, if there is one of this number.
    pub fn four(&mut self, user_unit: u32) -> Option<[Place; 4]> {
        let (model, geometry) = self.asked();
        model.map(&geometry, user_unit).ok().map(|map| [map.data, map.outer, map.inner, map.both])
    }

    /// Where a unit starts in the array.
    pub fn start(&self, place: Place) -> usize {
        (place.disk * self.sizes.units + place.unit) as usize * self.given.u as usize
    }

    /// Makes all parities right.
    pub fn settle(&mut self, array: &mut [u8]) {
        let (model, geometry) = self.asked();
        model.settle(&geometry, array).expect("the array has its length");
    }
}
