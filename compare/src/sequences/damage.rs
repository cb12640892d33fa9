//! Damage that the harness does to an array before it is audited.

use super::array::Array;
use super::pair::Damage;
use compare::model::Place;
use compare::random::Random;

/// One way to damage an array. Where a difference goes into some of the four units of a write, it is found by the sets
/// that have an odd number of them, and into all four by none.
pub fn damage(array: &mut Array, random: &mut Random) -> Damage {
    let (bytes, byte) = (array.bytes(), 1 + random.below(255) as u8);
    match random.below(9) {
        0 => vec![(random.pick(&[0, bytes - 1]), byte)],
        1 => vec![(last_parity(array, random), byte)],
        2 => (0..1 + random.below(40)).map(|_| (random.below(bytes), 1 << random.below(8))).collect(),
        3..=5 => some_of_four(array, byte, random),
        6 => vec![(end_of_a_unit(array, random), byte)],
        _ => vec![(random.below(bytes), byte)],
    }
}

/// All bytes of lost disks, of nine at most: rebuild has to look at none of them.
pub fn scrambled(array: &Array, marks: &[u8], random: &mut Random) -> Damage {
    let disk = array.bytes() / marks.len();
    let lost = (0..marks.len()).filter(|disk| marks[*disk] == 1).take(9);
    let bytes: Vec<usize> = lost.flat_map(|lost| lost * disk..(lost + 1) * disk).collect();
    let with = random.bytes(bytes.len());
    bytes.into_iter().zip(with).collect()
}

/// A byte of the last inner parity of the last tuple's last region: it lies in the last set alone. Its group is the last
/// number of the design, its unit the last of that group's last part, its column 0.
fn last_parity(array: &Array, random: &mut Random) -> usize {
    let group = array.given.list.last().copied().map_or(0, u32::from);
    let place = Place { disk: group * array.given.g, unit: array.sizes.units - 1 };
    array.start(place) + random.below(array.given.u as usize)
}

/// The first or the last byte of some unit.
fn end_of_a_unit(array: &Array, random: &mut Random) -> usize {
    let u = array.given.u as usize;
    random.below(array.bytes() / u) * u + random.pick(&[0, u - 1])
}

/// The same difference in some of the four units of a user unit, three of them as often as any other choice.
fn some_of_four(array: &mut Array, byte: u8, random: &mut Random) -> Damage {
    let user_unit = random.below(array.sizes.user_units as usize) as u32;
    let four = array.four(user_unit).expect("the user unit is below their number");
    let chosen = random.pick(&[0b0111, 0b1011, 0b1101, 0b1110, 0b1111, 0b0001, 0b0011, 0b0101, 0b1010, 0b1100]);
    let at = random.below(array.given.u as usize);
    let units = four.into_iter().enumerate().filter(|(index, _)| chosen >> index & 1 == 1);
    units.map(|(_, place)| (array.start(place) + at, byte)).collect()
}

#[test]
fn the_last_parity_lies_in_the_last_set_alone() {
    use crate::pool::all;
    use compare::model::{Audit, Model, Plant};
    let (mut random, mut model) = (Random::new(1), Model::new(Plant::NONE));
    for design in all().into_iter().filter(|design| design.cost() < 10_000) {
        let array = Array::drawn(&design.relabelled(&mut random), &mut random);
        let mut bytes = vec![0; array.bytes()];
        bytes[last_parity(&array, &mut random)] = 1;
        let found = model.audit(&array.given.geometry(&array.given.list), &bytes);
        assert_eq!(found, Ok(Audit { bad: 1, lowest: array.sizes.sets - 1 }));
    }
}
