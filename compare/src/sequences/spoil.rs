//! Ways to spoil a valid call on the array, each aimed at one refusal of document 01; see also `hostile`.

use super::array::Array;
use super::call::Kind;
use super::pair::Step;
use crate::hostile::{beyond, spoil_given};
use crate::lent::REDZONE;
use crate::loss;
use compare::random::Random;

/// Spoils a valid step so that its call should be refused with the number.
pub fn spoil(step: &mut Step, number: u32, array: &mut Array, random: &mut Random) {
    let call = &mut step.call;
    match number {
        7 => lengths(step, array, random),
        8 => marks_above_one(&mut step.marks, random),
        10 => call.user_unit = beyond(array.sizes.user_units, random),
        11 => {
            let (offset, length) = leaving(array.given.u, random);
            call.offset = offset;
            call.bytes = random.bytes(length);
        }
        12 => marked_units(step, array, random),
        13 => {
            let lost = loss::hopeless(array.given.v, array.given.g, random);
            step.marks = loss::marks(array.sizes.disks, &lost);
        }
        _ => spoil_given(&mut call.given, number, random),
    }
}

/// 7: array or marks of another length; or the lengths stay and g or u is another, also allowed.
fn lengths(step: &mut Step, array: &Array, random: &mut Random) {
    let call = &mut step.call;
    let given = &mut call.given;
    match random.below(if call.kind == Kind::Audit { 6 } else { 10 }) {
        0 => given.g = random.pick(&[2, 3, 5, 7, 11, 13]).max(array.given.g),
        1 => given.u = random.pick(&[1, 2, 512, 4096, array.given.u + 1, array.given.u * 2]),
        2..=5 => call.array = another(array.bytes(), array.given.u as usize, random),
        _ => call.marks = another(step.marks.len(), array.given.g as usize, random),
    }
}

/// Another length than the right one: 0, a byte or a piece off, half, any shorter one, or as far as the redzone reaches.
fn another(right: usize, piece: usize, random: &mut Random) -> usize {
    let shorter = random.below(right);
    let longer = right + 1 + random.below(REDZONE);
    random.pick(&[0, 1, right - 1, right - piece, right / 2, shorter, right + 1, right + piece.min(REDZONE), longer])
}

/// 8: marks above 1 on one disk or a few, often the first or the last.
fn marks_above_one(marks: &mut [u8], random: &mut Random) {
    let last = marks.len() - 1;
    for _ in 0..random.pick(&[1, 1, 2, 4]) {
        let any = random.below(marks.len());
        marks[random.pick(&[0, last, any, any, any])] = random.pick(&[2, 2, 3, 127, 128, 254, 255]);
    }
}

/// 12: of read the data disk, of write some of its four disks are marked, and others perhaps.
fn marked_units(step: &mut Step, array: &mut Array, random: &mut Random) {
    let Some(four) = array.four(step.call.user_unit) else { return };
    let first = if step.call.kind == Kind::Read { 0 } else { random.below(4) };
    for place in &four[first..] {
        if place == &four[first] || random.one_in(2) {
            step.marks[place.disk as usize] = 1;
        }
    }
}

/// 11: offset and length of a range that leaves a unit of u bytes, by one byte, by many, or by so many that their sum
/// wraps or that the offset is small in a narrower number.
fn leaving(u: u32, random: &mut Random) -> (u64, usize) {
    let (end, size) = (u64::from(u), u as usize);
    let (offset, length) = inside(u, random);
    let some = 1 + random.below(size);
    let high = 1 << random.pick(&[13, 16, 31, 32, 32, 48, 63]);
    match random.below(10) {
        0 => (end + 1, 0),
        1 => (end, some),
        2 => (0, size + 1),
        3 => (offset, size - offset as usize + some),
        4 => (end + 1 + random.below(3) as u64, length),
        5 => (u64::MAX - random.below(3) as u64, length),
        6 => ((some as u64).wrapping_neg(), some),
        7 => ((some as u64).wrapping_neg(), some + random.below(size)),
        8 => (offset + high, length),
        _ => (random.next().max(end + 1), length),
    }
}

/// Offset and length of a range within a unit of u bytes: the whole, empty at either end, one byte at either end, or any.
pub fn inside(u: u32, random: &mut Random) -> (u64, usize) {
    let size = u as usize;
    let offset = random.below(size + 1);
    let (offset, length) = match random.below(16) {
        0..=2 => (0, size),
        3 => (0, 0),
        4 => (size, 0),
        5 => (offset, 0),
        6 => (0, 1),
        7 => (size - 1, 1),
        8 => (offset, size - offset),
        9 => (0, offset),
        _ => (offset, random.below(size - offset + 1)),
    };
    (offset as u64, length)
}

#[test]
fn ranges_stay_in_the_unit_or_leave_it_as_they_should() {
    let mut random = Random::new(1);
    for u in [1, 2, 3, 40, 4096] {
        for _ in 0..5000 {
            let end = |(offset, length): (u64, usize)| u128::from(offset) + length as u128;
            assert!(end(inside(u, &mut random)) <= u.into());
            assert!(end(leaving(u, &mut random)) > u.into());
        }
    }
}

#[test]
fn another_length_is_never_the_right_one() {
    let mut random = Random::new(1);
    for (right, piece) in [(8, 1), (4, 2), (189, 1), (1 << 20, 4096)] {
        for _ in 0..1000 {
            let length = another(right, piece, &mut random);
            assert!(length != right && length <= right + REDZONE);
        }
    }
}
