//! Rebuild: document 01's examples 6 to 8, and design F by hand.

use super::{f, model, refused, F};
use crate::model::{Audit, Geometry, Model, Refusal};

/// Design F with g = 3 and units of two bytes: 21 disks of 18 bytes.
const PAIRS: Geometry = Geometry { v: 7, k: 3, g: 3, u: 2, design: &F };

fn marked(disks: u32, lost: &[usize]) -> Vec<u8> {
    let mut marks = vec![0; disks as usize];
    lost.iter().for_each(|disk| marks[*disk] = 1);
    marks
}

/// Bytes of a length that differ from one another; with right parities if `settled`.
fn bytes(model: &mut Model, geometry: &Geometry, settled: bool) -> Vec<u8> {
    let length = model.sizes(geometry).unwrap().bytes as u32;
    let mut array: Vec<u8> = (0..length).map(|at| (at.wrapping_mul(0x9E37_79B9) >> 13) as u8).collect();
    if settled {
        model.settle(geometry, &mut array).unwrap();
    }
    array
}

/// Loses the disks of an array with right parities: the answer, after a look at every byte and mark.
fn lose(geometry: &Geometry, lost: &[usize]) -> Result<u32, Refusal> {
    let mut model = model();
    let (right, sizes) = (bytes(&mut model, geometry, true), model.sizes(geometry).unwrap());
    let (mut array, mut marks) = (right.clone(), marked(sizes.disks, lost));
    let disk = array.len() / sizes.disks as usize;
    lost.iter().for_each(|lost| array[lost * disk..][..disk].fill(0xEE));
    let before = array.clone();
    let answer = model.rebuild(geometry, &mut array, &mut marks);
    assert_eq!(array, if answer.is_ok() { right } else { before });
    assert_eq!(marks, marked(sizes.disks, if answer.is_ok() { &[] } else { lost }));
    answer
}

#[test]
fn examples_6_to_8_and_the_nine_disks() {
    for geometry in [f(3), PAIRS] {
        assert_eq!(lose(&geometry, &[]), Ok(0));
        assert_eq!(lose(&geometry, &[0, 1, 2, 3]), Ok(36));
        assert_eq!(lose(&geometry, &[0, 1, 3, 4]), Err(refused(13, 1)));
        assert_eq!(lose(&geometry, &[0, 1, 2, 3, 6, 9, 12, 15, 18]), Ok(81));
    }
}

#[test]
fn with_five_disks_a_group_two_groups_may_lack_two() {
    assert_eq!(lose(&f(5), &[0, 1, 5, 7]), Ok(60));
    let refused = (0..100).filter(|n| lose(&f(5), &pairs_of_five(*n)).is_err()).count();
    assert_eq!(refused, 30);
}

/// Two disks of group 0 and two of group 1, in one of 100 ways.
fn pairs_of_five(number: usize) -> [usize; 4] {
    let pairs: Vec<[usize; 2]> = (0..5).flat_map(|a| (a + 1..5).map(move |b| [a, b])).collect();
    let ([a, b], [c, d]) = (pairs[number / 10], pairs[number % 10]);
    [a, b, 5 + c, 5 + d]
}

#[test]
fn a_unit_comes_from_its_outer_set_where_both_sets_allow_it() {
    // Disk 0 of F: unit 0 has label 0 with 6/0 and 18/0, unit 1 label 3 with 7/1 and 20/1; unit 2 is the parity of the
    // diagonal with 1/0 and 2/1.
    let mut model = model();
    let mut array = bytes(&mut model, &f(3), false);
    let before = array.clone();
    assert_ne!(model.audit(&f(3), &array), Ok(Audit { bad: 0, lowest: 0 }));
    assert_eq!(model.rebuild(&f(3), &mut array, &mut marked(21, &[0])), Ok(9));
    let at = |disk: usize, unit: usize| before[disk * 9 + unit];
    assert_eq!(array[..3], [at(6, 0) ^ at(18, 0), at(7, 1) ^ at(20, 1), at(1, 0) ^ at(2, 1)]);
    assert_eq!(array[9..], before[9..]);
}

#[test]
fn later_visits_of_a_pass_see_what_it_restored() {
    // Label 0 of the first tuple lacks 0/0 and 6/0. 0/0 comes from its diagonal with 1/1 and 2/2, and then 6/0 from its
    // outer set, though its diagonal with 7/1 and 8/2 is there too.
    let mut model = model();
    let mut array = bytes(&mut model, &f(3), false);
    let before = array.clone();
    assert_eq!(model.rebuild(&f(3), &mut array, &mut marked(21, &[0, 6])), Ok(18));
    let at = |disk: usize, unit: usize| before[disk * 9 + unit];
    assert_eq!(array[0], at(1, 1) ^ at(2, 2));
    assert_eq!(array[6 * 9], array[0] ^ at(18, 0));
    assert_ne!(array[6 * 9], at(7, 1) ^ at(8, 2));
}

#[test]
fn lengths_and_marks_are_refused_in_their_order() {
    let (mut model, mut array, mut marks) = (model(), vec![7; 378], vec![1; 21]);
    (marks[9], marks[4]) = (2, 255);
    assert_eq!(model.rebuild(&PAIRS, &mut array[1..], &mut marks), Err(refused(7, 0)));
    assert_eq!(model.rebuild(&PAIRS, &mut array, &mut marks[1..]), Err(refused(7, 0)));
    assert_eq!(model.rebuild(&PAIRS, &mut array, &mut marks), Err(refused(8, 4)));
    assert_eq!(model.rebuild(&PAIRS, &mut array, &mut [1; 21]), Err(refused(13, 0)));
    assert_eq!(array, [7; 378]);
    assert_eq!(model.rebuild(&PAIRS, &mut array, &mut [0; 21]), Ok(0));
    assert_eq!(array, [7; 378]);
}
