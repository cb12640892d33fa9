//! The calls on the array: design F by hand, and what the sets say of other geometries.

use super::{f, model, refused, F};
use crate::model::{Audit, Geometry, Model, Place, Role};

const CONSISTENT: Audit = Audit { bad: 0, lowest: 0 };

/// Design F with g = 3 and units of two bytes: 21 disks of 18 bytes.
const PAIRS: Geometry = Geometry { u: 2, ..F3 };
const F3: Geometry = Geometry { v: 7, k: 3, g: 3, u: 1, design: &F };

/// The bytes of F with g = 3 and u = 1 in which user unit n holds n+1.
fn numbered(model: &mut Model) -> Vec<u8> {
    let mut array = vec![0; 189];
    for n in 0..84 {
        assert_eq!(model.write(&F3, &mut array, &[0; 21], n, 0, &[n as u8 + 1]), Ok(()));
    }
    array
}

/// The byte of a disk's unit, on F with g = 3 and u = 1.
fn at(array: &[u8], disk: usize, unit: usize) -> u8 {
    array[disk * 9 + unit]
}

#[test]
fn format_clears_the_array_and_the_marks() {
    let (mut array, mut marks) = (vec![0xEE; 378], [1; 21]);
    assert_eq!(model().format(&PAIRS, &mut array, &mut marks), Ok(()));
    assert_eq!((array, marks), (vec![0; 378], [0; 21]));
}

#[test]
fn a_write_changes_the_four_units_of_example_2_and_no_other_byte() {
    let (mut model, mut array) = (model(), vec![0; 378]);
    assert_eq!(model.write(&PAIRS, &mut array, &[0; 21], 4, 1, &[0x5A]), Ok(()));
    let mut expected = vec![0; 378];
    for (disk, unit) in [(1, 1), (18, 1), (2, 2), (19, 2)] {
        expected[disk * 18 + unit * 2 + 1] = 0x5A;
    }
    assert_eq!(array, expected);
    assert_eq!(model.audit(&PAIRS, &array), Ok(CONSISTENT));
    let mut bytes = [7; 2];
    assert_eq!(model.read(&PAIRS, &array, &[0; 21], 4, 0, &mut bytes), Ok(()));
    assert_eq!(bytes, [0, 0x5A]);
}

#[test]
fn the_difference_goes_into_the_parities_not_the_new_bytes() {
    let (mut model, mut array) = (model(), vec![0; 189]);
    assert_eq!(model.write(&F3, &mut array, &[0; 21], 11, 0, &[0x0F]), Ok(()));
    assert_eq!(model.write(&F3, &mut array, &[0; 21], 5, 0, &[0xF0]), Ok(()));
    assert_eq!(model.write(&F3, &mut array, &[0; 21], 11, 0, &[0x01]), Ok(()));
    assert_eq!([at(&array, 6, 1), at(&array, 19, 1), at(&array, 7, 2), at(&array, 20, 2)], [0x01, 0xF1, 0x01, 0xF1]);
    assert_eq!(model.audit(&F3, &array), Ok(CONSISTENT));
}

#[test]
fn the_first_tuple_of_f_has_the_parities_that_figure_4_gives() {
    let mut model = model();
    let array = numbered(&mut model);
    assert_eq!(model.audit(&F3, &array), Ok(CONSISTENT));
    // Figure 4: P0 = 1 ⊕ 5, P1 = 2 ⊕ 3, P2 = 0 ⊕ 4, where label n of group 0 holds n+1.
    assert_eq!([at(&array, 0, 2), at(&array, 1, 2), at(&array, 2, 2)], [2 ^ 6, 3 ^ 4, 1 ^ 5]);
    // Group 6 holds the outer parities of labels 0 1 2 and, shifted, 4 5 3; group 2 holds n+7 at label n.
    assert_eq!([at(&array, 18, 0), at(&array, 19, 0), at(&array, 20, 0)], [1 ^ 7, 2 ^ 8, 3 ^ 9]);
    assert_eq!([at(&array, 18, 1), at(&array, 19, 1), at(&array, 20, 1)], [5 ^ 11, 6 ^ 12, 4 ^ 10]);
    assert_eq!([at(&array, 18, 2), at(&array, 19, 2), at(&array, 20, 2)], [10 ^ 14, 10 ^ 14, 6 ^ 10]);
}

#[test]
fn writes_and_parities_made_right_at_once_give_the_same_array() {
    let mut model = model();
    let written = numbered(&mut model);
    let mut settled = vec![0x99; 189];
    for n in 0..84 {
        let Place { disk, unit } = model.map(&F3, n).unwrap().data;
        settled[(disk * 9 + unit) as usize] = n as u8 + 1;
    }
    assert_ne!(model.audit(&F3, &settled), Ok(CONSISTENT));
    assert_eq!(model.settle(&F3, &mut settled), Ok(()));
    assert_eq!(settled, written);
}

#[test]
fn audit_numbers_the_sets_of_f() {
    let mut model = model();
    // Data in outer set 0 and diagonal 0 of position 0 (6); outer parity in set 0 and diagonal 0 of position 2 (12);
    // the inner parity of set 6; user unit 83, label (1,2) of the last tuple (90 + 5), in diagonal 1 of position 1
    // (90 + 6 + 3 + 1); the parity of the last set.
    let damaged = [(0, 0, 2, 0), (18, 0, 2, 0), (2, 2, 1, 6), (15, 7, 2, 95), (18, 8, 1, 104)];
    for (disk, unit, bad, lowest) in damaged {
        let mut array = numbered(&mut model);
        array[disk * 9 + unit] ^= 0x10;
        assert_eq!(model.audit(&F3, &array), Ok(Audit { bad, lowest }), "{disk}/{unit}");
    }
    assert_eq!(model.audit(&F3, &[1; 189]), Ok(Audit { bad: 105, lowest: 0 }));
}

#[test]
fn lengths_marks_and_ranges_are_refused_in_their_order() {
    let (mut model, mut array, mut marks) = (model(), vec![0; 378], [0; 21]);
    marks[7] = 2;
    marks[3] = 255;
    assert_eq!(model.format(&PAIRS, &mut array[..377], &mut marks), Err(refused(7, 0)));
    assert_eq!(model.format(&PAIRS, &mut array, &mut marks[..20]), Err(refused(7, 0)));
    assert_eq!(model.format(&PAIRS, &mut array, &mut marks), Err(refused(8, 3)));
    assert_eq!(model.write(&PAIRS, &mut array, &marks, 84, 9, &[0]), Err(refused(8, 3)));
    assert_eq!(model.write(&PAIRS, &mut array, &[1; 21], 84, 9, &[0]), Err(refused(10, 0)));
    assert_eq!(model.audit(&PAIRS, &array), Ok(CONSISTENT));
    assert_eq!(model.audit(&PAIRS, &array[1..]), Err(refused(7, 0)));
    for (offset, length) in [(3, 0), (2, 1), (0, 3), (1, 2), (u64::MAX, 0), (u64::MAX, 1), (u64::MAX - 1, 3)] {
        let bytes = vec![1; length];
        assert_eq!(model.write(&PAIRS, &mut array, &[1; 21], 4, offset, &bytes), Err(refused(11, 0)));
        assert_eq!(model.read(&PAIRS, &array, &[1; 21], 4, offset, &mut vec![1; length]), Err(refused(11, 0)));
    }
    for offset in 0..3 {
        assert_eq!(model.write(&PAIRS, &mut array, &[0; 21], 4, offset, &[]), Ok(()));
        assert_eq!(model.read(&PAIRS, &array, &[0; 21], 4, offset, &mut []), Ok(()));
    }
    assert_eq!(array, [0; 378]);
}

#[test]
fn the_place_of_12_is_the_first_named_not_the_lowest() {
    // User 4: data 1, outer parity 18, inner of data 2, inner of outer 19.
    let (mut model, mut array) = (model(), vec![0; 189]);
    let cases: [(&[usize], u32); 5] =
        [(&[1, 2, 18, 19], 1), (&[2, 18], 18), (&[2, 19], 2), (&[19], 19), (&[0, 19], 19)];
    for (lost, place) in cases {
        let mut marks = [0; 21];
        lost.iter().for_each(|disk| marks[*disk] = 1);
        assert_eq!(model.write(&F3, &mut array, &marks, 4, 0, &[1]), Err(refused(12, place)));
        let read = model.read(&F3, &array, &marks, 4, 1, &mut []);
        assert_eq!(read, if place == 1 { Err(refused(12, 1)) } else { Ok(()) });
    }
    assert_eq!(array, [0; 189]);
}

#[test]
fn the_limit_is_tested_without_wrapping() {
    let design: Vec<u16> = (0..91).flat_map(|a| (a + 1..91).flat_map(move |b| [a, b])).collect();
    let mut model = model();
    for (u, length) in [(3104, 1_310_144), (3104, 0), (776, 1_074_069_360)] {
        let geometry = Geometry { v: 91, k: 2, g: 13, u, design: &design };
        assert_eq!(model.read(&geometry, &vec![0; length], &[0; 1183], 0, 0, &mut []), Err(refused(7, 0)));
    }
    let geometry = Geometry { v: 91, k: 2, g: 13, u: 775, design: &design };
    assert_eq!(model.read(&geometry, &vec![0; 1_072_685_250], &[0; 1183], 0, 0, &mut []), Ok(()));
}

#[test]
fn every_set_holds_none_or_two_of_a_users_four_units() {
    let complete = [0, 1, 0, 2, 0, 3, 1, 2, 1, 3, 2, 3];
    let single = [0, 1, 2, 3, 4];
    let graph = |g| Geometry { v: 4, k: 2, g, u: 1, design: &complete };
    for geometry in [f(3), f(5), f(7), graph(2), graph(3), Geometry { v: 5, k: 5, g: 5, u: 1, design: &single }] {
        let mut model = model();
        let sizes = model.sizes(&geometry).unwrap();
        let sets = model.sets_of_last().0.clone();
        assert_eq!(sets.len(), sizes.sets as usize);
        for n in 0..sizes.user_units {
            let map = model.map(&geometry, n).unwrap();
            let four = [map.data, map.outer, map.inner, map.both];
            let held: Vec<usize> =
                sets.iter().map(|set| four.iter().filter(|place| set.contains(place)).count()).collect();
            assert_eq!(held.iter().filter(|count| **count == 2).count(), 3);
            assert!(held.iter().all(|count| matches!(count, 0 | 2)));
        }
    }
}

#[test]
fn the_sets_have_the_numbers_of_document_01() {
    for geometry in [f(3), f(5), f(7)] {
        let (mut model, Geometry { k, g, .. }) = (model(), geometry);
        model.sizes(&geometry).unwrap();
        for (number, set) in model.sets_of_last().0.clone().into_iter().enumerate() {
            let parity = *set.last().unwrap();
            let (tuple, in_tuple) = match model.role(&geometry, parity.disk, parity.unit).unwrap() {
                Role::Outer { t, i, c } => (t, i * g + c),
                Role::Inner { t, l, j } => (t, (g - 1) * g + l * g + j),
                Role::User(_) => panic!("a set's last unit is its parity"),
            };
            assert_eq!(number as u32, tuple * ((g - 1) * g + k * g) + in_tuple);
        }
    }
}

#[test]
fn with_two_groups_in_a_row_the_outer_parity_is_a_copy() {
    let geometry = Geometry { v: 2, k: 2, g: 3, u: 4, design: &[0, 1] };
    let (mut model, mut array) = (model(), vec![0; 72]);
    for n in [0, 1, 2, 3, 4, 5, 1, 1, 5] {
        let bytes = [n as u8 + 1, 0x80 | n as u8, n as u8 ^ 0x55];
        assert_eq!(model.write(&geometry, &mut array, &[0; 6], n, 1, &bytes), Ok(()));
    }
    for n in 0..6 {
        let map = model.map(&geometry, n).unwrap();
        let unit = |place: Place| &array[(place.disk * 3 + place.unit) as usize * 4..][..4];
        assert_eq!(unit(map.data), unit(map.outer));
        assert_eq!(unit(map.data), [0, n as u8 + 1, 0x80 | n as u8, n as u8 ^ 0x55]);
    }
    assert_eq!(model.audit(&geometry, &array), Ok(CONSISTENT));
}
