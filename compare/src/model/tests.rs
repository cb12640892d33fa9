//! Document 01's examples that concern the mapping, and design F's parts.

mod array;
mod plan;
mod rebuild;

use super::{Geometry, Map, Model, Place, Plant, Refusal, Role};

/// Document 000's equation 1.
const F: [u16; 21] = [0, 2, 6, 0, 1, 3, 1, 2, 4, 2, 3, 5, 3, 4, 6, 0, 4, 5, 1, 5, 6];

fn f(g: u32) -> Geometry<'static> {
    Geometry { v: 7, k: 3, g, u: 1, design: &F }
}

fn model() -> Model {
    Model::new(Plant::NONE)
}

fn places(map: Map) -> [(u32, u32); 4] {
    [map.data, map.outer, map.inner, map.both].map(|Place { disk, unit }| (disk, unit))
}

fn refused(number: u32, place: u32) -> Refusal {
    Refusal { number, place }
}

#[test]
fn design_f_has_the_sizes_of_document_01() {
    let sizes = model().sizes(&f(3)).unwrap();
    assert_eq!((sizes.disks, sizes.units, sizes.user_units, sizes.sets), (21, 9, 84, 105));
    assert_eq!((sizes.parts, sizes.tuples, sizes.bytes), (3, 7, 189));
}

#[test]
fn examples_1_to_5_map_user_units_of_f() {
    let mut model = model();
    assert_eq!(model.map(&f(3), 0).unwrap().data, Place { disk: 0, unit: 0 });
    assert_eq!(places(model.map(&f(3), 4).unwrap()), [(1, 1), (18, 1), (2, 2), (19, 2)]);
    assert_eq!(places(model.map(&f(3), 11).unwrap()), [(6, 1), (19, 1), (7, 2), (20, 2)]);
    assert_eq!(places(model.map(&f(3), 83).unwrap()), [(15, 7), (19, 7), (16, 8), (20, 8)]);
    assert_eq!(model.map(&f(3), 84), Err(refused(10, 0)));
}

#[test]
fn example_9_names_the_lowest_pair() {
    let mut design = F;
    design[18..].copy_from_slice(&[1, 4, 6]);
    assert_eq!(model().check(7, 3, &design), Err(refused(5, 11)));
}

#[test]
fn example_10_refuses_51_groups_in_rows_of_8() {
    for length in [0, 1, 51 * 8, 408, 400] {
        assert_eq!(model().check(51, 8, &vec![0; length]), Err(refused(3, 0)));
    }
}

#[test]
fn example_11_refuses_nine_disks_a_group() {
    assert_eq!(model().sizes(&f(9)), Err(refused(6, 0)));
}

#[test]
fn example_12_is_the_smallest_array() {
    let geometry = Geometry { v: 2, k: 2, g: 2, u: 1, design: &[0, 1] };
    let sizes = model().sizes(&geometry).unwrap();
    assert_eq!((sizes.disks, sizes.units, sizes.user_units), (4, 2, 2));
}

#[test]
fn each_group_of_f_has_its_parts_in_the_order_of_the_rows_that_name_it() {
    let rows = [[0, 1, 5], [1, 2, 6], [0, 2, 3], [1, 3, 4], [2, 4, 5], [3, 5, 6], [0, 4, 6]];
    for g in [3, 5, 7] {
        let mut model = model();
        for (group, tuples) in rows.into_iter().enumerate() {
            for (part, tuple) in tuples.into_iter().enumerate() {
                let parity = model.role(&f(g), group as u32 * g, part as u32 * g + g - 1);
                assert!(matches!(parity, Ok(Role::Inner { t, .. }) if t == tuple));
            }
        }
    }
}

#[test]
fn every_unit_has_one_role_and_every_user_unit_comes_back() {
    for g in [3, 5, 7, 11, 13] {
        let mut model = model();
        let sizes = model.sizes(&f(g)).unwrap();
        let (mut users, mut outer, mut inner) = (0, 0, 0);
        for disk in 0..sizes.disks {
            for unit in 0..sizes.units {
                match model.role(&f(g), disk, unit).unwrap() {
                    Role::User(n) => {
                        users += 1;
                        assert_eq!(model.map(&f(g), n).unwrap().data, Place { disk, unit });
                    }
                    Role::Outer { .. } => outer += 1,
                    Role::Inner { .. } => inner += 1,
                }
            }
        }
        assert_eq!((users, outer + inner), (sizes.user_units, sizes.sets));
    }
}

#[test]
fn the_fifth_held_set_is_57() {
    assert_eq!(model().fill(51, &mut [0; 408]), Err(refused(1, 0)));
    assert_eq!(model().fill(57, &mut [0; 455]), Err(refused(3, 0)));
    for (v, k) in [(7, 3), (13, 4), (21, 5), (31, 6), (57, 8), (73, 9), (91, 10)] {
        let mut design = vec![0; v * k];
        assert_eq!(model().fill(v as u32, &mut design), Ok(()));
        assert_eq!(model().check(v as u32, k as u32, &design), Ok(()));
    }
}

#[test]
fn the_limits_come_before_anything_is_divided() {
    for (v, k) in [(0, 0), (0, 2), (1, 1), (2, 0), (2, 1), (2, 3), (9, 10), (92, 2), (91, 11), (u32::MAX, u32::MAX)] {
        assert_eq!(model().check(v, k, &[]), Err(refused(2, 0)));
    }
    assert_eq!(model().check(2, 2, &[]), Err(refused(3, 0)));
}

#[test]
fn the_largest_array_is_counted_beyond_32_bits() {
    let design: Vec<u16> = (0..91).flat_map(|a| (a + 1..91).flat_map(move |b| [a, b])).collect();
    let sizes = model().sizes(&Geometry { v: 91, k: 2, g: 13, u: 4096, design: &design }).unwrap();
    assert_eq!((sizes.user_units, sizes.sets, sizes.bytes), (638_820, 745_290, 5_669_314_560));
}
