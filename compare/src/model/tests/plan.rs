//! The plan for one disk and its printer.

use super::{f, model, refused};
use crate::model::Geometry;

/// What document 01 prints for `7 3 9`.
const PRINTED: &str = "0 0 0\n0 3 0\n1 1 1\n1 5 1\n2 10 0\n2 11 1\n3 6 3\n3 15 0\n4 8 4\n4 16 1\n5 10 3\n5 11 4\n\
                       6 12 3\n6 18 0\n7 13 4\n7 20 1\n8 10 6\n8 11 7\n";

#[test]
fn the_printer_prints_the_plan_of_document_01() {
    let mut model = model();
    for line in ["7 3 9", "7 3 9\n", "007 3 000000009\n"] {
        assert_eq!(model.print(line.as_bytes()), PRINTED, "{line:?}");
    }
}

#[test]
fn a_line_of_another_form_is_unread() {
    let mut model = model();
    let lines: [&[u8]; 18] = [
        b"",
        b"\n",
        b"7 3",
        b"7 3 ",
        b" 7 3 9",
        b"7 3 9 ",
        b"7  3 9",
        b"7\t3 9",
        b"+7 3 9",
        b"-7 3 9",
        b"7 3 9\r\n",
        b"7 3 9\n\n",
        b"7 3 9\n7 3 9",
        b"7 3 9 1",
        b"7 3 0000000009",
        b"7 3 9\0",
        b"7 3 a",
        b"7 3 \xD9\xA9",
    ];
    for line in lines {
        assert_eq!(model.print(line), "unread\n", "{line:?}");
    }
}

#[test]
fn the_printer_refuses_by_1_then_6_then_9() {
    let mut model = model();
    let lines = [("51 4 999", 1), ("0 0 0", 1), ("999999999 3 0", 1), ("7 4 999", 6), ("7 2 0", 6), ("7 3 21", 9)];
    for (line, number) in lines {
        assert_eq!(model.print(line.as_bytes()), format!("refused {number}\n"), "{line}");
    }
}

#[test]
fn the_plan_leaves_the_rest_of_its_list() {
    let (mut model, mut list, mut held) = (model(), vec![7; 60], [0; 21]);
    model.fill(7, &mut held).unwrap();
    assert_eq!(model.plan(&Geometry { design: &held, ..f(3) }, 9, &mut list), Ok(18));
    let printed: Vec<u32> = PRINTED.split_whitespace().map(|word| word.parse().unwrap()).collect();
    assert_eq!((&list[..54], &list[54..]), (&printed[..], &[7; 6][..]));
}

#[test]
fn the_plan_is_refused_by_9_then_14() {
    let (mut model, mut list) = (model(), vec![7; 53]);
    assert_eq!(model.plan(&f(4), 21, &mut list), Err(refused(6, 0)));
    assert_eq!(model.plan(&f(3), 21, &mut list), Err(refused(9, 0)));
    assert_eq!(model.plan(&f(3), 20, &mut list), Err(refused(14, 0)));
    assert_eq!(model.plan(&f(3), 20, &mut []), Err(refused(14, 0)));
    assert_eq!(list, [7; 53]);
}

#[test]
fn a_plan_reads_each_unit_of_other_disks_and_as_many_as_document_01_says() {
    let complete: Vec<u16> = (0..6).flat_map(|a| (a + 1..6).flat_map(move |b| [a, b])).collect();
    let graph = Geometry { v: 6, k: 2, g: 5, u: 1, design: &complete };
    for geometry in [f(3), f(5), f(13), graph] {
        let (mut model, Geometry { k, g, .. }) = (model(), geometry);
        let sizes = model.sizes(&geometry).unwrap();
        for disk in 0..sizes.disks {
            let mut list = vec![0; 20_000];
            let count = model.plan(&geometry, disk, &mut list).unwrap();
            assert_eq!(count, sizes.parts * (g - 1) * k);
            let triples: Vec<&[u32]> = list[..3 * count as usize].chunks(3).collect();
            assert!(triples.windows(2).all(|two| two[0][0] <= two[1][0]));
            assert!((0..sizes.units).all(|unit| triples.iter().any(|triple| triple[0] == unit)));
            assert!(triples.iter().all(|triple| triple[1] != disk));
        }
    }
}
