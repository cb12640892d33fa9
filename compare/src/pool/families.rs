//! Triple systems and cyclic difference families.

use super::{sorted, Design};

/// Bose's triple system of 6n+3 groups.
pub fn triples_of_bose(n: u16) -> Design {
    let m = 2 * n + 1;
    let at = |x: u16, level: u16| x % m + level % 3 * m;
    let mut rows: Vec<Vec<u16>> = (0..m).map(|x| vec![at(x, 0), at(x, 1), at(x, 2)]).collect();
    for level in 0..3 {
        for x in 0..m {
            rows.extend((x + 1..m).map(|y| sorted(vec![at(x, level), at(y, level), at((x + y) * (n + 1), level + 1)])));
        }
    }
    Design::of_rows((6 * n + 3).into(), rows)
}

/// Skolem's triple system of 6n+1 groups; the last group is the point at infinity.
pub fn triples_of_skolem(n: u16) -> Design {
    let m = 2 * n;
    let at = |x: u16, level: u16| x + level % 3 * m;
    let product = |x: u16, y: u16| (x + y) % m / 2 + (x + y) % 2 * n;
    let mut rows: Vec<Vec<u16>> = (0..n).map(|x| vec![at(x, 0), at(x, 1), at(x, 2)]).collect();
    for level in 0..3 {
        rows.extend((0..n).map(|x| sorted(vec![6 * n, at(n + x, level), at(x, level + 1)])));
        for x in 0..m {
            rows.extend((x + 1..m).map(|y| sorted(vec![at(x, level), at(y, level), at(product(x, y), level + 1)])));
        }
    }
    Design::of_rows((6 * n + 1).into(), rows)
}

/// Known difference families: all sets with all additions modulo v.
pub const FAMILIES: [(u16, &[&[u16]]); 4] = [
    (37, &[&[0, 1, 3, 24], &[0, 4, 26, 32], &[0, 10, 18, 30]]),
    (41, &[&[0, 1, 4, 11, 29], &[0, 2, 8, 17, 22]]),
    (49, &[&[0, 1, 3, 8], &[0, 4, 18, 29], &[0, 6, 21, 33], &[0, 9, 19, 32]]),
    (91, &[&[0, 1, 3, 7, 25, 38], &[0, 5, 20, 32, 46, 75], &[0, 8, 17, 47, 57, 80]]),
];

pub fn cyclic(v: u16, sets: &[&[u16]]) -> Design {
    let moved = |set: &[u16], by: u16| sorted(set.iter().map(|member| (member + by) % v).collect());
    Design::of_rows(v.into(), sets.iter().flat_map(|set| (0..v).map(|by| moved(set, by))).collect())
}
