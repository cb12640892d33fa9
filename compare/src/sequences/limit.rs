//! Arrays near the limit of 1,073,741,824 bytes, and such whose bytes wrap in 32 bits. They hold zeros, and nothing is
//! stored to them but what a write stores and one disk that is rebuilt, so that nearly none of the memory is ever there.

use super::array::Array;
use super::call::{Call, Kind};
use super::crash::{self, At};
use super::pair::{Pair, Shelf, Step};
use crate::given::Given;
use crate::lent::Lent;
use crate::loss;
use crate::pool::Design;
use compare::model::Model;

const LIMIT: u64 = 1_073_741_824;

/// A geometry, how many bytes of zeros are lent for its array, and the calls to make.
struct Corner {
    given: Given,
    lent: u64,
    calls: Vec<Kind>,
}

/// The corners: the arrays nearest to the limit on both sides, the largest geometry around the limit, and the same with a
/// u whose bytes are 1,310,144 in 32 bits. Format comes last, and is never accepted: it would store to every byte.
fn corners(pool: &[Design]) -> Vec<Corner> {
    let all = vec![Kind::Read, Kind::Write, Kind::Audit, Kind::Rebuild, Kind::Format];
    let accepted = vec![Kind::Write, Kind::Read, Kind::Rebuild, Kind::Audit];
    let largest = |u| Given { v: 91, k: 2, g: 13, u, list: Design::complete(91).numbers };
    let (below, above) = nearest(pool);
    vec![
        Corner { lent: bytes(&above), given: above, calls: all.clone() },
        Corner { lent: bytes(&below), given: below, calls: accepted.clone() },
        Corner { lent: bytes(&largest(775)), given: largest(775), calls: accepted },
        Corner { lent: bytes(&largest(776)), given: largest(776), calls: vec![Kind::Audit, Kind::Format] },
        Corner { lent: bytes(&largest(3104)) % (1 << 32), given: largest(3104), calls: all.clone() },
        Corner { lent: 4096, given: largest(4096), calls: all },
    ]
}

/// v·g·r·g·u.
fn bytes(given: &Given) -> u64 {
    let Given { v, k, g, u, .. } = *given;
    [v, g, (v - 1) / (k - 1), g, u].map(u64::from).into_iter().product()
}

/// The largest array of the pool's designs that is within the limit, and the smallest that is above it.
fn nearest(pool: &[Design]) -> (Given, Given) {
    let with = |design: &Design, g, u| Given { v: design.v, k: design.k, g, u, list: design.numbers.clone() };
    let (mut below, mut above) = (None, None);
    for design in pool {
        for g in design.groups() {
            let u = (LIMIT / bytes(&with(design, g, 1))) as u32;
            if (1..4096).contains(&u) {
                below = below.into_iter().chain([with(design, g, u)]).max_by_key(bytes);
                above = above.into_iter().chain([with(design, g, u + 1)]).min_by_key(bytes);
            }
        }
    }
    below.zip(above).expect("the pool reaches the limit")
}

/// Makes the calls of all corners and hands each with its answer to `made`; the error shows the call that failed.
pub fn run(pool: &[Design], model: &mut Model, mut made: impl FnMut(Kind, u32)) -> Result<(), String> {
    let mut number = 0;
    for Corner { given, lent, calls } in corners(pool) {
        let mut array = Array::of(given);
        let marks = vec![0; array.sizes.disks as usize];
        let shelf = || Shelf { array: Lent::zeros(lent as usize, 5), marks: Lent::of(&marks, 0) };
        let mut pair = Pair::of(shelf(), shelf(), 0);
        for kind in calls {
            crash::at(At::Limit, 0, number);
            let step = step(kind, &mut array, lent as usize);
            let answer = pair.step(&step, model).map_err(|fault| format!("{fault}\n  asked: {}", step.call))?;
            made(kind, answer.refusal);
            number += 1;
        }
    }
    Ok(())
}

/// A call about the last user unit, whole; rebuild is asked for its disk.
fn step(kind: Kind, array: &mut Array, lent: usize) -> Step {
    let (given, sizes) = (array.given.clone(), array.sizes);
    let bytes = (0..given.u).map(|at| at as u8 | 1).collect();
    let user_unit = sizes.user_units - 1;
    let lost = if kind == Kind::Rebuild { array.four(user_unit).map(|four| four[0].disk as usize) } else { None };
    let marks = loss::marks(sizes.disks, lost.as_slice());
    let call = Call { kind, given, array: lent, marks: marks.len(), user_unit, offset: 0, bytes, null: false };
    Step { marks, damage: Vec::new(), repair: false, call }
}
