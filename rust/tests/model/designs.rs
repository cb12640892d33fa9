//! Designs, and calls that check a list or fill one.

use crate::step::told;
use crate::tally::Tally;
use compare::model::Model;
use compare::random::Random;
use himzolven::Design;

/// The two calls with their refusals.
pub const REFUSALS: [(&str, &[u32]); 2] = [("held", &[1]), ("new", &[2, 3, 4, 5])];

/// Document 000's equation 1.
pub const F: [u16; 21] = [0, 2, 6, 0, 1, 3, 1, 2, 4, 2, 3, 5, 3, 4, 6, 0, 4, 5, 1, 5, 6];

/// The lines of a plane of nine points.
const PLANE: [[u16; 18]; 2] =
    [[0, 1, 2, 3, 4, 5, 6, 7, 8, 0, 3, 6, 1, 4, 7, 2, 5, 8], [0, 4, 8, 1, 5, 6, 2, 3, 7, 0, 5, 7, 1, 3, 8, 2, 4, 6]];

fn design(v: u16, k: u32, list: Vec<u16>) -> Design<'static> {
    Design::new(v.into(), k, list).expect("this is a design")
}

/// All pairs of v groups.
pub fn complete(v: u16) -> Design<'static> {
    design(v, 2, (0..v).flat_map(|a| (a + 1..v).flat_map(move |b| [a, b])).collect())
}

/// Design F, the plane, complete graphs, single rows and the held designs, the large ones last.
pub fn pool() -> Vec<Design<'static>> {
    let single = |k: u16| design(k, k.into(), (0..k).collect());
    let mut pool = vec![design(7, 3, F.to_vec()), design(9, 3, PLANE.concat())];
    pool.extend((2..=8).map(complete));
    pool.extend((3..=10).map(single));
    pool.extend((0..=91).filter_map(|v| Design::held(v).ok()));
    pool
}

/// Checks a list with both, valid or spoiled for a refusal.
pub fn check(pool: &[Design], random: &mut Random, model: &mut Model, tally: &mut Tally) -> Result<(), String> {
    let design = &pool[random.below(pool.len())];
    let (mut v, mut k, mut list) = (design.v(), design.k(), design.list().to_vec());
    let (at, next, row) = (random.below(list.len()), random.pick(&[1, v - 1]), k as usize);
    match random.below(7) {
        0 => v = random.pick(&[0, 1, k - 1, 92, u32::MAX]),
        1 => k = random.pick(&[0, 1, 11, v + 1, u32::MAX]),
        2 => list.resize(random.pick(&[0, list.len() - 1, list.len() + 1]), 0),
        3 => (v, k, list) = (10, 6, vec![0; 18]), // b is whole here, and r is not
        4 => [at, at / 2].iter().for_each(|at| list[*at] = random.pick(&[v as u16, u16::MAX, list[at / row * row]])),
        5 => list[at] = ((u32::from(list[at]) + next) % v) as u16,
        _ => {}
    }
    let ours = Design::new(v, k, &list).map(drop).map_err(|refusal| told(refusal, v));
    let theirs = model.check(v, k, &list).map_err(|refusal| (refusal.number, refusal.place));
    if ours != theirs {
        return Err(format!("v = {v}, k = {k}, {list:?}: {ours:?}, independently {theirs:?}"));
    }
    tally.add("new", &ours);
    Ok(())
}

/// Asks both for the held design of v.
pub fn held(v: u32, model: &mut Model, tally: &mut Tally) -> Result<(), String> {
    let ours = Design::held(v).map_err(|refusal| told(refusal, v));
    let mut list = vec![0; ours.as_ref().map_or(0, |design| design.list().len())];
    let theirs = model.fill(v, &mut list).map_err(|refusal| (refusal.number, refusal.place));
    let theirs = theirs.and_then(|()| Design::new(v, list.len() as u32 / v, list).map_err(|refusal| told(refusal, v)));
    if ours != theirs {
        return Err(format!("the held design of {v}: {ours:?}, independently {theirs:?}"));
    }
    tally.add("held", &ours);
    Ok(())
}
