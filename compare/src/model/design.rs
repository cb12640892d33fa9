//! Refusals 2 to 6: what is asked of v, k, the design, g and u.

use super::answer::Refusal;
use super::fault::{Fault, Plant};

/// r and b of a design that passed its tests.
#[derive(Clone, Copy)]
pub(super) struct Counts {
    pub parts: u32,
    pub tuples: u32,
}

/// Refusals 2 to 5. "Tested in this order, those that apply to a call."
pub(super) fn check(v: u32, k: u32, design: &[u16], plant: Plant) -> Result<Counts, Refusal> {
    limits(v, k, plant)?;
    let counts = lengths(v, k, design.len(), plant)?;
    let rows: Vec<&[u16]> = design.chunks(k as usize).take(counts.tuples as usize).collect();
    if plant.has(Fault::FiveBeforeFour) {
        pairs(v, &rows, plant)?;
    }
    ascent(v, &rows, plant)?;
    pairs(v, &rows, plant)?;
    Ok(counts)
}

/// 2: "v or k beyond its limits". "v runs from 2 to 91, k from 2 to 10, and k is at most v; k = v is allowed".
fn limits(v: u32, k: u32, plant: Plant) -> Result<(), Refusal> {
    let v_most = plant.or(plant.or(91, Fault::NinetyGroups, 90), Fault::NinetyTwoGroups, 92);
    let k_most = plant.or(plant.or(10, Fault::NineInRow, 9), Fault::ElevenInRow, 11);
    if !(2..=v_most).contains(&v) || !(2..=k_most).contains(&k) {
        return Err(Refusal::placeless(2));
    }
    if k > v || k == v && plant.has(Fault::EqualKRefused) {
        return Err(Refusal::placeless(plant.or(2, Fault::TallRowIsThree, 3)));
    }
    Ok(())
}

/// 3: "r or b not whole, or list length not b·k". "r = (v-1)/(k-1) and b = v(v-1)/(k(k-1))": the whole numbers that
/// satisfy these are sought.
fn lengths(v: u32, k: u32, length: usize, plant: Plant) -> Result<Counts, Refusal> {
    let parts = (1..v).find(|r| r * (k - 1) == v - 1);
    let parts = plant.or(parts, Fault::PartsNotWhole, parts.or(Some(v)));
    let tuples = (1..=v * (v - 1)).find(|b| b * k * (k - 1) == v * (v - 1));
    let (Some(parts), Some(tuples)) = (parts, tuples) else {
        return Err(Refusal::placeless(3));
    };
    let needed = (tuples * k) as usize;
    if length == needed || plant.has(Fault::LongerList) && length > needed {
        Ok(Counts { parts, tuples })
    } else {
        Err(Refusal::placeless(3))
    }
}

/// 4: "a group number of v or more, or a row not ascending", place "first such row". "Rows ascend strictly."
fn ascent(v: u32, rows: &[&[u16]], plant: Plant) -> Result<(), Refusal> {
    let too_high = |group: &u16| u32::from(*group) >= plant.or(v, Fault::GroupNumberV, v + 1);
    let falls = |two: &[u16]| two[0] > two[1] || two[0] == two[1] && !plant.has(Fault::EqualNeighbours);
    let bad = |row: &&[u16]| row.iter().any(too_high) || row.windows(2).any(falls);
    let found = plant.or(rows.iter().position(bad), Fault::FourLastRow, rows.iter().rposition(bad));
    match found.map(|row| row as u32) {
        Some(row) => Err(Refusal { number: 4, place: plant.or(row, Fault::FourFromOne, row + 1) }),
        None => Ok(()),
    }
}

/// 5: "a pair a<b not in exactly one row", place "a·v+b, lowest a then b". For each pair, the rows that name both
/// groups are counted. A row is held as the set of its groups, one bit a group, so that this does not take long.
/// (The fault leaves out two pairs: one alone would not show, since as many pairs stand in the rows as there are, so
/// that no pair is wrong alone.)
fn pairs(v: u32, rows: &[&[u16]], plant: Plant) -> Result<(), Refusal> {
    let named = |row: &&[u16]| row.iter().filter(|group| **group < 128).fold(0u128, |set, group| set | 1 << group);
    let rows: Vec<u128> = rows.iter().map(named).collect();
    for a in 0..v {
        for b in a + 1..v {
            if plant.has(Fault::LastTwoPairs) && a + 3 >= v && b + 1 == v {
                continue;
            }
            let both = 1u128 << a | 1 << b;
            let count = rows.iter().filter(|row| **row & both == both).count();
            let allowed = count == 0 && plant.has(Fault::PairMissing) || count > 1 && plant.has(Fault::PairTwice);
            if count != 1 && !allowed {
                let place = plant.or(a * v + b, Fault::FiveTurned, b * v + a);
                return Err(Refusal { number: 5, place });
            }
        }
    }
    Ok(())
}

/// 6: "g or u not allowed". "g is a prime from 2 to 13 and at least k. A unit has u bytes, 1 to 4,096."
pub(super) fn group_and_unit(k: u32, g: u32, u: u32, plant: Plant) -> Result<(), Refusal> {
    let g_most = plant.or(13, Fault::ThirteenDisks, 11);
    let prime = (2..=g_most).contains(&g) && (2..g).all(|d| (2..g).all(|e| d * e != g));
    let wide = g >= k || plant.has(Fault::FewDisks);
    let u_least = plant.or(1, Fault::NoBytes, 0);
    let u_most = plant.or(4096, Fault::UnitOneByteLonger, 4097);
    let allowed = (prime || g == 9 && plant.has(Fault::NineDisks)) && wide && (u_least..=u_most).contains(&u);
    if allowed {
        Ok(())
    } else {
        Err(Refusal::placeless(6))
    }
}
