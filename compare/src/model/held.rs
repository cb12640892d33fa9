//! The held difference sets and the call that fills a list with one's design.

use super::answer::Refusal;
use super::fault::{Fault, Plant};

/// A line of document 000's table 1: b, v, r, k, lambda, and the perfect difference set.
pub(super) type Line = (u32, u32, u32, u32, u32, &'static [u32]);

/// Document 000's table 1. "The source prints 51 for the fifth; that fails v-1 = r(k-1), and 57 is right."
const TABLE_1: [Line; 7] = [
    (7, 7, 3, 3, 1, &[0, 1, 3]),
    (13, 13, 4, 4, 1, &[0, 1, 3, 9]),
    (21, 21, 5, 5, 1, &[0, 1, 4, 14, 16]),
    (31, 31, 6, 6, 1, &[0, 1, 3, 8, 12, 18]),
    (57, 57, 8, 8, 1, &[0, 1, 3, 13, 32, 36, 43, 52]),
    (73, 73, 9, 9, 1, &[0, 1, 3, 7, 15, 31, 36, 54, 63]),
    (91, 91, 10, 10, 1, &[0, 1, 3, 9, 27, 49, 56, 61, 77, 81]),
];

/// The fifth line as the source prints it, for the fault that keeps it.
const FIFTH_AS_PRINTED: Line = (51, 51, 8, 8, 1, &[0, 1, 3, 13, 32, 36, 43, 52]);

/// The line of a held v, or refusal 1, "no set held for v".
pub(super) fn line(v: u32, plant: Plant) -> Result<Line, Refusal> {
    let mut table = TABLE_1;
    table[4] = plant.or(table[4], Fault::FiftyOne, FIFTH_AS_PRINTED);
    table.into_iter().find(|line| line.1 == v).ok_or(Refusal::placeless(1))
}

/// Refusal 1, then 3, "list length not b·k", then the rows one after another.
pub(super) fn fill(v: u32, list: &mut [u16], plant: Plant) -> Result<(), Refusal> {
    let (b, _, _, k, _, set) = line(v, plant)?;
    let design: Vec<u16> = (0..b).flat_map(|i| developed(set, i, v, plant)).collect();
    debug_assert_eq!(design.len(), (b * k) as usize);
    let fits = list.len() == design.len() || plant.has(Fault::FillLongerList) && list.len() > design.len();
    if fits || plant.has(Fault::FillStoresOnRefusal) {
        list.iter_mut().zip(&design).for_each(|(to, from)| *to = *from);
    }
    if fits {
        Ok(())
    } else {
        Err(Refusal::placeless(3))
    }
}

/// "Row i is the set with i added to each member modulo v, sorted upwards."
fn developed(set: &[u32], i: u32, v: u32, plant: Plant) -> Vec<u16> {
    let added = plant.or(i, Fault::FillFromRowOne, i + 1);
    let mut row: Vec<u16> = set.iter().map(|member| ((member + added) % v) as u16).collect();
    if !plant.has(Fault::FillUnsorted) {
        row.sort();
    }
    row
}
