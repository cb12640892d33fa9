//! The sets, each as the list of its units, in the order in which audit numbers them.

use super::answer::Place;
use super::cut::{add, Cut};
use super::design::Counts;
use super::fault::{Fault, Plant};
use super::homes::Homes;
use super::region::{Cell, Region};
use super::Key;

/// All sets of a geometry. The last unit of each is its parity: of an outer set the unit "at position k-1", of an inner
/// set the one in "row g-1".
pub(super) struct Sets(pub Vec<Vec<Place>>);

impl Sets {
    /// "numbers every set, t·((g-1)g + kg) plus i·g+c for outer, plus (g-1)g + l·g + j for inner": numbered by going
    /// through the tuples, and in each first through the labels, row by row, then through positions and diagonals.
    pub fn walked((v, k, g, design): &Key, counts: Counts, plant: Plant) -> Sets {
        let homes = Homes::found(*v, *k, *g, counts, design, plant);
        let sets = of_one_tuple(*k, *g, plant);
        let mut all = Vec::new();
        for t in 0..homes.rows.len() {
            all.extend(sets.iter().map(|set| set.iter().map(|(l, cell)| homes.place(t, *l, *cell)).collect()));
        }
        Sets(all)
    }

    /// The numbers of the sets that don't XOR to zero, upwards.
    pub fn bad(&self, array: &[u8], cut: Cut, plant: Plant) -> Vec<u32> {
        let mut sum = cut.zeros();
        let looked_at = plant.or(sum.len(), Fault::AuditFirstByte, 1);
        let mut is_bad = |set: &[Place]| {
            sum.fill(0);
            set.iter().for_each(|place| add(&mut sum, cut.unit(array, *place)));
            sum[..looked_at].iter().any(|byte| *byte != 0)
        };
        let numbered = self.0.iter().enumerate();
        numbered.filter_map(|(number, set)| is_bad(set).then_some(number as u32)).collect()
    }

    /// Makes every set's last unit "the XOR of the others". The inner sets of a tuple come after its outer sets, whose
    /// parities they cover.
    pub fn settle(&self, array: &mut [u8], cut: Cut) {
        for (parity, others) in self.0.iter().filter_map(|set| set.split_last()) {
            let mut sum = cut.zeros();
            others.iter().for_each(|place| add(&mut sum, cut.unit(array, *place)));
            cut.unit_mut(array, *parity).copy_from_slice(&sum);
        }
    }
}

/// A set of one tuple: its cells with their positions.
pub(super) type InTuple = Vec<(usize, Cell)>;

/// The sets of one tuple: "The k units with one label form an outer set"; "diagonal j of a region has the units of row
/// i, column (i - j) mod g, for all i from 0 to g-1".
pub(super) fn of_one_tuple(k: u32, g: u32, plant: Plant) -> Vec<InTuple> {
    let regions: Vec<Region> = (0..k as usize).map(|l| Region::at_position(l, g as usize, plant)).collect();
    let numbered = || regions.iter().enumerate();
    let labelled = |label| numbered().map(|(l, region)| (l, region.find(label))).collect();
    let mut outer: Vec<InTuple> = regions[0].labels.concat().into_iter().map(labelled).collect();
    let diagonal = |l, cells: &[Cell]| cells.iter().map(|cell| (l, *cell)).collect();
    let mut inner: Vec<InTuple> =
        numbered().flat_map(|(l, region)| region.diagonals.iter().map(move |(cells, _)| diagonal(l, cells))).collect();
    if plant.has(Fault::AuditInnerFirst) {
        std::mem::swap(&mut outer, &mut inner);
    }
    outer.append(&mut inner);
    outer
}
