//! Where the tuples' regions lie: groups, parts, and the numbers of disks and units.

use super::answer::Place;
use super::design::Counts;
use super::fault::{Fault, Plant};
use super::region::Cell;

/// Numbers pairs by going through them, the second running faster.
fn enumerated(outer: usize, inner: usize, turned: bool) -> Vec<Vec<u32>> {
    let mut numbers = vec![vec![0; inner]; outer];
    let pairs = (0..outer).flat_map(|a| (0..inner).map(move |b| (a, b)));
    let other = (0..inner).flat_map(|b| (0..outer).map(move |a| (a, b)));
    let order: Vec<(usize, usize)> = if turned { other.collect() } else { pairs.collect() };
    for (number, (a, b)) in order.into_iter().enumerate() {
        numbers[a][b] = number as u32;
    }
    numbers
}

/// Where the regions of the tuples lie, and the numbers of their disks and units.
pub(super) struct Homes<'a> {
    pub rows: Vec<&'a [u16]>,
    /// The part of each tuple's group at each position.
    parts: Vec<Vec<usize>>,
    /// "disk d is in group d/g (whole part), column d mod g": by group, then column.
    disks: Vec<Vec<u32>>,
    /// "unit number = part·g + row": by part, then row.
    units: Vec<Vec<u32>>,
}

impl<'a> Homes<'a> {
    /// "A group's part p belongs to the p-th row of the design, from 0, that names it": going down the design's rows,
    /// each group that is named gets its next part.
    pub fn found(v: u32, k: u32, g: u32, counts: Counts, design: &'a [u16], plant: Plant) -> Homes<'a> {
        let rows: Vec<&[u16]> = design.chunks(k as usize).take(counts.tuples as usize).collect();
        let mut parts = vec![Vec::new(); rows.len()];
        let mut named = vec![0; v as usize];
        let mut order: Vec<usize> = (0..rows.len()).collect();
        if plant.has(Fault::PartsFromLastRow) {
            order.reverse();
        }
        for t in order {
            for group in rows[t] {
                let part = &mut named[usize::from(*group)];
                parts[t].push(*part);
                *part += 1;
            }
        }
        let disks = enumerated(v as usize, g as usize, plant.has(Fault::DisksByColumn));
        let units = enumerated(counts.parts as usize, g as usize, plant.has(Fault::UnitsByRow));
        Homes { rows, parts, disks, units }
    }

    /// The disk and unit of a cell of tuple t's region at position l.
    pub fn place(&self, t: usize, l: usize, (row, column): Cell) -> Place {
        let group = usize::from(self.rows[t][l]);
        Place { disk: self.disks[group][column], unit: self.units[self.parts[t][l]][row] }
    }
}
