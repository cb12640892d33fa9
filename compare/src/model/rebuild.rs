//! Rebuild: the passes over each tuple. Its tests of what it is lent are in `lent`.

use super::answer::{Geometry, Place, Refusal};
use super::cut::{add, Cut};
use super::fault::{Fault, Plant};
use super::homes::Homes;
use super::region::Cell;
use super::sets::InTuple;
use super::Model;
use std::borrow::Cow;

/// A tuple's units by position, row and column: the bytes of those that are present.
type Units<'a> = Vec<Vec<Vec<Option<Cow<'a, [u8]>>>>>;

/// Units that were restored, with their bytes.
type Restored = Vec<(Place, Vec<u8>)>;

impl Model {
    /// Refusals 2 to 8, then 13. "If every tuple completes, the lost disks hold the result, marks become 0, and the count
    /// of restored units is returned".
    pub fn rebuild(&mut self, geometry: &Geometry, array: &mut [u8], marks: &mut [u8]) -> Result<u32, Refusal> {
        let plant = self.plant;
        let sizes = self.lent(geometry, array.len(), marks)?;
        let cut = Cut::of(&sizes, geometry.u, plant);
        let (mut restored, incomplete) = self.passed(array, marks, cut);
        let (count, complete) = (restored.len() as u32, thirteen(&incomplete, marks, plant));
        if complete.is_ok() || plant.has(Fault::RebuildStoresOnRefusal) {
            leave_out(&mut restored, marks, plant);
            restored.iter().for_each(|(place, bytes)| cut.unit_mut(array, *place).copy_from_slice(bytes));
        }
        if complete.is_ok() && !plant.has(Fault::RebuildMarks) || plant.has(Fault::RebuildClearsOnRefusal) {
            marks.fill(0);
        }
        complete?;
        Ok(plant.or(plant.or(count, Fault::RebuildCountMore, count + 1), Fault::RebuildCountNone, 0))
    }

    /// "Tuples go upwards": what the passes restore in all of them, and the numbers of the incomplete ones.
    fn passed(&self, array: &[u8], marks: &[u8], cut: Cut) -> (Restored, Vec<u32>) {
        let (homes, sets) = self.homes_of_last();
        let (passes, mut restored, mut incomplete) = (Passes::of(sets, self.plant), Vec::new(), Vec::new());
        for t in 0..homes.rows.len() {
            let mut units = passes.units(&homes, t, array, marks, cut);
            passes.run(&mut units);
            if units.iter().flatten().flatten().any(Option::is_none) {
                incomplete.push(t as u32);
            }
            for &(l, cell) in &passes.visits {
                if let Some(Cow::Owned(bytes)) = &units[l][cell.0][cell.1] {
                    restored.push((homes.place(t, l, cell), bytes.clone()));
                }
            }
        }
        (restored, incomplete)
    }
}

/// The passes over one tuple, alike for all tuples.
struct Passes {
    sets: Vec<InTuple>,
    /// By position, row and column: the unit's outer set, if it has one, and then its inner set.
    of: Vec<Vec<Vec<Vec<usize>>>>,
    /// "a pass visits position, then row, then column, each upwards".
    visits: Vec<(usize, Cell)>,
    plant: Plant,
}

impl Passes {
    /// Of a tuple's sets the outer ones come first.
    fn of(sets: Vec<InTuple>, plant: Plant) -> Passes {
        let (k, g) = sets.iter().flatten().fold((0, 0), |(k, g), (l, (row, _))| (k.max(l + 1), g.max(row + 1)));
        let mut of = vec![vec![vec![Vec::new(); g]; g]; k];
        for (number, set) in sets.iter().enumerate() {
            set.iter().for_each(|(l, (row, column))| of[*l][*row][*column].push(number));
        }
        if plant.has(Fault::RebuildInnerFirst) {
            of.iter_mut().flatten().flatten().for_each(|sets| sets.reverse());
        }
        if plant.has(Fault::RebuildInnerAlone) {
            of.iter_mut().flatten().flatten().for_each(|sets| drop(sets.drain(..sets.len() - 1)));
        }
        Passes { sets, of, visits: visits(k, g, plant), plant }
    }

    /// The units of tuple t before the first pass: "marks are one byte a disk, 0 present and 1 lost".
    fn units<'a>(&self, homes: &Homes, t: usize, array: &'a [u8], marks: &[u8], cut: Cut) -> Units<'a> {
        let mut units = vec![vec![vec![None; self.of[0].len()]; self.of[0].len()]; self.of.len()];
        for &(l, cell) in &self.visits {
            let place = homes.place(t, l, cell);
            let present = marks[place.disk as usize] == 0;
            units[l][cell.0][cell.1] = present.then(|| Cow::Borrowed(cut.unit(array, place)));
        }
        units
    }

    /// "Passes repeat until one restores nothing."
    fn run(&self, units: &mut Units) {
        let once = self.plant.has(Fault::RebuildOnePass);
        while self.pass(units) && !once {}
    }

    /// One pass: whether it restored anything. "Later visits see it as present."
    fn pass(&self, units: &mut Units) -> bool {
        let before = self.plant.has(Fault::RebuildBlindPass).then(|| units.clone());
        let mut any = false;
        for &at in &self.visits {
            let (l, (row, column)) = at;
            if units[l][row][column].is_none() {
                units[l][row][column] = self.restored(before.as_ref().unwrap_or(units), at).map(Cow::Owned);
                any |= units[l][row][column].is_some();
            }
        }
        any
    }

    /// "A missing unit whose outer set lacks only it becomes the XOR of the rest; otherwise, if its inner set lacks only
    /// it, the XOR of that set's rest."
    fn restored(&self, units: &Units, at: (usize, Cell)) -> Option<Vec<u8>> {
        let (l, (row, column)) = at;
        self.of[l][row][column].iter().find_map(|set| {
            let rest = self.sets[*set].iter().filter(|member| **member != at);
            let rest: Option<Vec<&Cow<[u8]>>> = rest.map(|(l, (i, c))| units[*l][*i][*c].as_ref()).collect();
            rest.map(|rest| {
                let mut sum = vec![0; rest[0].len()];
                rest.iter().for_each(|bytes| add(&mut sum, bytes));
                sum
            })
        })
    }
}

/// The cells of a tuple in the order of a pass.
fn visits(k: usize, g: usize, plant: Plant) -> Vec<(usize, Cell)> {
    let region = |l| (0..g).flat_map(move |row| (0..g).map(move |column| (l, (row, column))));
    let mut order: Vec<(usize, Cell)> = (0..k).flat_map(region).collect();
    if plant.has(Fault::RebuildDownwards) {
        order.reverse();
    }
    if plant.has(Fault::RebuildColumnFirst) {
        order.sort_by_key(|(l, (row, column))| (*l, *column, *row));
    }
    order
}

/// 13: "rebuild leaves a tuple incomplete", place "lowest such tuple".
fn thirteen(incomplete: &[u32], marks: &[u8], plant: Plant) -> Result<(), Refusal> {
    let found = plant.or(incomplete.first(), Fault::ThirteenHighest, incomplete.last());
    let many = marks.iter().filter(|mark| **mark != 0).count() > 3;
    let found = plant.or(found, Fault::ThirteenByCount, many.then_some(&0));
    let place = |tuple: &u32| plant.or(*tuple, Fault::ThirteenFromOne, tuple + 1);
    found.map_or(Ok(()), |tuple| Err(Refusal { number: 13, place: place(tuple) }))
}

/// The faults that store less than was restored.
fn leave_out(restored: &mut Restored, marks: &[u8], plant: Plant) {
    let lost = |mark: &u8| *mark != 0;
    let (first, last) = (marks.iter().position(lost), marks.iter().rposition(lost));
    let first_alone = plant.has(Fault::RebuildFirstDisk);
    restored.retain(|(place, _)| !first_alone || Some(place.disk as usize) == first);
    let without_last = plant.has(Fault::RebuildLastDisk);
    restored.retain(|(place, _)| !without_last || Some(place.disk as usize) != last);
}
