//! The plan for one disk.

use super::answer::{Geometry, Place, Refusal};
use super::fault::{Fault, Plant};
use super::Model;

/// A unit of the disk with the units that it is restored from, in order.
type Step = (u32, Vec<Place>);

impl Model {
    /// Refusals 2 to 6, 9 and 14, then the triples, "written as 32-bit numbers; any rest of the list is untouched".
    /// The answer is how many triples there are.
    pub fn plan(&mut self, geometry: &Geometry, disk: u32, list: &mut [u32]) -> Result<u32, Refusal> {
        let plant = self.plant;
        let disks = self.sizes(geometry)?.disks;
        let highest = plant.or(disks, Fault::PlanDiskBound, disks + 1);
        let nine = if disk < highest { Ok(()) } else { Err(Refusal::placeless(9)) };
        if !plant.has(Fault::FourteenBeforeNine) {
            nine?;
        }
        let steps = self.steps(geometry.g as usize, if nine.is_ok() { disk } else { 0 });
        let triples = steps.iter().flat_map(|(unit, from)| from.iter().map(|place| [*unit, place.disk, place.unit]));
        let triples = altered(triples.collect(), plant);
        let numbers = triples.concat();
        fits(list, numbers.len(), plant)?;
        nine?;
        list.iter_mut().zip(&numbers).for_each(|(to, from)| *to = *from);
        if plant.has(Fault::PlanClearsRest) {
            list[numbers.len()..].fill(0);
        }
        let count = triples.len() as u32;
        Ok(plant.or(count, Fault::PlanCountsNumbers, 3 * count))
    }

    /// "by its unit upwards, then by position of the member (outer) or by row of the member (inner)". The disk is
    /// sought in every tuple's regions. Of the sets that a unit is in, the outer one is listed first.
    fn steps(&self, g: usize, disk: u32) -> Vec<Step> {
        let (plant, (homes, mut sets)) = (self.plant, self.homes_of_last());
        if plant.has(Fault::PlanInnerFirst) {
            sets.reverse();
        }
        let mut steps = Vec::new();
        for t in 0..homes.rows.len() {
            for l in 0..homes.rows[t].len() {
                let Some(column) = (0..g).find(|c| homes.place(t, l, (0, *c)).disk == disk) else { continue };
                for at in (0..g).map(|row| (l, (row, column))) {
                    let set = sets.iter().find(|set| set.contains(&at)).expect("every unit is in a set");
                    let rest = set.iter().filter(|member| **member != at || plant.has(Fault::PlanItself));
                    let mut from: Vec<Place> = rest.map(|(l, cell)| homes.place(t, *l, *cell)).collect();
                    if plant.has(Fault::PlanTurned) {
                        from.reverse();
                    }
                    steps.push((homes.place(t, l, at.1).unit, from));
                }
            }
        }
        steps.sort_by_key(|(unit, _)| *unit);
        steps
    }
}

/// 14: "plan list shorter than 3·r(g-1)k".
fn fits(list: &mut [u32], needed: usize, plant: Plant) -> Result<(), Refusal> {
    let least = plant.or(plant.or(needed, Fault::FourteenOneLess, needed - 1), Fault::FourteenTriples, needed / 3);
    if list.len() < least || list.len() > needed && plant.has(Fault::FourteenLonger) {
        let stored = plant.or(0, Fault::PlanStoresOnRefusal, list.len());
        list[..stored].fill(0);
        return Err(Refusal::placeless(14));
    }
    Ok(())
}

/// The faults that change the triples.
fn altered(mut triples: Vec<[u32; 3]>, plant: Plant) -> Vec<[u32; 3]> {
    let last = triples.last().copied();
    triples.extend(last.filter(|_| plant.has(Fault::PlanOneMore)));
    if plant.has(Fault::PlanOneLess) {
        triples.pop();
    }
    if plant.has(Fault::PlanBySource) {
        triples.sort_by_key(|triple| (triple[1], triple[2]));
    }
    if plant.has(Fault::PlanUnitBeforeDisk) {
        triples.iter_mut().for_each(|triple| triple.swap(1, 2));
    }
    triples
}
