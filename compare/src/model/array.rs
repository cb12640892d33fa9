//! The calls on the array: format, read, write and audit. Their tests of what they are lent are in `lent`.

use super::answer::{Audit, Geometry, Place, Refusal};
use super::cut::{add, Cut};
use super::fault::{Fault, Plant};
use super::lent::Asked;
use super::sets::Sets;
use super::{Last, Model};

impl Model {
    /// Refusals 2 to 8, then "all array bytes become zero, all marks 0".
    pub fn format(&mut self, geometry: &Geometry, array: &mut [u8], marks: &mut [u8]) -> Result<(), Refusal> {
        let plant = self.plant;
        let sizes = match self.lent(geometry, array.len(), marks) {
            Err(Refusal { number: 8, .. }) if plant.has(Fault::FormatHeals) => self.sizes(geometry)?,
            tested => tested?,
        };
        let left = plant.or(0, Fault::FormatLastDisk, array.len() / sizes.disks as usize);
        let end = array.len() - left;
        array[..end].fill(0);
        if !plant.has(Fault::FormatMarks) {
            marks.fill(0);
        }
        Ok(())
    }

    /// Refusals 2 to 8 and 10 to 12, then "a byte range of one user unit into a lent buffer whose length is the range's
    /// length".
    pub fn read(
        &mut self,
        geometry: &Geometry,
        array: &[u8],
        marks: &[u8],
        user_unit: u32,
        offset: u64,
        bytes: &mut [u8],
    ) -> Result<(), Refusal> {
        let plant = self.plant;
        if plant.has(Fault::ReadStoresOnRefusal) {
            bytes.fill(0);
        }
        let asked = Asked { user_unit, offset, length: bytes.len() };
        let disks = plant.or(plant.or(1, Fault::ReadAsksFour, 4), Fault::ReadIgnoresMark, 0);
        let (cut, four) = self.tested(geometry, array.len(), marks, &asked, disks)?;
        let start = plant.or(offset, Fault::ReadFromStart, 0) as usize;
        bytes.copy_from_slice(&cut.unit(array, four[0])[start..][..bytes.len()]);
        Ok(())
    }

    /// Refusals 2 to 8 and 10 to 12, then "the difference of new and old bytes is XORed into the data unit, its outer
    /// parity, the inner parity of the data unit and the inner parity of the outer parity unit".
    pub fn write(
        &mut self,
        geometry: &Geometry,
        array: &mut [u8],
        marks: &[u8],
        user_unit: u32,
        offset: u64,
        bytes: &[u8],
    ) -> Result<(), Refusal> {
        let plant = self.plant;
        let asked = Asked { user_unit, offset, length: bytes.len() };
        let disks = plant.or(4, Fault::TwelveDataAlone, 1);
        let tested = self.tested(geometry, array.len(), marks, &asked, disks);
        if tested.is_err_and(|refusal| refusal.number == 12) && plant.has(Fault::WriteStoresOnRefusal) {
            let (cut, four) = self.tested(geometry, array.len(), marks, &asked, 0)?;
            cut.unit_mut(array, four[0])[offset as usize..][..bytes.len()].copy_from_slice(bytes);
        }
        let (cut, four) = tested?;
        let mut difference = cut.unit(array, four[0])[offset as usize..][..bytes.len()].to_vec();
        add(&mut difference, bytes);
        for (index, place) in written(four, geometry.g, plant) {
            let start = plant.or(offset, Fault::WriteFromStart, if index == 0 { offset } else { 0 });
            let range = &mut cut.unit_mut(array, place)[start as usize..][..bytes.len()];
            if index > 0 && plant.has(Fault::WriteCopies) {
                range.fill(0);
            }
            let new = index > 0 && (plant.has(Fault::WriteNewBytes) || plant.has(Fault::WriteCopies));
            add(range, if new { bytes } else { &difference });
        }
        Ok(())
    }

    /// Refusals 2 to 7, of 7 the array's alone; then the sets are walked in their order. "It ignores marks."
    pub fn audit(&mut self, geometry: &Geometry, array: &[u8]) -> Result<Audit, Refusal> {
        let plant = self.plant;
        let sizes = self.lengths(geometry, array.len(), None)?;
        let cut = Cut::of(&sizes, geometry.u, plant);
        let sets = self.sets_of_last();
        let mut bad = sets.bad(array, cut, plant);
        bad.retain(|number| !plant.has(Fault::AuditSkipsLast) || *number as usize + 1 < sets.0.len());
        bad.retain(|_| !plant.has(Fault::AuditNone));
        let lowest = plant.or(bad.first(), Fault::AuditHighest, bad.last()).copied();
        let count = bad.len() as u32;
        Ok(Audit {
            bad: plant.or(plant.or(count, Fault::AuditOne, count.min(1)), Fault::AuditMore, count + count.min(1)),
            lowest: lowest.map_or(0, |number| plant.or(number, Fault::AuditLowestOff, number + 1)),
        })
    }

    /// No call of document 01: makes every parity of the array right, so that all sets XOR to zero.
    pub fn settle(&mut self, geometry: &Geometry, array: &mut [u8]) -> Result<(), Refusal> {
        let sizes = self.lengths(geometry, array.len(), None)?;
        let cut = Cut::of(&sizes, geometry.u, self.plant);
        self.sets_of_last().settle(array, cut);
        Ok(())
    }

    /// The sets of the geometry that was accepted last.
    pub(super) fn sets_of_last(&mut self) -> &Sets {
        let Last { key, counts, sets, .. } = self.last.as_mut().expect("a geometry was accepted");
        sets.get_or_insert_with(|| Sets::walked(key, *counts, self.plant))
    }
}

/// The units that write changes, each with its index among the four.
fn written(four: [Place; 4], g: u32, plant: Plant) -> Vec<(usize, Place)> {
    let [data, outer, inner, both] = four;
    let next = Place { disk: inner.disk / g * g + (inner.disk + 1) % g, ..inner };
    let four = [data, outer, plant.or(inner, Fault::WriteWrongDiagonal, next), both];
    let mut units: Vec<(usize, Place)> = four.into_iter().enumerate().collect();
    let faults: [(Fault, &[usize]); 4] = [
        (Fault::WriteNothing, &[0, 1, 2, 3]),
        (Fault::WriteDataAlone, &[1, 2, 3]),
        (Fault::WriteNoThird, &[2]),
        (Fault::WriteNoFourth, &[3]),
    ];
    for (fault, left_out) in faults {
        units.retain(|(index, _)| !plant.has(fault) || !left_out.contains(index));
    }
    units
}
