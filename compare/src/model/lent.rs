//! Refusals 7, 8 and 10 to 12: what is asked of the array, the marks and the range that a call is lent.

use super::answer::{Geometry, Map, Place, Refusal, Sizes};
use super::cut::Cut;
use super::fault::{Fault, Plant};
use super::Model;

/// "v·g·r·g·u bytes, at most 1,073,741,824".
const LIMIT: u64 = 1_073_741_824;

/// What read and write are asked: a user unit and "a byte range" of it.
pub(super) struct Asked {
    pub user_unit: u32,
    pub offset: u64,
    pub length: usize,
}

impl Model {
    /// Refusals 2 to 6, then 7: "array or marks of another length, or array above the limit".
    pub(super) fn lengths(
        &mut self,
        geometry: &Geometry,
        array: usize,
        marks: Option<usize>,
    ) -> Result<Sizes, Refusal> {
        let plant = self.plant;
        let sizes = self.sizes(geometry)?;
        let long = array as u64 > sizes.bytes && plant.has(Fault::SevenLongerArray);
        let exact = array as u64 == sizes.bytes || long;
        let within = sizes.bytes <= LIMIT || plant.has(Fault::SevenNoLimit);
        let marked = marks.is_none_or(|marks| marks == sizes.disks as usize) || plant.has(Fault::SevenNoMarks);
        if exact && within && marked {
            Ok(sizes)
        } else {
            Err(Refusal::placeless(7))
        }
    }

    /// Refusals 2 to 7, then 8: "a mark above 1", place "lowest disk".
    pub(super) fn lent(&mut self, geometry: &Geometry, array: usize, marks: &[u8]) -> Result<Sizes, Refusal> {
        let plant = self.plant;
        let wrong = |mark: &u8| *mark > plant.or(1, Fault::EightTwo, 2);
        let found = plant.or(marks.iter().position(wrong), Fault::EightHighest, marks.iter().rposition(wrong));
        let eight = found.map_or(Ok(()), |disk| Err(Refusal { number: 8, place: disk as u32 }));
        if plant.has(Fault::EightBeforeSeven) {
            self.sizes(geometry)?;
            eight?;
        }
        let sizes = self.lengths(geometry, array, Some(marks.len()))?;
        eight.map(|()| sizes)
    }

    /// Refusals 2 to 8, 10, 11, then 12 for the first `disks` of the four units, which come back.
    pub(super) fn tested(
        &mut self,
        geometry: &Geometry,
        array: usize,
        marks: &[u8],
        asked: &Asked,
        disks: usize,
    ) -> Result<(Cut, [Place; 4]), Refusal> {
        let plant = self.plant;
        let sizes = self.lent(geometry, array, marks)?;
        let eleven = within_unit(asked, geometry.u, plant);
        if plant.has(Fault::ElevenBeforeTen) {
            eleven?;
        }
        let Map { data, outer, inner, both } = self.map(geometry, asked.user_unit)?;
        let four = [data, outer, inner, both];
        let twelve = unmarked(marks, &four[..disks], plant);
        if plant.has(Fault::TwelveBeforeEleven) {
            twelve?;
        }
        eleven?;
        twelve?;
        Ok((Cut::of(&sizes, geometry.u, plant), four))
    }
}

/// 11: "range leaves the unit: its offset plus its length is above u".
fn within_unit(asked: &Asked, u: u32, plant: Plant) -> Result<(), Refusal> {
    let Asked { offset, length, .. } = *asked;
    let offset = plant.or(offset, Fault::ElevenNarrow, u64::from(offset as u32));
    let end = offset.checked_add(length as u64);
    let end = plant.or(end, Fault::ElevenWraps, Some(offset.wrapping_add(length as u64)));
    let allowed = end.is_some_and(|end| end <= u.into()) || length == 0 && plant.has(Fault::ElevenEmpty);
    if allowed && !(offset == u.into() && plant.has(Fault::ElevenAtEnd)) {
        Ok(())
    } else {
        Err(Refusal::placeless(11))
    }
}

/// 12: "read: data disk marked; write: any of its four disks marked", place "first marked disk of data, outer, inner of
/// data, inner of outer".
fn unmarked(marks: &[u8], places: &[Place], plant: Plant) -> Result<(), Refusal> {
    let marked = |disk: &u32| marks.get(*disk as usize).is_some_and(|mark| *mark != 0);
    let disks = || places.iter().map(|place| place.disk).filter(marked);
    let found = plant.or(disks().next(), Fault::TwelveLowest, disks().min());
    found.map_or(Ok(()), |place| Err(Refusal { number: 12, place }))
}
