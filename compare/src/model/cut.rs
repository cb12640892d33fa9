//! How the lent buffer is cut into disks and units.

use super::answer::{Place, Sizes};
use super::fault::{Fault, Plant};

/// "The buffer holds disk 0 whole, then disk 1, and so on"; a disk's units follow one another.
#[derive(Clone, Copy)]
pub(super) struct Cut {
    disk: usize,
    unit: usize,
    /// Where the fault is planted: the bytes of one unit of all disks.
    across: Option<usize>,
}

impl Cut {
    pub fn of(sizes: &Sizes, u: u32, plant: Plant) -> Cut {
        let (unit, across) = (u as usize, sizes.disks as usize * u as usize);
        Cut { disk: sizes.units as usize * unit, unit, across: plant.or(None, Fault::UnitsAcrossDisks, Some(across)) }
    }

    /// The length of the larger pieces and the piece's number; then the smaller piece's number in it.
    fn pieces(&self, place: Place) -> (usize, usize, usize) {
        let (disk, unit) = (place.disk as usize, place.unit as usize);
        self.across.map_or((self.disk, disk, unit), |across| (across, unit, disk))
    }

    /// The bytes of a unit.
    pub fn unit<'a>(&self, array: &'a [u8], place: Place) -> &'a [u8] {
        let (length, large, small) = self.pieces(place);
        let large = array.chunks(length).nth(large).expect("the disk is in the array");
        large.chunks(self.unit).nth(small).expect("the unit is on the disk")
    }

    /// The bytes of a unit, to be changed.
    pub fn unit_mut<'a>(&self, array: &'a mut [u8], place: Place) -> &'a mut [u8] {
        let (length, large, small) = self.pieces(place);
        let large = array.chunks_mut(length).nth(large).expect("the disk is in the array");
        large.chunks_mut(self.unit).nth(small).expect("the unit is on the disk")
    }

    /// A unit of zeros.
    pub fn zeros(&self) -> Vec<u8> {
        vec![0; self.unit]
    }
}

/// XORs bytes into bytes, as far as both go.
pub(super) fn add(to: &mut [u8], from: &[u8]) {
    to.iter_mut().zip(from).for_each(|(to, from)| *to ^= from);
}
