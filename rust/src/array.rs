//! The calls on an array.

use crate::geometry::Geometry;
use crate::lent;
use crate::numbers::{Disk, SetNumber, UserUnit, length};
use crate::refusal::Refusal;
use std::fmt;

/// An array: all disks and their marks, lent for as long as this is in use. Nothing is kept besides: each call tests anew all
/// that it is lent, and so the fields are open.
///
/// ```
/// use himzolven::{Array, Design, Disk, Geometry, Refusal, Tuple};
///
/// let design = Design::held(7)?;
/// let geometry = Geometry { design: &design, g: 3, u: 16 };
/// let sizes = geometry.sizes()?;
/// let (mut bytes, mut marks) = (vec![0; sizes.bytes], vec![0; sizes.marks]);
/// let mut array = Array { geometry, bytes: &mut bytes, marks: &mut marks };
///
/// [0, 1, 2, 3].into_iter().try_for_each(|disk| array.mark(Disk(disk)))?;
/// assert_eq!(array.rebuild()?, 36);
/// [0, 1, 3, 4].into_iter().try_for_each(|disk| array.mark(Disk(disk)))?;
/// assert_eq!(array.rebuild(), Err(Refusal::Incomplete { tuple: Tuple(0) }));
/// assert_eq!(array.marks[..5], [1, 1, 0, 1, 1]); // a refused call changes nothing
/// assert_eq!(array.mark(Disk(21)), Err(Refusal::DiskTooHigh));
/// # Ok::<(), Refusal>(())
/// ```
///
/// The borrow rules are the library's rule on aliasing. A read into the array itself does not compile:
///
/// ```compile_fail,E0502
/// # use himzolven::{Array, Design, Geometry, UserUnit};
/// # let design = Design::held(7)?;
/// # let geometry = Geometry { design: &design, g: 3, u: 16 };
/// # let (mut bytes, mut marks) = (vec![0; 3024], vec![0; 21]);
/// # let mut array = Array { geometry, bytes: &mut bytes, marks: &mut marks };
/// array.read(UserUnit(0), 0, &mut array.bytes[..16])?;
/// # Ok::<(), himzolven::Refusal>(())
/// ```
pub struct Array<'a> {
    /// The sizes and the layout.
    pub geometry: Geometry<'a>,
    /// Disk 0 whole, then disk 1, and so on: [`Sizes::bytes`](crate::Sizes::bytes) bytes.
    pub bytes: &'a mut [u8],
    /// A byte a disk, 0 present and 1 lost: [`Sizes::marks`](crate::Sizes::marks) bytes.
    pub marks: &'a mut [u8],
}

/// The lengths of the lists, not what they hold.
impl fmt::Debug for Array<'_> {
    fn fmt(&self, f: &mut fmt::Formatter) -> fmt::Result {
        let Array { geometry, bytes, marks } = self;
        f.debug_struct("Array")
            .field("geometry", geometry)
            .field("bytes", &bytes.len())
            .field("marks", &marks.len())
            .finish()
    }
}

impl Array<'_> {
    /// Makes all bytes and all marks 0. Refusals 6, 7, 8.
    pub fn format(&mut self) -> Result<(), Refusal> {
        lent::format(&self.geometry, self.bytes, self.marks)
    }

    /// Reads from the offset in a user unit on, as many bytes as are lent. Refusals 6, 7, 8, 10, 11, 12.
    pub fn read(&self, user: UserUnit, offset: u64, bytes: &mut [u8]) -> Result<(), Refusal> {
        lent::read(&self.geometry, self.bytes, self.marks, user, offset, bytes)
    }

    /// Writes the bytes from the offset in a user unit on. The difference to what was there goes into the data unit and three
    /// parity units, on four disks; nothing else changes. Refusals 6, 7, 8, 10, 11, 12.
    pub fn write(&mut self, user: UserUnit, offset: u64, bytes: &[u8]) -> Result<(), Refusal> {
        lent::write(&self.geometry, self.bytes, self.marks, user, offset, bytes)
    }

    /// Audits every set, outer and inner. It ignores the marks and reads lost disks too. Refusals 6, 7 (of the bytes alone).
    pub fn audit(&self) -> Result<Audit, Refusal> {
        let answer = lent::audit(&self.geometry, self.bytes)?;
        Ok(Audit { bad: answer.bad, lowest: (answer.bad > 0).then_some(SetNumber(answer.lowest)) })
    }

    /// Marks a disk as lost; a rebuild or a format takes the mark away. This is the crate's own and no call of the library.
    /// [`Refusal::DiskTooHigh`] where the marks have no such disk.
    pub fn mark(&mut self, disk: Disk) -> Result<(), Refusal> {
        let mark = self.marks.get_mut(length(disk.0.into())).ok_or(Refusal::DiskTooHigh)?;
        *mark = 1;
        Ok(())
    }

    /// Restores the disks that are marked from those that are not, and makes all marks 0. Any three lost disks come back, and
    /// many larger losses; what lost disks hold does not count. Gives the number of units restored. Refusals 6, 7, 8, 13.
    pub fn rebuild(&mut self) -> Result<u32, Refusal> {
        lent::rebuild(&self.geometry, self.bytes, self.marks).map(|answer| answer.count)
    }
}

/// What an audit finds.
#[derive(Clone, Copy, Debug, PartialEq, Eq)]
pub struct Audit {
    /// How many sets don't XOR to zero.
    pub bad: u32,
    /// The lowest of them.
    pub lowest: Option<SetNumber>,
}
