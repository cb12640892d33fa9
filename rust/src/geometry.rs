//! The geometry of an array: its sizes, the map both ways and the plan for one disk.

use crate::design::Design;
use crate::lent;
use crate::numbers::{Disk, Tuple, Unit, UserUnit, length};
use crate::refusal::Refusal;
use crate::sys;
use std::fmt;
use std::slice::ChunksExact;

/// The geometry of an array. v and k are the design's, so that they always fit its list. g and u may be any numbers: each call
/// tests them.
#[derive(Clone, Copy, Debug, PartialEq, Eq)]
pub struct Geometry<'a> {
    /// Which groups stand in which tuple.
    pub design: &'a Design<'a>,
    /// The disks of a group: a prime from 2 to 13 and at least k.
    pub g: u32,
    /// The bytes of a unit: 1 to 4096.
    pub u: u32,
}

impl Geometry<'_> {
    /// The sizes that follow from the geometry. Refusal 6.
    ///
    /// ```
    /// use himzolven::{Design, Geometry, Refusal};
    ///
    /// let design = Design::held(7)?;
    /// let sizes = Geometry { design: &design, g: 3, u: 512 }.sizes()?;
    /// assert_eq!((sizes.disks, sizes.units, sizes.user_units, sizes.sets), (21, 9, 84, 105));
    /// assert_eq!(sizes.bytes, 21 * 9 * 512);
    /// assert_eq!(Geometry { design: &design, g: 9, u: 512 }.sizes(), Err(Refusal::BadSize));
    /// # Ok::<(), Refusal>(())
    /// ```
    pub fn sizes(&self) -> Result<Sizes, Refusal> {
        let sizes = lent::sizes(self)?;
        Ok(Sizes {
            parts: sizes.parts,
            tuples: sizes.tuples,
            disks: sizes.disks,
            units: sizes.units,
            user_units: sizes.user_units,
            sets: sizes.sets,
            bytes: length(sizes.bytes),
            marks: length(sizes.disks.into()),
            plan: length((3 * sizes.parts * (self.g - 1) * self.design.k()).into()),
        })
    }

    /// The four places of a user unit. Refusals 6, 10.
    ///
    /// ```
    /// use himzolven::{Design, Geometry, Refusal, UserUnit};
    ///
    /// let design = Design::new(7, 3, &[0, 2, 6, 0, 1, 3, 1, 2, 4, 2, 3, 5, 3, 4, 6, 0, 4, 5, 1, 5, 6])?;
    /// let geometry = Geometry { design: &design, g: 3, u: 512 };
    /// let four = geometry.map(UserUnit(4))?;
    /// assert_eq!(format!("{} {} {} {}", four.data, four.outer, four.inner, four.both), "1/1 18/1 2/2 19/2");
    /// assert_eq!(geometry.map(UserUnit(84)), Err(Refusal::UserTooHigh));
    /// # Ok::<(), Refusal>(())
    /// ```
    pub fn map(&self, user: UserUnit) -> Result<Places, Refusal> {
        let four = lent::map(self, user)?;
        let place = |disk, unit| Place { disk: Disk(disk), unit: Unit(unit) };
        Ok(Places {
            data: place(four.data_disk, four.data_unit),
            outer: place(four.outer_disk, four.outer_unit),
            inner: place(four.inner_disk, four.inner_unit),
            both: place(four.both_disk, four.both_unit),
        })
    }

    /// The way back: what the unit of a disk is for. Refusals 6, 9.
    ///
    /// ```
    /// use himzolven::{Design, Disk, Geometry, Role, Tuple, Unit, UserUnit};
    ///
    /// let design = Design::held(7)?;
    /// let geometry = Geometry { design: &design, g: 3, u: 512 };
    /// assert_eq!(geometry.role(Disk(1), Unit(1))?, Role::User(UserUnit(4)));
    /// assert_eq!(geometry.role(Disk(9), Unit(1))?, Role::Outer { tuple: Tuple(0), row: 1, column: 1 });
    /// assert_eq!(geometry.role(Disk(2), Unit(2))?, Role::Inner { tuple: Tuple(0), position: 0, diagonal: 0 });
    /// # Ok::<(), himzolven::Refusal>(())
    /// ```
    ///
    /// A unit number where a disk number is meant does not compile:
    ///
    /// ```compile_fail,E0308
    /// # use himzolven::{Design, Disk, Geometry, Unit};
    /// # let design = Design::held(7)?;
    /// # let geometry = Geometry { design: &design, g: 3, u: 512 };
    /// geometry.role(Unit(1), Disk(1))?;
    /// # Ok::<(), himzolven::Refusal>(())
    /// ```
    pub fn role(&self, disk: Disk, unit: Unit) -> Result<Role, Refusal> {
        let sys::RoleAnswer { kind, a, b, c, .. } = lent::role(self, disk, unit)?;
        Ok(match kind {
            sys::USER => Role::User(UserUnit(a)),
            sys::OUTER => Role::Outer { tuple: Tuple(a), row: b, column: c },
            sys::INNER => Role::Inner { tuple: Tuple(a), position: b, diagonal: c },
            _ => panic!("himzolven: kind {kind} is unknown; the library linked is not the one of this crate"),
        })
    }

    /// The plan for one disk: which units of other disks are read to restore each of its units. The steps stand in the list,
    /// which has [`Sizes::plan`] numbers or more; those past the steps stay as they were. Refusals 6, 9, 14.
    ///
    /// ```
    /// use himzolven::{Design, Disk, Geometry};
    ///
    /// let design = Design::held(7)?;
    /// let geometry = Geometry { design: &design, g: 3, u: 1 };
    /// let mut list = vec![0; geometry.sizes()?.plan];
    /// let plan = geometry.plan(Disk(9), &mut list)?;
    /// assert_eq!(plan.len(), 18);
    /// let lines: Vec<String> = plan.map(|step| step.to_string()).collect();
    /// assert_eq!(lines[..6], ["0 0 0", "0 3 0", "1 1 1", "1 5 1", "2 10 0", "2 11 1"]);
    /// # Ok::<(), himzolven::Refusal>(())
    /// ```
    pub fn plan<'l>(&self, disk: Disk, list: &'l mut [u32]) -> Result<Plan<'l>, Refusal> {
        let count = lent::plan(self, disk, list)?.count;
        Ok(Plan(list[..3 * length(count.into())].chunks_exact(3)))
    }
}

/// The sizes that follow from a geometry: counts, and the lengths of the lists that calls are lent.
#[derive(Clone, Copy, Debug, PartialEq, Eq)]
pub struct Sizes {
    /// The parts of a disk: r.
    pub parts: u32,
    /// The tuples: b.
    pub tuples: u32,
    /// The disks: v·g.
    pub disks: u32,
    /// The units of one disk: r·g.
    pub units: u32,
    /// The user units of the array: b(k-1)(g-1)g.
    pub user_units: u32,
    /// The sets of the array, outer and inner.
    pub sets: u32,
    /// The bytes of the array. A call on an array of more than 1,073,741,824 bytes is refused with 7.
    pub bytes: usize,
    /// The marks, one a disk.
    pub marks: usize,
    /// The numbers of a plan: 3·r(g-1)k.
    pub plan: usize,
}

/// A unit of a disk; printed as disk/unit.
#[derive(Clone, Copy, Debug, PartialEq, Eq, PartialOrd, Ord, Hash)]
pub struct Place {
    /// The disk.
    pub disk: Disk,
    /// The unit of that disk.
    pub unit: Unit,
}

impl fmt::Display for Place {
    fn fmt(&self, f: &mut fmt::Formatter) -> fmt::Result {
        write!(f, "{}/{}", self.disk, self.unit)
    }
}

/// The places of a user unit: the four units that a write changes.
#[derive(Clone, Copy, Debug, PartialEq, Eq)]
pub struct Places {
    /// The user unit itself.
    pub data: Place,
    /// Its outer parity.
    pub outer: Place,
    /// The inner parity of the data.
    pub inner: Place,
    /// The inner parity of the outer parity.
    pub both: Place,
}

/// What a unit is for.
#[derive(Clone, Copy, Debug, PartialEq, Eq)]
pub enum Role {
    /// A user unit.
    User(UserUnit),
    /// The outer parity of a label.
    Outer {
        /// The tuple.
        tuple: Tuple,
        /// i of the label (i,c).
        row: u32,
        /// c of the label (i,c).
        column: u32,
    },
    /// The inner parity of a diagonal.
    Inner {
        /// The tuple.
        tuple: Tuple,
        /// The position of the region in the tuple.
        position: u32,
        /// The diagonal of the region.
        diagonal: u32,
    },
}

/// The steps of a plan, by the unit restored, upwards.
#[derive(Clone, Debug)]
pub struct Plan<'l>(ChunksExact<'l, u32>);

impl Iterator for Plan<'_> {
    type Item = Step;

    fn next(&mut self) -> Option<Step> {
        self.0.next().map(|triple| Step {
            unit: Unit(triple[0]),
            source: Place { disk: Disk(triple[1]), unit: Unit(triple[2]) },
        })
    }

    fn size_hint(&self) -> (usize, Option<usize>) {
        self.0.size_hint()
    }
}

impl ExactSizeIterator for Plan<'_> {}

/// A step of a plan; printed as the plan printer prints it.
#[derive(Clone, Copy, Debug, PartialEq, Eq)]
pub struct Step {
    /// The unit of the lost disk that is restored.
    pub unit: Unit,
    /// A unit that is read for it.
    pub source: Place,
}

impl fmt::Display for Step {
    fn fmt(&self, f: &mut fmt::Formatter) -> fmt::Result {
        write!(f, "{} {} {}", self.unit, self.source.disk, self.source.unit)
    }
}
