//! The numbers of the layout, each of a type of its own: a disk number never stands where a unit number is meant.

use std::fmt;

macro_rules! numbers {
    ($($(#[$about:meta])* $name:ident)*) => {
        $(
            $(#[$about])*
            #[derive(Clone, Copy, Debug, PartialEq, Eq, PartialOrd, Ord, Hash)]
            pub struct $name(pub u32);

            impl fmt::Display for $name {
                fn fmt(&self, f: &mut fmt::Formatter) -> fmt::Result {
                    self.0.fmt(f)
                }
            }
        )*
    };
}

numbers! {
    /// A disk of the array. Disk d is in group d/g, column d mod g.
    Disk
    /// A group of g disks.
    Group
    /// A tuple: a row of the design, from 0.
    Tuple
    /// A unit of one disk: part·g + row.
    Unit
    /// A user unit, from 0 to [`Sizes::user_units`](crate::Sizes::user_units) - 1.
    UserUnit
    /// A set, as the audit numbers them: t·((g-1)g + kg) plus i·g + c is the outer set of label (i,c) of tuple t, and plus
    /// (g-1)g + l·g + j the inner set of diagonal j at position l.
    SetNumber
}

const _: () = assert!(usize::BITS == 64, "himzolven: the library is made for machines with 64-bit addresses");

/// A count of the library as a length. The assertion above is why no bit is cut.
#[allow(clippy::as_conversions)]
pub(crate) fn length(count: u64) -> usize {
    count as usize
}
