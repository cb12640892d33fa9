//! What is asked and what is answered.

/// A geometry as a caller lends it, tested or not.
#[derive(Clone, Copy, Debug)]
pub struct Geometry<'a> {
    pub v: u32,
    pub k: u32,
    pub g: u32,
    pub u: u32,
    pub design: &'a [u16],
}

/// "Each returns its number and a place … A later refusal for which no place is named has place 0."
#[derive(Clone, Copy, Debug, PartialEq, Eq)]
pub struct Refusal {
    pub number: u32,
    pub place: u32,
}

impl Refusal {
    /// A refusal for which no place is named.
    pub(super) fn placeless(number: u32) -> Self {
        Refusal { number, place: 0 }
    }
}

/// A unit of a disk.
#[derive(Clone, Copy, Debug, PartialEq, Eq)]
pub struct Place {
    pub disk: u32,
    pub unit: u32,
}

/// The places of a user unit: "data, outer parity, inner of data, inner of outer".
#[derive(Clone, Copy, Debug, PartialEq, Eq)]
pub struct Map {
    pub data: Place,
    pub outer: Place,
    pub inner: Place,
    pub both: Place,
}

/// "The way back answers, for any disk and unit: user unit n; outer parity of (t,i,c); or inner parity of (t,l,j)."
#[derive(Clone, Copy, Debug, PartialEq, Eq)]
pub enum Role {
    User(u32),
    Outer { t: u32, i: u32, c: u32 },
    Inner { t: u32, l: u32, j: u32 },
}

/// The derived sizes: r, b, v·g, the units of one disk, the user units, the sets, and the bytes of the whole array.
#[derive(Clone, Copy, Debug, PartialEq, Eq)]
pub struct Sizes {
    pub parts: u32,
    pub tuples: u32,
    pub disks: u32,
    pub units: u32,
    pub user_units: u32,
    pub sets: u32,
    pub bytes: u64,
}

/// What audit answers: "how many sets don't XOR to zero and the lowest such number, 0 if none".
#[derive(Clone, Copy, Debug, PartialEq, Eq)]
pub struct Audit {
    pub bad: u32,
    pub lowest: u32,
}
