//! Why a call was refused.

use crate::numbers::{Disk, Group, Tuple};
use crate::sys;
use std::fmt;

/// Why a call was refused. A refused call changes no lent byte. Refusals are tested in the order of their numbers, those that
/// apply to the call.
///
/// ```
/// use himzolven::{Design, Group, Refusal};
///
/// // Pair 1, 4 stands in the third row and in the last.
/// let rows = [0, 2, 6, 0, 1, 3, 1, 2, 4, 2, 3, 5, 3, 4, 6, 0, 4, 5, 1, 4, 6];
/// let refusal = Design::new(7, 3, &rows).unwrap_err();
/// assert_eq!(refusal, Refusal::BadPair { a: Group(1), b: Group(4), place: 11 });
/// assert_eq!((refusal.number(), refusal.place()), (5, 11));
/// assert_eq!(refusal.to_string(), "refusal 5: groups 1 and 4 do not stand together in exactly one row");
/// ```
#[derive(Clone, Copy, Debug, PartialEq, Eq, Hash)]
pub enum Refusal {
    /// 1: no set is held for v.
    NotHeld,
    /// 2: v is not in 2 to 91, k not in 2 to 10, or k is above v.
    BeyondLimits,
    /// 3: r or b is not whole, or the list's length is not b·k.
    NotWhole,
    /// 4: the first row with a group number of v or more, or that does not ascend.
    BadRow {
        /// The row.
        row: Tuple,
    },
    /// 5: the first pair a < b, by a and then b, that does not stand in exactly one row.
    BadPair {
        /// The lower group.
        a: Group,
        /// The higher group.
        b: Group,
        /// a·v + b.
        place: u32,
    },
    /// 6: g is not a prime from 2 to 13 or is below k, or u is not in 1 to 4096.
    BadSize,
    /// 7: the array or the marks have another length, or the array is above 1,073,741,824 bytes.
    BadLength,
    /// 8: the lowest disk whose mark is above 1.
    BadMark {
        /// The disk.
        disk: Disk,
    },
    /// 9: the disk or the unit number is too high.
    DiskTooHigh,
    /// 10: the user unit number is too high.
    UserTooHigh,
    /// 11: the range leaves the unit: its offset plus its length is above u.
    BadRange,
    /// 12: a disk that is marked. Of a read the data disk; of a write the first such disk of data, outer parity, inner parity
    /// of the data and inner parity of the outer parity.
    Lost {
        /// The disk.
        disk: Disk,
    },
    /// 13: the lowest tuple that a rebuild would leave incomplete.
    Incomplete {
        /// The tuple.
        tuple: Tuple,
    },
    /// 14: the plan's list is shorter than 3·r(g-1)k.
    ShortList,
}

impl Refusal {
    /// What an answer's number and place say. v is that of the call.
    pub(crate) fn told(number: u32, place: u32, v: u32) -> Result<(), Refusal> {
        Err(match number {
            sys::ACCEPTED => return Ok(()),
            sys::NOT_HELD => Refusal::NotHeld,
            sys::BEYOND_LIMITS => Refusal::BeyondLimits,
            sys::NOT_WHOLE => Refusal::NotWhole,
            sys::BAD_ROW => Refusal::BadRow { row: Tuple(place) },
            sys::BAD_PAIR => Refusal::BadPair { a: Group(place / v), b: Group(place % v), place },
            sys::BAD_SIZE => Refusal::BadSize,
            sys::BAD_LENGTH => Refusal::BadLength,
            sys::BAD_MARK => Refusal::BadMark { disk: Disk(place) },
            sys::DISK_TOO_HIGH => Refusal::DiskTooHigh,
            sys::USER_TOO_HIGH => Refusal::UserTooHigh,
            sys::BAD_RANGE => Refusal::BadRange,
            sys::LOST => Refusal::Lost { disk: Disk(place) },
            sys::INCOMPLETE => Refusal::Incomplete { tuple: Tuple(place) },
            sys::SHORT_LIST => Refusal::ShortList,
            _ => panic!("himzolven: refusal {number} is unknown; the library linked is not the one of this crate"),
        })
    }

    /// The refusal's number in the rules, 1 to 14.
    pub fn number(&self) -> u32 {
        match self {
            Refusal::NotHeld => sys::NOT_HELD,
            Refusal::BeyondLimits => sys::BEYOND_LIMITS,
            Refusal::NotWhole => sys::NOT_WHOLE,
            Refusal::BadRow { .. } => sys::BAD_ROW,
            Refusal::BadPair { .. } => sys::BAD_PAIR,
            Refusal::BadSize => sys::BAD_SIZE,
            Refusal::BadLength => sys::BAD_LENGTH,
            Refusal::BadMark { .. } => sys::BAD_MARK,
            Refusal::DiskTooHigh => sys::DISK_TOO_HIGH,
            Refusal::UserTooHigh => sys::USER_TOO_HIGH,
            Refusal::BadRange => sys::BAD_RANGE,
            Refusal::Lost { .. } => sys::LOST,
            Refusal::Incomplete { .. } => sys::INCOMPLETE,
            Refusal::ShortList => sys::SHORT_LIST,
        }
    }

    /// The refusal's place in the rules, 0 where none is named.
    pub fn place(&self) -> u32 {
        match *self {
            Refusal::BadRow { row: Tuple(place) } | Refusal::Incomplete { tuple: Tuple(place) } => place,
            Refusal::BadMark { disk: Disk(place) } | Refusal::Lost { disk: Disk(place) } => place,
            Refusal::BadPair { place, .. } => place,
            _ => 0,
        }
    }
}

impl fmt::Display for Refusal {
    fn fmt(&self, f: &mut fmt::Formatter) -> fmt::Result {
        write!(f, "refusal {}: ", self.number())?;
        match self {
            Refusal::NotHeld => write!(f, "no design is held for this number of groups"),
            Refusal::BeyondLimits => write!(f, "v is not in 2 to 91, k not in 2 to 10, or k is above v"),
            Refusal::NotWhole => write!(f, "no design has this v and k, or the list has another length than b·k"),
            Refusal::BadRow { row } => write!(f, "row {row} does not ascend or names a group that there is not"),
            Refusal::BadPair { a, b, .. } => {
                write!(f, "groups {a} and {b} do not stand together in exactly one row")
            }
            Refusal::BadSize => write!(f, "g is not a prime from 2 to 13 or is below k, or u is not in 1 to 4096"),
            Refusal::BadLength => write!(f, "array or marks have another length, or the array is above its limit"),
            Refusal::BadMark { disk } => write!(f, "the mark of disk {disk} is neither 0 nor 1"),
            Refusal::DiskTooHigh => write!(f, "there is no such disk or unit"),
            Refusal::UserTooHigh => write!(f, "there is no such user unit"),
            Refusal::BadRange => write!(f, "the range leaves the unit"),
            Refusal::Lost { disk } => write!(f, "disk {disk} is lost"),
            Refusal::Incomplete { tuple } => write!(f, "too much is lost: tuple {tuple} cannot be completed"),
            Refusal::ShortList => write!(f, "the list is too short for the plan"),
        }
    }
}

impl std::error::Error for Refusal {}

#[test]
#[should_panic(expected = "refusal 15 is unknown")]
fn an_unknown_number_is_told() {
    let _ = Refusal::told(sys::SHORT_LIST + 1, 0, 7);
}
