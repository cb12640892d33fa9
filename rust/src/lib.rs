//! Himzolven for Rust: the OI-RAID layout, RAID5 across groups of disks and RAID5 inside each group, whose every function is
//! proved. These are safe functions over the static library `libhimzolven.a`; nothing else is needed.
//!
//! Three disks of one group are lost and come back:
//!
//! ```
//! use himzolven::{Array, Audit, Design, Disk, Geometry, Refusal, UserUnit};
//!
//! let design = Design::held(7)?; // 7 groups in tuples of 3
//! let geometry = Geometry { design: &design, g: 3, u: 512 }; // 3 disks a group, units of 512 bytes
//! let sizes = geometry.sizes()?;
//! let (mut bytes, mut marks) = (vec![0xA5; sizes.bytes], vec![0; sizes.marks]);
//! let mut array = Array { geometry, bytes: &mut bytes, marks: &mut marks };
//! array.format()?;
//! array.write(UserUnit(4), 100, b"shot record 17")?; // one difference, into four units on four disks
//!
//! let disk = sizes.bytes / sizes.marks;
//! array.bytes[..3 * disk].fill(0xEE); // disks 0, 1 and 2 hold noise
//! [Disk(0), Disk(1), Disk(2)].into_iter().try_for_each(|disk| array.mark(disk))?;
//! assert_eq!(array.rebuild()?, 27); // units restored, 9 of each disk
//! assert_eq!(array.audit()?, Audit { bad: 0, lowest: None });
//!
//! let mut back = [0; 14];
//! array.read(UserUnit(4), 100, &mut back)?;
//! assert_eq!(&back, b"shot record 17");
//! # Ok::<(), Refusal>(())
//! ```
//!
//! # Building
//! `scripts/library` makes the library, for machines with 64-bit addresses. The crate takes it from the directory that
//! `HIMZOLVEN_LIB_DIR` names, seen from the crate, or from `target/lib` of this repository.
//!
//! # What holds
//! - What the library's functions answer is proved, for every input (`docs/REVIEW.md`). This crate is not proved: its tests
//!   hold its declarations to `include/himzolven.h`, and compare random calls byte by byte with an independent program.
//! - A refused call changes no lent byte. [`Refusal`] has the number and the place of the rules.
//! - Disk, group, tuple, unit, user unit and set numbers have a type each. No number is cut on its way: each crosses in the
//!   type that the header gives it.
//! - No call has state of its own or blocks, and none but [`Design::held`] allocates. Reads and audits share an [`Array`], so
//!   several threads may make them at once.
//! - A number of a refusal or of a role that the header does not have would mean that another library is linked: then the call
//!   panics and says so.
//! - A [`Design`] is checked when it is made, and each call checks it again, since the library trusts nothing.
//! - Every `unsafe` call stands in one module, beside the reason why it is sound.

#![deny(unsafe_code, unsafe_op_in_unsafe_fn, missing_docs)]
#![deny(clippy::undocumented_unsafe_blocks, clippy::as_conversions)]

mod array;
mod design;
mod geometry;
#[allow(unsafe_code)]
mod lent;
mod numbers;
mod refusal;
mod sys;

pub use array::{Array, Audit};
pub use design::Design;
pub use geometry::{Geometry, Place, Places, Plan, Role, Sizes, Step};
pub use numbers::{Disk, Group, SetNumber, Tuple, Unit, UserUnit};
pub use refusal::Refusal;
