//! Every call of the library, and all of this crate that is `unsafe`.
//!
//! The header's rules on lists hold by the types. A slice is readable, and writable where it is `&mut`, over its whole length,
//! and aligned for its elements; [`source`] and [`target`] take pointer and length from one slice. A `&mut` slice shares no byte
//! with another slice of the call nor with another thread. All slices outlive the call, and the library keeps none.

use crate::geometry::Geometry;
use crate::numbers::{Disk, Unit, UserUnit};
use crate::refusal::Refusal;
use crate::sys::{self, Answer, AuditAnswer, CountAnswer, MapAnswer, RoleAnswer, SizesAnswer};

/// An answer of the library: accepted with its values, or the refusal that its first two numbers tell. v is the call's.
trait Told: Sized {
    fn told(self, v: u32) -> Result<Self, Refusal>;
}

macro_rules! told {
    ($($answer:ident)*) => {
        $(impl Told for $answer {
            fn told(self, v: u32) -> Result<Self, Refusal> {
                Refusal::told(self.refusal, self.place, v).map(|()| self)
            }
        })*
    };
}

told! { Answer SizesAnswer MapAnswer RoleAnswer AuditAnswer CountAnswer }

/// A list to be read, as the library takes it.
fn source<T>(list: &[T]) -> (*const T, usize) {
    (list.as_ptr(), list.len())
}

/// A list to be written, as the library takes it.
fn target<T>(list: &mut [T]) -> (*mut T, usize) {
    (list.as_mut_ptr(), list.len())
}

/// v, k, g, u, and the design's list to be read, which is borrowed for as long as the geometry.
fn parts(at: &Geometry) -> (u32, u32, u32, u32, *const u16, usize) {
    let (d, dn) = source(at.design.list());
    (at.design.v(), at.design.k(), at.g, at.u, d, dn)
}

pub fn fill(v: u32, design: &mut [u16]) -> Result<(), Refusal> {
    let (d, dn) = target(design);
    // SAFETY: d and dn are of a slice lent to write.
    unsafe { sys::himzolven_fill(v, d, dn) }.told(v).map(drop)
}

pub fn check(v: u32, k: u32, design: &[u16]) -> Result<(), Refusal> {
    let (d, dn) = source(design);
    // SAFETY: d and dn are of a slice lent to read.
    unsafe { sys::himzolven_check(v, k, d, dn) }.told(v).map(drop)
}

pub fn sizes(at: &Geometry) -> Result<SizesAnswer, Refusal> {
    let (v, k, g, u, d, dn) = parts(at);
    // SAFETY: d and dn are of a slice lent to read.
    unsafe { sys::himzolven_sizes(v, k, g, u, d, dn) }.told(v)
}

pub fn map(at: &Geometry, UserUnit(user): UserUnit) -> Result<MapAnswer, Refusal> {
    let (v, k, g, u, d, dn) = parts(at);
    // SAFETY: d and dn are of a slice lent to read.
    unsafe { sys::himzolven_map(v, k, g, u, d, dn, user) }.told(v)
}

pub fn role(at: &Geometry, Disk(disk): Disk, Unit(unit): Unit) -> Result<RoleAnswer, Refusal> {
    let (v, k, g, u, d, dn) = parts(at);
    // SAFETY: d and dn are of a slice lent to read.
    unsafe { sys::himzolven_role(v, k, g, u, d, dn, disk, unit) }.told(v)
}

pub fn plan(at: &Geometry, Disk(disk): Disk, list: &mut [u32]) -> Result<CountAnswer, Refusal> {
    let ((v, k, g, u, d, dn), (l, ln)) = (parts(at), target(list));
    // SAFETY: d and dn are of a slice lent to read, l and ln of one lent to write.
    unsafe { sys::himzolven_plan(v, k, g, u, d, dn, disk, l, ln) }.told(v)
}

pub fn format(at: &Geometry, array: &mut [u8], marks: &mut [u8]) -> Result<(), Refusal> {
    let ((v, k, g, u, d, dn), (a, an), (m, mn)) = (parts(at), target(array), target(marks));
    // SAFETY: d and dn are of a slice lent to read; a and an, m and mn of two lent to write.
    unsafe { sys::himzolven_format(v, k, g, u, d, dn, a, an, m, mn) }.told(v).map(drop)
}

pub fn read(
    at: &Geometry,
    array: &[u8],
    marks: &[u8],
    UserUnit(user): UserUnit,
    offset: u64,
    bytes: &mut [u8],
) -> Result<(), Refusal> {
    let ((v, k, g, u, d, dn), (a, an), (m, mn), (b, bn)) = (parts(at), source(array), source(marks), target(bytes));
    // SAFETY: d and dn, a and an, m and mn are of three slices lent to read, b and bn of one lent to write.
    unsafe { sys::himzolven_read(v, k, g, u, d, dn, a, an, m, mn, user, offset, b, bn) }.told(v).map(drop)
}

pub fn write(
    at: &Geometry,
    array: &mut [u8],
    marks: &[u8],
    UserUnit(user): UserUnit,
    offset: u64,
    bytes: &[u8],
) -> Result<(), Refusal> {
    let ((v, k, g, u, d, dn), (a, an), (m, mn), (b, bn)) = (parts(at), target(array), source(marks), source(bytes));
    // SAFETY: d and dn, m and mn, b and bn are of three slices lent to read, a and an of one lent to write.
    unsafe { sys::himzolven_write(v, k, g, u, d, dn, a, an, m, mn, user, offset, b, bn) }.told(v).map(drop)
}

pub fn audit(at: &Geometry, array: &[u8]) -> Result<AuditAnswer, Refusal> {
    let ((v, k, g, u, d, dn), (a, an)) = (parts(at), source(array));
    // SAFETY: d and dn, a and an are of two slices lent to read.
    unsafe { sys::himzolven_audit(v, k, g, u, d, dn, a, an) }.told(v)
}

pub fn rebuild(at: &Geometry, array: &mut [u8], marks: &mut [u8]) -> Result<CountAnswer, Refusal> {
    let ((v, k, g, u, d, dn), (a, an), (m, mn)) = (parts(at), target(array), target(marks));
    // SAFETY: d and dn are of a slice lent to read; a and an, m and mn of two lent to write.
    unsafe { sys::himzolven_rebuild(v, k, g, u, d, dn, a, an, m, mn) }.told(v)
}
