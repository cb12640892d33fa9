//! The proved library's C interface, as `include/himzolven.h` declares it.

pub mod array;

use compare::model::{Geometry, Map, Refusal, Role, Sizes};
use std::fmt::Debug;

/// The answer of the calls that return nothing but a refusal or none.
#[repr(C)]
#[derive(Clone, Copy, Debug, Default, PartialEq, Eq)]
pub struct Answer {
    pub refusal: u32,
    pub place: u32,
}

#[repr(C)]
#[derive(Clone, Copy, Debug, Default, PartialEq, Eq)]
pub struct SizesAnswer {
    pub refusal: u32,
    pub place: u32,
    pub parts: u32,
    pub tuples: u32,
    pub disks: u32,
    pub units: u32,
    pub user_units: u32,
    pub sets: u32,
    pub bytes: u64,
}

#[repr(C)]
#[derive(Clone, Copy, Debug, Default, PartialEq, Eq)]
pub struct MapAnswer {
    pub refusal: u32,
    pub place: u32,
    pub data_disk: u32,
    pub data_unit: u32,
    pub outer_disk: u32,
    pub outer_unit: u32,
    pub inner_disk: u32,
    pub inner_unit: u32,
    pub both_disk: u32,
    pub both_unit: u32,
}

/// Kind 0: user unit a. Kind 1: outer parity of (a,b,c) = (t,i,c). Kind 2: inner parity of (a,b,c) = (t,l,j).
#[repr(C)]
#[derive(Clone, Copy, Debug, Default, PartialEq, Eq)]
pub struct RoleAnswer {
    pub refusal: u32,
    pub place: u32,
    pub kind: u32,
    pub a: u32,
    pub b: u32,
    pub c: u32,
}

/// Of the plan `count` is how many triples were written, of rebuild how many units were restored.
#[repr(C)]
#[derive(Clone, Copy, Debug, Default, PartialEq, Eq)]
pub struct CountAnswer {
    pub refusal: u32,
    pub place: u32,
    pub count: u32,
}

#[link(name = "himzolven", kind = "static")]
extern "C" {
    fn himzolven_fill(v: u32, design: *mut u16, length: usize) -> Answer;
    fn himzolven_check(v: u32, k: u32, design: *const u16, length: usize) -> Answer;
    fn himzolven_sizes(v: u32, k: u32, g: u32, u: u32, design: *const u16, length: usize) -> SizesAnswer;
    fn himzolven_map(v: u32, k: u32, g: u32, u: u32, design: *const u16, length: usize, user_unit: u32) -> MapAnswer;
    fn himzolven_role(
        v: u32,
        k: u32,
        g: u32,
        u: u32,
        design: *const u16,
        length: usize,
        disk: u32,
        unit: u32,
    ) -> RoleAnswer;
    fn himzolven_plan(
        v: u32,
        k: u32,
        g: u32,
        u: u32,
        design: *const u16,
        length: usize,
        disk: u32,
        list: *mut u32,
        list_length: usize,
    ) -> CountAnswer;
}

/// Asks the proved library to fill the list.
pub fn fill(v: u32, list: &mut [u16]) -> Answer {
    // SAFETY: pointer and length are those of a list lent to write.
    unsafe { himzolven_fill(v, list.as_mut_ptr(), list.len()) }
}

/// Asks the proved library to fill no list at all: NULL with length 0.
pub fn fill_null(v: u32) -> Answer {
    // SAFETY: the interface allows NULL with length 0.
    unsafe { himzolven_fill(v, std::ptr::null_mut(), 0) }
}

/// The design as it is passed; an empty one as NULL.
fn passed(design: &[u16]) -> (*const u16, usize) {
    let start = if design.is_empty() { std::ptr::null() } else { design.as_ptr() };
    (start, design.len())
}

pub fn check(v: u32, k: u32, design: &[u16]) -> Answer {
    let (start, length) = passed(design);
    // SAFETY: pointer and length are those of a list lent to read, or NULL and 0; likewise below.
    unsafe { himzolven_check(v, k, start, length) }
}

pub fn sizes(at: &Geometry) -> SizesAnswer {
    let (start, length) = passed(at.design);
    unsafe { himzolven_sizes(at.v, at.k, at.g, at.u, start, length) }
}

pub fn map(at: &Geometry, user_unit: u32) -> MapAnswer {
    let (start, length) = passed(at.design);
    unsafe { himzolven_map(at.v, at.k, at.g, at.u, start, length, user_unit) }
}

pub fn role(at: &Geometry, disk: u32, unit: u32) -> RoleAnswer {
    let (start, length) = passed(at.design);
    unsafe { himzolven_role(at.v, at.k, at.g, at.u, start, length, disk, unit) }
}

/// The plan's list, if it is empty, is passed as NULL.
pub fn plan(at: &Geometry, disk: u32, list: &mut [u32]) -> CountAnswer {
    let (start, length) = passed(at.design);
    let to = if list.is_empty() { std::ptr::null_mut() } else { list.as_mut_ptr() };
    unsafe { himzolven_plan(at.v, at.k, at.g, at.u, start, length, disk, to, list.len()) }
}

/// The independent program's answers in the interface's form: on refusal every other field is 0, and on acceptance
/// refusal and place are 0.
pub trait Flat: Copy + Debug + PartialEq {
    type Value;
    fn refused(refusal: Refusal) -> Self;
    fn accepted(value: Self::Value) -> Self;

    fn flat(result: Result<Self::Value, Refusal>) -> Self {
        match result {
            Ok(value) => Self::accepted(value),
            Err(refusal) => Self::refused(refusal),
        }
    }
}

impl Flat for Answer {
    type Value = ();

    fn refused(Refusal { number, place }: Refusal) -> Self {
        Answer { refusal: number, place }
    }

    fn accepted((): ()) -> Self {
        Answer::default()
    }
}

impl Flat for SizesAnswer {
    type Value = Sizes;

    fn refused(Refusal { number, place }: Refusal) -> Self {
        SizesAnswer { refusal: number, place, ..Default::default() }
    }

    fn accepted(sizes: Sizes) -> Self {
        let Sizes { parts, tuples, disks, units, user_units, sets, bytes } = sizes;
        SizesAnswer { refusal: 0, place: 0, parts, tuples, disks, units, user_units, sets, bytes }
    }
}

impl Flat for MapAnswer {
    type Value = Map;

    fn refused(Refusal { number, place }: Refusal) -> Self {
        MapAnswer { refusal: number, place, ..Default::default() }
    }

    fn accepted(Map { data, outer, inner, both }: Map) -> Self {
        MapAnswer {
            refusal: 0,
            place: 0,
            data_disk: data.disk,
            data_unit: data.unit,
            outer_disk: outer.disk,
            outer_unit: outer.unit,
            inner_disk: inner.disk,
            inner_unit: inner.unit,
            both_disk: both.disk,
            both_unit: both.unit,
        }
    }
}

impl Flat for CountAnswer {
    type Value = u32;

    fn refused(Refusal { number, place }: Refusal) -> Self {
        CountAnswer { refusal: number, place, count: 0 }
    }

    fn accepted(count: u32) -> Self {
        CountAnswer { refusal: 0, place: 0, count }
    }
}

impl Flat for RoleAnswer {
    type Value = Role;

    fn refused(Refusal { number, place }: Refusal) -> Self {
        RoleAnswer { refusal: number, place, ..Default::default() }
    }

    fn accepted(role: Role) -> Self {
        let (kind, a, b, c) = match role {
            Role::User(n) => (0, n, 0, 0),
            Role::Outer { t, i, c } => (1, t, i, c),
            Role::Inner { t, l, j } => (2, t, l, j),
        };
        RoleAnswer { refusal: 0, place: 0, kind, a, b, c }
    }
}
