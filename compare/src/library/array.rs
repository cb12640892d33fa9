//! The calls on the array in the proved library's C interface.

use super::{Answer, CountAnswer, Flat};
use compare::model::{Audit, Geometry, Refusal};
use std::ptr::{null, null_mut};

/// `bad`: how many sets don't XOR to zero; `lowest`: the lowest such number, 0 if none.
#[repr(C)]
#[derive(Clone, Copy, Debug, Default, PartialEq, Eq)]
pub struct AuditAnswer {
    pub refusal: u32,
    pub place: u32,
    pub bad: u32,
    pub lowest: u32,
}

extern "C" {
    fn himzolven_format(
        v: u32,
        k: u32,
        g: u32,
        u: u32,
        design: *const u16,
        length: usize,
        array: *mut u8,
        array_length: usize,
        marks: *mut u8,
        marks_length: usize,
    ) -> Answer;
    fn himzolven_read(
        v: u32,
        k: u32,
        g: u32,
        u: u32,
        design: *const u16,
        length: usize,
        array: *const u8,
        array_length: usize,
        marks: *const u8,
        marks_length: usize,
        user_unit: u32,
        offset: u64,
        bytes: *mut u8,
        bytes_length: usize,
    ) -> Answer;
    fn himzolven_write(
        v: u32,
        k: u32,
        g: u32,
        u: u32,
        design: *const u16,
        length: usize,
        array: *mut u8,
        array_length: usize,
        marks: *const u8,
        marks_length: usize,
        user_unit: u32,
        offset: u64,
        bytes: *const u8,
        bytes_length: usize,
    ) -> Answer;
    fn himzolven_audit(
        v: u32,
        k: u32,
        g: u32,
        u: u32,
        design: *const u16,
        length: usize,
        array: *const u8,
        array_length: usize,
    ) -> AuditAnswer;
    fn himzolven_rebuild(
        v: u32,
        k: u32,
        g: u32,
        u: u32,
        design: *const u16,
        length: usize,
        array: *mut u8,
        array_length: usize,
        marks: *mut u8,
        marks_length: usize,
    ) -> CountAnswer;
}

/// The calls with one geometry. Lists of length 0 are passed as NULL if `null`, else as they are.
pub struct Asking<'a> {
    pub at: Geometry<'a>,
    pub null: bool,
}

impl Asking<'_> {
    fn source<T>(&self, list: &[T]) -> *const T {
        if self.null && list.is_empty() {
            null()
        } else {
            list.as_ptr()
        }
    }

    fn target<T>(&self, list: &mut [T]) -> *mut T {
        if self.null && list.is_empty() {
            null_mut()
        } else {
            list.as_mut_ptr()
        }
    }

    pub fn format(&self, array: &mut [u8], marks: &mut [u8]) -> Answer {
        let Geometry { v, k, g, u, design } = self.at;
        let (n, to, of) = (design.len(), self.target(array), self.target(marks));
        // SAFETY: each pointer and length are those of a list lent to read or to write, or NULL and 0; likewise below.
        unsafe { himzolven_format(v, k, g, u, self.source(design), n, to, array.len(), of, marks.len()) }
    }

    pub fn read(&self, array: &[u8], marks: &[u8], user_unit: u32, offset: u64, bytes: &mut [u8]) -> Answer {
        let Geometry { v, k, g, u, design } = self.at;
        let (d, n, from, of) = (self.source(design), design.len(), self.source(array), self.source(marks));
        let (to, length) = (self.target(bytes), bytes.len());
        unsafe { himzolven_read(v, k, g, u, d, n, from, array.len(), of, marks.len(), user_unit, offset, to, length) }
    }

    pub fn write(&self, array: &mut [u8], marks: &[u8], user_unit: u32, offset: u64, bytes: &[u8]) -> Answer {
        let Geometry { v, k, g, u, design } = self.at;
        let (d, n, to, of) = (self.source(design), design.len(), self.target(array), self.source(marks));
        let (from, length) = (self.source(bytes), bytes.len());
        unsafe { himzolven_write(v, k, g, u, d, n, to, array.len(), of, marks.len(), user_unit, offset, from, length) }
    }

    pub fn audit(&self, array: &[u8]) -> AuditAnswer {
        let Geometry { v, k, g, u, design } = self.at;
        unsafe { himzolven_audit(v, k, g, u, self.source(design), design.len(), self.source(array), array.len()) }
    }

    pub fn rebuild(&self, array: &mut [u8], marks: &mut [u8]) -> CountAnswer {
        let Geometry { v, k, g, u, design } = self.at;
        let (n, to, of) = (design.len(), self.target(array), self.target(marks));
        unsafe { himzolven_rebuild(v, k, g, u, self.source(design), n, to, array.len(), of, marks.len()) }
    }
}

impl Flat for AuditAnswer {
    type Value = Audit;

    fn refused(Refusal { number, place }: Refusal) -> Self {
        AuditAnswer { refusal: number, place, ..Default::default() }
    }

    fn accepted(Audit { bad, lowest }: Audit) -> Self {
        AuditAnswer { refusal: 0, place: 0, bad, lowest }
    }
}
