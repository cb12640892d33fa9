//! The library as `include/himzolven.h` declares it; a test holds each name, type and number here to that file.

#[cfg(test)]
mod tests;

pub const ACCEPTED: u32 = 0;
pub const NOT_HELD: u32 = 1;
pub const BEYOND_LIMITS: u32 = 2;
pub const NOT_WHOLE: u32 = 3;
pub const BAD_ROW: u32 = 4;
pub const BAD_PAIR: u32 = 5;
pub const BAD_SIZE: u32 = 6;
pub const BAD_LENGTH: u32 = 7;
pub const BAD_MARK: u32 = 8;
pub const DISK_TOO_HIGH: u32 = 9;
pub const USER_TOO_HIGH: u32 = 10;
pub const BAD_RANGE: u32 = 11;
pub const LOST: u32 = 12;
pub const INCOMPLETE: u32 = 13;
pub const SHORT_LIST: u32 = 14;

pub const USER: u32 = 0;
pub const OUTER: u32 = 1;
pub const INNER: u32 = 2;

#[repr(C)]
pub struct Answer {
    pub refusal: u32,
    pub place: u32,
}

#[repr(C)]
pub struct SizesAnswer {
    pub refusal: u32,
    pub place: u32,
    pub parts: u32,
    pub tuples: u32,
    pub disks: u32,
    pub units: u32,
    pub user_units: u32,
    pub sets: u32,
    pub bytes: u64,
}

#[repr(C)]
pub struct MapAnswer {
    pub refusal: u32,
    pub place: u32,
    pub data_disk: u32,
    pub data_unit: u32,
    pub outer_disk: u32,
    pub outer_unit: u32,
    pub inner_disk: u32,
    pub inner_unit: u32,
    pub both_disk: u32,
    pub both_unit: u32,
}

#[repr(C)]
pub struct RoleAnswer {
    pub refusal: u32,
    pub place: u32,
    pub kind: u32,
    pub a: u32,
    pub b: u32,
    pub c: u32,
}

#[repr(C)]
pub struct AuditAnswer {
    pub refusal: u32,
    pub place: u32,
    pub bad: u32,
    pub lowest: u32,
}

#[repr(C)]
pub struct CountAnswer {
    pub refusal: u32,
    pub place: u32,
    pub count: u32,
}

// SAFETY: the tests hold each declaration to the header, and scripts/header-check holds the header to the library's source.
#[allow(unsafe_code)]
unsafe extern "C" {
    pub fn himzolven_fill(v: u32, design: *mut u16, design_length: usize) -> Answer;

    pub fn himzolven_check(v: u32, k: u32, design: *const u16, design_length: usize) -> Answer;

    pub fn himzolven_sizes(v: u32, k: u32, g: u32, u: u32, design: *const u16, design_length: usize) -> SizesAnswer;

    pub fn himzolven_map(
        v: u32,
        k: u32,
        g: u32,
        u: u32,
        design: *const u16,
        design_length: usize,
        user_unit: u32,
    ) -> MapAnswer;

    pub fn himzolven_role(
        v: u32,
        k: u32,
        g: u32,
        u: u32,
        design: *const u16,
        design_length: usize,
        disk: u32,
        unit: u32,
    ) -> RoleAnswer;

    pub fn himzolven_format(
        v: u32,
        k: u32,
        g: u32,
        u: u32,
        design: *const u16,
        design_length: usize,
        array: *mut u8,
        array_length: usize,
        marks: *mut u8,
        marks_length: usize,
    ) -> Answer;

    pub fn himzolven_read(
        v: u32,
        k: u32,
        g: u32,
        u: u32,
        design: *const u16,
        design_length: usize,
        array: *const u8,
        array_length: usize,
        marks: *const u8,
        marks_length: usize,
        user_unit: u32,
        offset: u64,
        bytes: *mut u8,
        bytes_length: usize,
    ) -> Answer;

    pub fn himzolven_write(
        v: u32,
        k: u32,
        g: u32,
        u: u32,
        design: *const u16,
        design_length: usize,
        array: *mut u8,
        array_length: usize,
        marks: *const u8,
        marks_length: usize,
        user_unit: u32,
        offset: u64,
        bytes: *const u8,
        bytes_length: usize,
    ) -> Answer;

    pub fn himzolven_audit(
        v: u32,
        k: u32,
        g: u32,
        u: u32,
        design: *const u16,
        design_length: usize,
        array: *const u8,
        array_length: usize,
    ) -> AuditAnswer;

    pub fn himzolven_rebuild(
        v: u32,
        k: u32,
        g: u32,
        u: u32,
        design: *const u16,
        design_length: usize,
        array: *mut u8,
        array_length: usize,
        marks: *mut u8,
        marks_length: usize,
    ) -> CountAnswer;

    pub fn himzolven_plan(
        v: u32,
        k: u32,
        g: u32,
        u: u32,
        design: *const u16,
        design_length: usize,
        disk: u32,
        list: *mut u32,
        list_length: usize,
    ) -> CountAnswer;
}
