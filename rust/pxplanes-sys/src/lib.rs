//! The calls of include/pxplanes.h, which says all that is owed and given; a case of the tools compares these structs with its own.
#![no_std]

pub const OK: u32 = 0;
pub const USAGE: u32 = 2;
pub const MALFORMED: u32 = 3;
pub const LIMIT: u32 = 4;
pub const MEMORY: u32 = 7;
pub const NO_ROOM: u32 = 8;
pub const NO_CLOCK: u32 = 9;
pub const NO_GRID: u32 = 10;
pub const NO_MICRO: u32 = 11;
pub const NO_OPERATION: u32 = 12;
pub const NO_WINDOW: u32 = 13;
pub const NO_FACE: u32 = 14;

pub const FACE_NEAR: u32 = 1;
pub const FACE_FRONT: u32 = 2;
pub const FACE_BACK: u32 = 3;

/// A solid's name has at most so many bytes.
pub const MAX_NAME: usize = 32;

/// Memory bits of a pixel.
pub const BITS: u32 = 72;

/// `struct pxplanes_found`.
#[repr(C)]
#[derive(Clone, Copy, Debug, Default, PartialEq, Eq)]
pub struct Found {
    pub width: u32,
    pub height: u32,
    pub faces: u32,
    pub line: u32,
    pub cause: u32,
    pub kind: u32,
    pub number: i64,
    pub operations: u64,
    pub clocks: u64,
    pub room: u64,
}

/// `struct pxplanes_moment`.
#[repr(C)]
#[derive(Clone, Copy, Debug, Default, PartialEq, Eq)]
pub struct Moment {
    pub grid_width: u32,
    pub grid_height: u32,
    pub words_per_row: u32,
    pub bits: u32,
    pub levels: u32,
    pub clock: u64,
    pub clocks: u64,
    pub operation: u64,
    pub operation_clock: u64,
    pub next_micro: u64,
}

/// `struct pxplanes_numbered_face`.
#[repr(C)]
#[derive(Clone, Copy, Debug, Default, PartialEq, Eq)]
pub struct Face {
    pub solid: u32,
    pub kind: u32,
    pub plane: u32,
    pub line: u32,
    pub red: u32,
    pub green: u32,
    pub blue: u32,
}

/// `struct pxplanes_operation`.
#[repr(C)]
#[derive(Clone, Copy, Debug, Default, PartialEq, Eq)]
pub struct Operation {
    pub numbers: [i64; 5],
    pub clock: u64,
    pub pass: u64,
    pub literal: u64,
    pub kind: u32,
    pub numbers_count: u32,
    pub role: u32,
    pub solid: u32,
    pub face: u32,
    pub other: u32,
}

extern "C" {
    pub fn pxplanes_check(text: *const u8, text_len: usize, found: *mut Found) -> u32;
    pub fn pxplanes_render(
        text: *const u8, text_len: usize, depths: *mut u32, depths_len: usize, faces: *mut u32, faces_len: usize,
        found: *mut Found,
    ) -> u32;
    pub fn pxplanes_window(
        text: *const u8, text_len: usize, x: u32, y: u32, width: u32, height: u32, depths: *mut u32, depths_len: usize,
        faces: *mut u32, faces_len: usize, found: *mut Found,
    ) -> u32;
    pub fn pxplanes_face(
        text: *const u8, text_len: usize, number: u32, name: *mut u8, name_len: usize, face: *mut Face, found: *mut Found,
    ) -> u32;
    pub fn pxplanes_colour(text: *const u8, text_len: usize, rgb: *mut u8, rgb_len: usize, found: *mut Found) -> u32;
    pub fn pxplanes_products(
        text: *const u8, text_len: usize, literals: *mut i32, literals_len: usize, found: *mut Found,
    ) -> u32;
    pub fn pxplanes_state(
        text: *const u8, text_len: usize, clock: u64, words: *mut u64, words_len: usize, state: *mut Moment,
        found: *mut Found,
    ) -> u32;
    pub fn pxplanes_micros(
        text: *const u8, text_len: usize, first: u64, micros: *mut u64, micros_len: usize, found: *mut Found,
    ) -> u32;
    pub fn pxplanes_course(
        text: *const u8, text_len: usize, first: u64, course: *mut Operation, course_len: usize, found: *mut Found,
    ) -> u32;
    pub fn pxplanes_clocks(
        words: *mut u64, words_len: usize, grid_width: u32, grid_height: u32, micros: *const u64, micros_len: usize,
        found: *mut Found,
    ) -> u32;
    pub fn pxplanes_run(
        text: *const u8, text_len: usize, words: *const u8, words_len: usize, out: *mut u8, out_len: usize,
        found: *mut Found,
    ) -> u32;
    pub fn pxplanes_cause_name(cause: u32, name: *mut u8, name_len: usize) -> usize;
    pub fn pxplanes_kind_name(kind: u32, name: *mut u8, name_len: usize) -> usize;
    pub fn pxplanes_version(version: *mut u8, version_len: usize) -> usize;
}
