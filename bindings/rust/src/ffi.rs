//! The calls of the static library. `crates/nosgrivel_c/src` holds their contracts.

pub const NORMAL: u32 = 0;
pub const REFUSED: u32 = 1;
pub const NOT_NORMAL: u32 = 2;
pub const NO_MEMORY: u32 = 3;
pub const BAD_PATTERN: u32 = 6;

/// Rewrites the bytes as their minimal encoding, and writes its length to the last pointer.
///
/// Neither pointer may be null or overlap the other. The first must point to as many bytes as the length says.
pub type InPlace = unsafe extern "C" fn(*mut u8, usize, *mut usize) -> u32;

/// Checks the input, and writes a length to the last pointer.
///
/// Neither pointer may be null or overlap the other. The first must point to as many bytes as the length says.
pub type Question = unsafe extern "C" fn(*const u8, usize, *mut usize) -> u32;

/// Why and where a module is refused, as numbers. The header explains the fields.
#[repr(C)]
#[derive(Default)]
pub struct Refusal {
    pub status: u32,
    pub reason: u32,
    pub construct: u32,
    pub section_id: i32,
    pub at: u64,
    pub offset: u64,
    pub section: i64,
    pub item: i64,
    pub local_group: i64,
    pub instruction: i64,
    pub first: u64,
    pub second: u64,
}

extern "C" {
    pub fn nosgrivel_normalise_module_in_place(
        bytes: *mut u8,
        len: usize,
        count: *mut usize,
    ) -> u32;
    pub fn nosgrivel_normalise_instructions_in_place(
        bytes: *mut u8,
        len: usize,
        count: *mut usize,
    ) -> u32;
    pub fn nosgrivel_normalise_type_section_in_place(
        bytes: *mut u8,
        len: usize,
        count: *mut usize,
    ) -> u32;
    pub fn nosgrivel_normalise_code_section_in_place(
        bytes: *mut u8,
        len: usize,
        count: *mut usize,
    ) -> u32;

    pub fn nosgrivel_canonicalise_in_place(bytes: *mut u8, len: usize, count: *mut usize) -> u32;

    pub fn nosgrivel_rewrite_module(bytes: *mut u8, len: usize, count: *mut usize) -> u32;
    pub fn nosgrivel_rewrite_instructions(bytes: *mut u8, len: usize, count: *mut usize) -> u32;
    pub fn nosgrivel_rewrite_type_section(bytes: *mut u8, len: usize, count: *mut usize) -> u32;
    pub fn nosgrivel_rewrite_code_section(bytes: *mut u8, len: usize, count: *mut usize) -> u32;
    pub fn nosgrivel_rewrite_canonical(bytes: *mut u8, len: usize, count: *mut usize) -> u32;

    pub fn nosgrivel_judge_module(input: *const u8, len: usize, count: *mut usize) -> u32;
    pub fn nosgrivel_judge_instructions(input: *const u8, len: usize, count: *mut usize) -> u32;
    pub fn nosgrivel_judge_type_section(input: *const u8, len: usize, count: *mut usize) -> u32;
    pub fn nosgrivel_judge_code_section(input: *const u8, len: usize, count: *mut usize) -> u32;
    pub fn nosgrivel_judge_canonical(input: *const u8, len: usize, count: *mut usize) -> u32;

    pub fn nosgrivel_check_module(input: *const u8, len: usize, count: *mut usize) -> u32;
    pub fn nosgrivel_check_instructions(input: *const u8, len: usize, count: *mut usize) -> u32;
    pub fn nosgrivel_check_type_section(input: *const u8, len: usize, count: *mut usize) -> u32;
    pub fn nosgrivel_check_code_section(input: *const u8, len: usize, count: *mut usize) -> u32;
    pub fn nosgrivel_check_canonical(input: *const u8, len: usize, count: *mut usize) -> u32;

    pub fn nosgrivel_explain_module(
        input: *const u8,
        len: usize,
        strict: bool,
        refusal: *mut Refusal,
    ) -> u32;
    pub fn nosgrivel_message(refusal: *const Refusal, buffer: *mut u8, size: usize) -> usize;
    pub fn nosgrivel_strip(
        input: *const u8,
        input_len: usize,
        dropped: *const u8,
        dropped_len: usize,
        kept: *const u8,
        kept_len: usize,
        output: *mut u8,
        output_len: usize,
        count: *mut usize,
    ) -> u32;
}
