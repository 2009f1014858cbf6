//! The C interface of the proved library, as in its header.

use crate::calls::{each_buffer, Record};

#[repr(C)]
pub struct Table {
    pub number: u32,
    pub bits: u32,
    pub checks: u32,
    pub edges: u32,
}

#[repr(C)]
pub struct Cut {
    pub number: u32,
    pub mask: u32,
    pub depth: u32,
}

#[repr(C)]
pub struct Called {
    pub number: u32,
    pub run: Record,
}

#[repr(C)]
pub struct Verdict {
    pub number: u32,
    pub kind: u32,
    pub value: i64,
    pub sole: u32,
}

#[repr(C)]
pub struct Agreement {
    pub number: u32,
    pub agreement: i64,
}

extern "C" {
    pub fn jugnayap_version() -> u32;
    pub fn jugnayap_check_table(code: *const u8, code_len: usize) -> Table;
    pub fn jugnayap_search_cut(
        code: *const u8,
        code_len: usize,
        spins: *const i32,
        spins_len: usize,
        check: usize,
    ) -> Cut;
    pub fn jugnayap_judge(
        code: *const u8,
        code_len: usize,
        frame: *const i16,
        frame_len: usize,
        word: *const u8,
        word_len: usize,
        certificate: *const u8,
        certificate_len: usize,
    ) -> Verdict;
    pub fn jugnayap_agreement(
        code: *const u8,
        code_len: usize,
        frame: *const i16,
        frame_len: usize,
        word: *const u8,
        word_len: usize,
    ) -> Agreement;
    pub fn jugnayap_start(
        code: *const u8,
        code_len: usize,
        copies: *mut i32,
        copies_len: usize,
        offsets: *mut i32,
        offsets_len: usize,
        sums: *mut i32,
        sums_len: usize,
    ) -> Called;
}

macro_rules! rounds {
    ($($name:ident: $element:ty, $need:ident;)*) => {
        extern "C" {
            pub fn jugnayap_rounds(
                code: *const u8,
                code_len: usize,
                frame: *const i16,
                frame_len: usize,
                run: Record,
                wanted: u32,
                $($name: *mut $element, _: usize,)*
            ) -> Called;
        }
    };
}
each_buffer!(rounds);
