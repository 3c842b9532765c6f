//! The archive's functions and structs, as include/lcf.h declares them.
use crate::{Place, Row};

#[repr(C)]
pub struct Written {
    pub refusal: u32,
    pub quotients: u32,
    pub characters: usize,
}

#[repr(C)]
pub struct Ratio {
    pub refusal: u32,
    pub numerator: u32,
    pub denominator: u32,
}

#[repr(C)]
pub struct Text {
    pub refusal: u32,
    pub characters: usize,
}

#[repr(C)]
pub struct Column {
    pub refusal: u32,
}

#[repr(C)]
pub struct Standing {
    pub refusal: u32,
    pub standing: u32,
}

#[repr(C)]
pub struct Started {
    pub refusal: u32,
    pub place: Place,
}

#[repr(C)]
pub struct Stepped {
    pub refusal: u32,
    pub quotient: u32,
    pub found: bool,
    pub place: Place,
}

#[repr(C)]
pub struct Stocked {
    pub refusal: u32,
    pub quantity: u32,
    pub used: usize,
    pub row: usize,
}

#[repr(C)]
pub struct Found {
    pub refusal: u32,
    pub quantity: u32,
    pub row: usize,
}

#[repr(C)]
pub struct Listed {
    pub refusal: u32,
    pub numerator: u32,
    pub denominator: u32,
    pub quantity: u32,
    pub row: usize,
    pub found: bool,
}

// Each pointer goes with the length after it; a table's is in bytes.
extern "C" {
    pub fn lcf_write_text(numerator: u32, denominator: u32, out: *mut u8, length: usize) -> Written;
    pub fn lcf_write_column(numerator: u32, denominator: u32, out: *mut u8, length: usize) -> Written;
    pub fn lcf_read_text(key: *const u8, length: usize) -> Ratio;
    pub fn lcf_read_column(column: *const u8, length: usize) -> Ratio;
    pub fn lcf_column_to_text(column: *const u8, column_length: usize, out: *mut u8, length: usize) -> Text;
    pub fn lcf_text_to_column(key: *const u8, key_length: usize, out: *mut u8, length: usize) -> Column;
    pub fn lcf_compare(first: *const u8, first_length: usize, second: *const u8, second_length: usize) -> Standing;
    pub fn lcf_earlier(first: *const u8, first_length: usize, second: *const u8, second_length: usize) -> u32;
    pub fn lcf_cut(key: *const u8, key_length: usize, width: usize, out: *mut u8, length: usize) -> Text;
    pub fn lcf_start(key: *const u8, length: usize) -> Started;
    pub fn lcf_step(key: *const u8, length: usize, place: Place) -> Stepped;
    pub fn lcf_stock_put(
        table: *mut Row,
        length: usize,
        used: usize,
        numerator: u32,
        denominator: u32,
        quantity: u32,
    ) -> Stocked;
    pub fn lcf_stock_take(
        table: *mut Row,
        length: usize,
        used: usize,
        numerator: u32,
        denominator: u32,
        quantity: u32,
    ) -> Stocked;
    pub fn lcf_stock_find(table: *const Row, length: usize, used: usize, numerator: u32, denominator: u32) -> Found;
    pub fn lcf_stock_from(table: *const Row, length: usize, used: usize, numerator: u32, denominator: u32) -> Listed;
}
