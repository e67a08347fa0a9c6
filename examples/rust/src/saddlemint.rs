//! Functions of include/saddlemint.h that the example and its test call. A
//! slice is its pointer and its length; the header says what each does.

#![allow(dead_code)]

extern "C" {
    pub fn saddlemint_load(book: *const u8, book_len: usize, shape: *mut u32, shape_len: usize) -> u32;
    pub fn saddlemint_encode(book: *const u8, book_len: usize, data: *const u8, data_len: usize, word: *mut u8, word_len: usize) -> u32;
    pub fn saddlemint_decode(
        book: *const u8, book_len: usize,
        visits: u32, paths: u32, limit: u32,
        values: *const i16, values_len: usize,
        word: *mut u8, word_len: usize,
        data: *mut u8, data_len: usize,
        numbers: *mut i32, numbers_len: usize,
        bytes: *mut u8, bytes_len: usize,
        walk_path: *mut i32, walk_path_len: usize,
        walk_blocks: *mut i32, walk_blocks_len: usize,
        walk_score: *mut i32, walk_score_len: usize,
        counts: *mut u32, counts_len: usize,
    ) -> u32;
    pub fn saddlemint_decode_hook(
        book: *const u8, book_len: usize,
        visits: u32, paths: u32, limit: u32,
        values: *const i16, values_len: usize,
        word: *mut u8, word_len: usize,
        data: *mut u8, data_len: usize,
        numbers: *mut i32, numbers_len: usize,
        bytes: *mut u8, bytes_len: usize,
        walk_path: *mut i32, walk_path_len: usize,
        walk_blocks: *mut i32, walk_blocks_len: usize,
        walk_score: *mut i32, walk_score_len: usize,
        counts: *mut u32, counts_len: usize,
        record: *mut u32, record_len: usize,
    ) -> u32;
}
