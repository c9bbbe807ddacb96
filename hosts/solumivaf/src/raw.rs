//! The functions of libsolumivaf.a as hosts/solumivaf.h declares them.

use crate::{Read, Record, Told};

extern "C" {
    pub fn solumivaf_version() -> usize;

    pub fn solumivaf_open(
        tiles: usize,
        side: usize,
        workers: usize,
        matrix: *const f64,
        matrix_length: usize,
        lists: *mut u8,
        lists_length: usize,
        records: *mut Record,
        records_length: usize,
        busy: *mut u8,
        task: *mut u16,
        column: *mut u8,
        count: usize,
        number: *mut u32,
    ) -> Told;

    pub fn solumivaf_take(
        tiles: usize,
        side: usize,
        workers: usize,
        matrix: *const f64,
        matrix_length: usize,
        lists: *const u8,
        lists_length: usize,
        records: *mut Record,
        records_length: usize,
        busy: *mut u8,
        task: *mut u16,
        column: *mut u8,
        count: usize,
        number: *mut u32,
        w: usize,
        p: usize,
    ) -> Told;

    pub fn solumivaf_column(
        tiles: usize,
        side: usize,
        workers: usize,
        matrix: *mut f64,
        matrix_length: usize,
        lists: *mut u8,
        lists_length: usize,
        records: *mut Record,
        records_length: usize,
        busy: *mut u8,
        task: *mut u16,
        column: *mut u8,
        count: usize,
        number: *mut u32,
        w: usize,
    ) -> Told;

    pub fn solumivaf_run(
        tiles: usize,
        side: usize,
        workers: usize,
        matrix: *mut f64,
        matrix_length: usize,
        lists: *mut u8,
        lists_length: usize,
        records: *mut Record,
        records_length: usize,
        busy: *mut u8,
        task: *mut u16,
        column: *mut u8,
        count: usize,
        number: *mut u32,
        budget: u64,
    ) -> Told;

    pub fn solumivaf_outcome(
        tiles: usize,
        side: usize,
        workers: usize,
        matrix: *const f64,
        matrix_length: usize,
        lists: *const u8,
        lists_length: usize,
        records: *const Record,
        records_length: usize,
        busy: *const u8,
        task: *const u16,
        column: *const u8,
        count: usize,
        number: u32,
    ) -> Told;

    pub fn solumivaf_solve(
        tiles: usize,
        side: usize,
        workers: usize,
        matrix: *const f64,
        matrix_length: usize,
        lists: *const u8,
        lists_length: usize,
        records: *const Record,
        records_length: usize,
        busy: *const u8,
        task: *const u16,
        column: *const u8,
        count: usize,
        number: u32,
        right: *const f64,
        right_length: usize,
        answers: *mut f64,
        answers_length: usize,
    ) -> Told;

    pub fn solumivaf_read_sizes(text: *const u8, text_length: usize) -> Read;

    pub fn solumivaf_read_system(
        text: *const u8,
        text_length: usize,
        matrix: *mut f64,
        matrix_length: usize,
    ) -> Read;

    pub fn solumivaf_read_result(
        text: *const u8,
        text_length: usize,
        matrix: *mut f64,
        matrix_length: usize,
        lists: *mut u8,
        lists_length: usize,
    ) -> Read;

    pub fn solumivaf_write_system(
        tiles: usize,
        side: usize,
        matrix: *const f64,
        matrix_length: usize,
        text: *mut u8,
        text_length: usize,
    ) -> Told;

    pub fn solumivaf_write_result(
        tiles: usize,
        side: usize,
        matrix: *const f64,
        matrix_length: usize,
        lists: *const u8,
        lists_length: usize,
        kind: u8,
        place: u16,
        text: *mut u8,
        text_length: usize,
    ) -> Told;
}
