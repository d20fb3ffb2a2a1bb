//! The functions of kinolavust.h, which says what each does.
#![no_std]
#![allow(non_camel_case_types)]

use core::ffi::{c_char, c_int, c_uint, c_void};

/// An open database.
#[repr(C)]
pub struct kinolavust {
    _private: [u8; 0],
}

/// The rows of a reply.
#[repr(C)]
pub struct kinolavust_rows {
    _private: [u8; 0],
}

/// A statement that was read once.
#[repr(C)]
pub struct kinolavust_statement {
    _private: [u8; 0],
}

/// Of a new file and a new log. A zero stands for the default.
#[repr(C)]
#[derive(Clone, Copy, Debug, Default)]
pub struct kinolavust_options {
    pub page_size: u32,
    pub salts: u64,
}

pub const KINOLAVUST_OK: c_int = 0;
pub const KINOLAVUST_NULL: c_int = 0;
pub const KINOLAVUST_INTEGER: c_int = 1;
pub const KINOLAVUST_TEXT: c_int = 2;
pub const KINOLAVUST_BLOB: c_int = 3;

extern "C" {
    pub fn kinolavust_open(
        path: *const c_char,
        options: *const kinolavust_options,
        db: *mut *mut kinolavust,
    ) -> c_int;
    pub fn kinolavust_execute(
        db: *mut kinolavust,
        connection: c_uint,
        sql: *const c_char,
        len: usize,
        rows: *mut *mut kinolavust_rows,
    ) -> c_int;
    pub fn kinolavust_prepare(
        db: *mut kinolavust,
        sql: *const c_char,
        len: usize,
        statement: *mut *mut kinolavust_statement,
    ) -> c_int;
    pub fn kinolavust_parameter_count(statement: *const kinolavust_statement) -> usize;
    pub fn kinolavust_parameter_name(
        statement: *const kinolavust_statement,
        place: usize,
        len: *mut usize,
    ) -> *const c_char;
    pub fn kinolavust_parameter_place(
        statement: *const kinolavust_statement,
        name: *const c_char,
        len: usize,
    ) -> usize;
    pub fn kinolavust_bind_null(statement: *mut kinolavust_statement, place: usize) -> c_int;
    pub fn kinolavust_bind_integer(
        statement: *mut kinolavust_statement,
        place: usize,
        number: i64,
    ) -> c_int;
    pub fn kinolavust_bind_text(
        statement: *mut kinolavust_statement,
        place: usize,
        text: *const c_char,
        len: usize,
    ) -> c_int;
    pub fn kinolavust_bind_blob(
        statement: *mut kinolavust_statement,
        place: usize,
        bytes: *const c_void,
        len: usize,
    ) -> c_int;
    pub fn kinolavust_run(
        statement: *mut kinolavust_statement,
        connection: c_uint,
        rows: *mut *mut kinolavust_rows,
    ) -> c_int;
    pub fn kinolavust_finish(statement: *mut kinolavust_statement);
    pub fn kinolavust_refusal(db: *const kinolavust) -> c_int;
    pub fn kinolavust_message(db: *const kinolavust) -> *const c_char;
    pub fn kinolavust_place(db: *const kinolavust) -> u64;
    pub fn kinolavust_subject(db: *const kinolavust, len: *mut usize) -> *const c_char;
    pub fn kinolavust_name(number: c_int) -> *const c_char;
    pub fn kinolavust_row_count(rows: *const kinolavust_rows) -> usize;
    pub fn kinolavust_column_count(rows: *const kinolavust_rows, row: usize) -> usize;
    pub fn kinolavust_kind(rows: *const kinolavust_rows, row: usize, column: usize) -> c_int;
    pub fn kinolavust_integer(rows: *const kinolavust_rows, row: usize, column: usize) -> i64;
    pub fn kinolavust_bytes(
        rows: *const kinolavust_rows,
        row: usize,
        column: usize,
        len: *mut usize,
    ) -> *const c_void;
    pub fn kinolavust_free(rows: *mut kinolavust_rows);
    pub fn kinolavust_close(db: *mut kinolavust);
}
