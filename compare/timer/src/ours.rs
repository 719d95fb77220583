//! The functions of `cabi`. They ask nothing of their caller beyond their types.
use crate::values::{Hstore, Pair, Parts};

extern "C" {
    fn hemgyost_array_read(bytes: *const u8, length: usize) -> usize;
    fn hemgyost_hstore_read(bytes: *const u8, length: usize) -> usize;
    fn hemgyost_path_read(bytes: *const u8, length: usize) -> usize;
    fn hemgyost_array_write(
        len: i32,
        words: *const i32,
        count: usize,
        part: *mut u8,
        length: usize,
    ) -> usize;
    fn hemgyost_path_write(
        closed: bool,
        pairs: *const Pair,
        count: usize,
        again: usize,
        part: *mut u8,
        length: usize,
    ) -> usize;
    fn hemgyost_hstore_write(
        pool: *const u8,
        size: usize,
        rows: *const Parts,
        count: usize,
        again: usize,
        part: *mut u8,
        length: usize,
    ) -> usize;
}

pub fn read_array(bytes: &[u8]) -> usize {
    // SAFETY: a slice is its pointer and its length, here and below.
    unsafe { hemgyost_array_read(bytes.as_ptr(), bytes.len()) }
}

pub fn read_hstore(bytes: &[u8]) -> usize {
    unsafe { hemgyost_hstore_read(bytes.as_ptr(), bytes.len()) }
}

pub fn read_path(bytes: &[u8]) -> usize {
    unsafe { hemgyost_path_read(bytes.as_ptr(), bytes.len()) }
}

pub fn write_array(words: &[i32], part: &mut [u8]) -> usize {
    let (from, count) = (words.as_ptr(), words.len());
    unsafe { hemgyost_array_write(count as i32, from, count, part.as_mut_ptr(), part.len()) }
}

pub fn write_path(pairs: &[Pair], again: usize, part: &mut [u8]) -> usize {
    let (from, count) = (pairs.as_ptr(), pairs.len());
    unsafe { hemgyost_path_write(true, from, count, again, part.as_mut_ptr(), part.len()) }
}

pub fn write_hstore(hstore: &Hstore, again: usize, part: &mut [u8]) -> usize {
    let (pool, rows) = (hstore.pool.as_bytes(), &hstore.rows);
    let (from, count) = (rows.as_ptr(), rows.len());
    let (at, length) = (part.as_mut_ptr(), part.len());
    unsafe { hemgyost_hstore_write(pool.as_ptr(), pool.len(), from, count, again, at, length) }
}
