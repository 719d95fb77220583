//! The same with the crate.
use crate::values::{Hstore, Pair};
use bytes::{BufMut, BytesMut};
use fallible_iterator::FallibleIterator;
use postgres_protocol::types::{self, ArrayDimension};
use postgres_protocol::IsNull;
use std::error::Error;
use std::str;

type Answer = Result<usize, Box<dyn Error + Sync + Send>>;

pub fn read_array(bytes: &[u8]) -> usize {
    sum_array(bytes).expect("the array is valid")
}

pub fn read_hstore(bytes: &[u8]) -> usize {
    sum_hstore(bytes).expect("the hstore is valid")
}

pub fn read_path(bytes: &[u8]) -> usize {
    sum_path(bytes).expect("the path is valid")
}

/// The bytes of all elements.
fn sum_array(bytes: &[u8]) -> Answer {
    let array = types::array_from_sql(bytes)?;
    array.values().fold(0, |sum: usize, value| {
        Ok(sum.wrapping_add(value.map_or(0, <[u8]>::len)))
    })
}

/// The bytes of all keys and values.
fn sum_hstore(bytes: &[u8]) -> Answer {
    types::hstore_from_sql(bytes)?.fold(0, |sum: usize, (key, value)| {
        let sum = sum.wrapping_add(key.len());
        Ok(sum.wrapping_add(value.map_or(0, str::len)))
    })
}

/// How many points have the first coordinate below the second.
fn sum_path(bytes: &[u8]) -> Answer {
    let path = types::path_from_sql(bytes)?;
    path.points().fold(0, |sum: usize, point| {
        Ok(sum.wrapping_add(usize::from(point.x() < point.y())))
    })
}

pub fn write_array(words: &[i32], out: &mut BytesMut) -> usize {
    let dimension = ArrayDimension {
        len: words.len() as i32,
        lower_bound: 1,
    };
    let put = |word: &i32, out: &mut BytesMut| {
        out.put_i32(*word);
        Ok(IsNull::No)
    };
    out.clear();
    types::array_to_sql([dimension], 23, words, put, out).expect("the array is short");
    out.len()
}

pub fn write_path(pairs: &[Pair], out: &mut BytesMut) -> usize {
    let points = pairs.iter().map(|pair| (pair.x, pair.y));
    out.clear();
    types::path_to_sql(true, points, out).expect("the path is short");
    out.len()
}

pub fn write_hstore(entries: &[(&str, Option<&str>)], out: &mut BytesMut) -> usize {
    out.clear();
    types::hstore_to_sql(entries.iter().copied(), out).expect("the hstore is short");
    out.len()
}

/// From bytes that are not known to be text.
pub fn write_checked_hstore(hstore: &Hstore, out: &mut BytesMut) -> usize {
    let text = |part| str::from_utf8(part).expect("the pool has whole texts");
    let entries = hstore
        .parts()
        .map(|(key, value)| (text(key), Some(text(value))));
    out.clear();
    types::hstore_to_sql(entries, out).expect("the hstore is short");
    out.len()
}
