//! Times `cabi` and the crate on the same values, by turns, and prints a table of medians.
mod ours;
mod theirs;
mod values;

use bytes::BytesMut;
use std::hint::black_box;
use std::time::{Duration, Instant};
use values::{Hstore, Pair};

/// How often each side is timed.
const TURNS: usize = 21;

/// What our part holds before the first write.
const FILLED: u8 = 0xA5;

fn main() {
    println!("| case | bytes | ours | crate | ratio |");
    println!("|---|---:|---:|---:|---:|");
    array("int4 array", &values::words(1_000_000));
    hstore("hstore, short ASCII", &values::short_ascii(10_000), 20);
    hstore("hstore, long non-ASCII", &values::long_foreign(10_000), 4);
    path("path", &values::points(100_000), 20);
}

fn array(name: &str, words: &[i32]) {
    let mut out = BytesMut::with_capacity(20 + 8 * words.len());
    let size = theirs::write_array(words, &mut out);
    let value = out.to_vec();
    read(name, &value, 1, ours::read_array, theirs::read_array);
    let mut part = vec![FILLED; size];
    write(
        name,
        size,
        || timed(1, size, || ours::write_array(words, &mut part)),
        || timed(1, size, || theirs::write_array(words, &mut out)),
    );
    assert!(part == value && out == value, "both write the same bytes");
}

fn hstore(name: &str, hstore: &Hstore, times: usize) {
    let entries = hstore.entries();
    let mut out = BytesMut::with_capacity(4 + 8 * entries.len() + hstore.pool.len());
    let size = theirs::write_hstore(&entries, &mut out);
    let value = out.to_vec();
    read(name, &value, times, ours::read_hstore, theirs::read_hstore);
    let mut part = vec![FILLED; size];
    write_again(
        name,
        size,
        times,
        |again| ours::write_hstore(hstore, again, &mut part),
        || theirs::write_hstore(&entries, &mut out),
    );
    write_again(
        &format!("{name}, from bytes"),
        size,
        times,
        |again| ours::write_hstore(hstore, again, &mut part),
        || theirs::write_checked_hstore(hstore, &mut out),
    );
    assert!(part == value && out == value, "both write the same bytes");
}

fn path(name: &str, pairs: &[Pair], times: usize) {
    let mut out = BytesMut::with_capacity(5 + 16 * pairs.len());
    let size = theirs::write_path(pairs, &mut out);
    let value = out.to_vec();
    read(name, &value, times, ours::read_path, theirs::read_path);
    let mut part = vec![FILLED; size];
    write_again(
        name,
        size,
        times,
        |again| ours::write_path(pairs, again, &mut part),
        || theirs::write_path(pairs, &mut out),
    );
    assert!(part == value && out == value, "both write the same bytes");
}

fn read(
    name: &str,
    value: &[u8],
    times: usize,
    ours: fn(&[u8]) -> usize,
    theirs: fn(&[u8]) -> usize,
) {
    let sum = theirs(value);
    row(
        &format!("read {name}"),
        value.len(),
        || timed(times, sum, || ours(black_box(value))),
        || timed(times, sum, || theirs(black_box(value))),
    );
}

fn write(
    name: &str,
    size: usize,
    ours: impl FnMut() -> Duration,
    theirs: impl FnMut() -> Duration,
) {
    row(&format!("write {name}"), size, ours, theirs);
}

/// A write whose input has to be laid out on our side, written so many times more.
fn write_again(
    name: &str,
    size: usize,
    times: usize,
    mut ours: impl FnMut(usize) -> usize,
    mut theirs: impl FnMut() -> usize,
) {
    write(
        name,
        size,
        || timed_again(times, size, &mut ours),
        || timed(times, size, &mut theirs),
    );
}

/// The time of a call, by the mean over so many of them, each with the expected answer.
fn timed(times: usize, expected: usize, mut call: impl FnMut() -> usize) -> Duration {
    let start = Instant::now();
    for _ in 0..times {
        assert_eq!(black_box(call()), expected, "both sides answer the same");
    }
    start.elapsed() / times as u32
}

/// The time of a write alone: that of a call which lays out its input and writes once is taken from
/// that of a call which writes so many times more.
fn timed_again(times: usize, expected: usize, mut call: impl FnMut(usize) -> usize) -> Duration {
    let once = timed(1, expected, || call(0));
    let all = timed(1, expected, || call(times));
    all.saturating_sub(once) / times as u32
}

/// Both sides by turns, and their medians.
fn row(
    name: &str,
    size: usize,
    mut ours: impl FnMut() -> Duration,
    mut theirs: impl FnMut() -> Duration,
) {
    let mut times = [Vec::new(), Vec::new()];
    for _ in 0..TURNS {
        times[0].push(ours());
        times[1].push(theirs());
    }
    let [ours, theirs] = times.map(median);
    let ratio = theirs / ours;
    println!("| {name} | {size} | {ours:.0} µs | {theirs:.0} µs | {ratio:.2} |");
}

/// In microseconds.
fn median(mut times: Vec<Duration>) -> f64 {
    times.sort();
    times[times.len() / 2].as_secs_f64() * 1e6
}
