//! What the crate does that an answer line cannot show. docs/DIFFERENCES.md tells of it.
use fallible_iterator::FallibleIterator;
use postgres_protocol::types;
use std::panic;

fn words(words: &[u32]) -> Vec<u8> {
    words.iter().flat_map(|word| word.to_be_bytes()).collect()
}

/// The first length passes the end; the next call takes up behind it, and gives bytes that are not
/// the second element's.
#[test]
fn an_array_cursor_goes_on_behind_a_fault() {
    let value = words(&[1, 0, 23, 2, 1, 9, 4, 7]);
    let mut values = types::array_from_sql(&value).unwrap().values();
    assert!(values.next().is_err());
    assert_eq!(values.next().unwrap(), Some(Some(&7u32.to_be_bytes()[..])));
    assert_eq!(values.next().unwrap(), None);
}

#[test]
fn an_hstore_cursor_goes_on_behind_a_fault() {
    let value = words(&[2, u32::MAX, 0, 0]);
    let mut entries = types::hstore_from_sql(&value).unwrap();
    assert!(entries.next().is_err());
    assert_eq!(entries.next().unwrap(), Some(("", Some(""))));
    assert_eq!(entries.next().unwrap(), None);
}

#[test]
fn a_path_with_a_negative_count_gives_points() {
    let value = [&[0][..], &words(&[u32::MAX, 0, 0, 0, 0])].concat();
    let mut points = types::path_from_sql(&value).unwrap().points();
    assert!(points.next().unwrap().is_some());
    assert!(points.next().is_err());
}

/// The count goes down from the least number: a panic with overflow checks, none without.
#[test]
fn a_path_with_the_least_count_may_panic() {
    let value = [&[0][..], &words(&[0x8000_0000, 0, 0, 0, 0])].concat();
    let next = || {
        types::path_from_sql(&value)
            .unwrap()
            .points()
            .next()
            .is_ok()
    };
    let outcome = panic::catch_unwind(next);
    assert_eq!(outcome.is_err(), cfg!(debug_assertions));
}

/// The hint is what the value claims; a caller that makes room for it makes room for this.
#[test]
fn the_size_hint_is_not_tested() {
    let value = words(&[1, 0, 23, 0x7fff_ffff, 1]);
    let values = types::array_from_sql(&value).unwrap().values();
    assert_eq!(values.size_hint(), (0x7fff_ffff, Some(0x7fff_ffff)));
    let value = [&[0][..], &words(&[u32::MAX])].concat();
    let points = types::path_from_sql(&value).unwrap().points();
    assert_eq!(points.size_hint(), (usize::MAX, Some(usize::MAX)));
}

#[test]
fn the_bits_of_a_nan_are_kept() {
    let value = [0xfff8_0000_0000_0001u64, 0x7ff0_0000_0000_0001].map(u64::to_be_bytes);
    let point = types::point_from_sql(value.as_flattened()).unwrap();
    assert_eq!(
        [point.x(), point.y()].map(|c| c.to_bits().to_be_bytes()),
        value
    );
}
