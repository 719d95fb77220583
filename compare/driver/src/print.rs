//! The words of an answer.
use fallible_iterator::FallibleIterator;
use postgres_protocol::types::Point;
use std::fmt::Write;

/// Every NaN is printed as this one.
const NAN: u64 = 0x7ff8_0000_0000_0000;

pub fn bytes(bytes: &[u8]) -> String {
    let mut out = String::with_capacity(1 + 2 * bytes.len());
    out.push('x');
    for b in bytes {
        for nibble in [b >> 4, b & 15] {
            out.push(char::from(b"0123456789abcdef"[usize::from(nibble)]));
        }
    }
    out
}

pub fn nullable(value: Option<&[u8]>) -> String {
    value.map_or_else(|| "NULL".into(), bytes)
}

pub fn double(value: f64) -> String {
    let bits = if value.is_nan() { NAN } else { value.to_bits() };
    format!("{bits:016x}")
}

pub fn point(point: Point, separator: char) -> String {
    format!("{}{separator}{}", double(point.x()), double(point.y()))
}

/// The items of a cursor up to its end, or up to its first fault, which is `!`. It never collects
/// them: room for as many as a value claims to have need not be there.
pub fn list<I>(mut items: I, print: impl Fn(I::Item) -> String) -> String
where
    I: FallibleIterator,
{
    let mut out = String::from("[");
    let mut separator = "";
    loop {
        match items.next() {
            Ok(None) => break,
            Ok(Some(item)) => write!(out, "{separator}{}", print(item)).expect("a string grows"),
            Err(_) => {
                out.push_str(separator);
                out.push('!');
                break;
            }
        }
        separator = ",";
    }
    out.push(']');
    out
}
