//! The words of a request. None stands for a malformed one.
use std::net::{IpAddr, Ipv4Addr, Ipv6Addr};

/// `x` and lower-case hexadecimal digits.
pub fn bytes(word: &str) -> Option<Vec<u8>> {
    let digits = word.strip_prefix('x')?.as_bytes();
    if digits.len() % 2 != 0 {
        return None;
    }
    digits
        .chunks_exact(2)
        .map(|pair| Some(digit(pair[0])? << 4 | digit(pair[1])?))
        .collect()
}

fn digit(c: u8) -> Option<u8> {
    match c {
        b'0'..=b'9' => Some(c - b'0'),
        b'a'..=b'f' => Some(c - b'a' + 10),
        _ => None,
    }
}

/// A byte string, or `NULL`.
pub fn nullable(word: &str) -> Option<Option<Vec<u8>>> {
    match word {
        "NULL" => Some(None),
        _ => bytes(word).map(Some),
    }
}

/// `[a,b,c]`, each word read by `item`.
pub fn list<T>(word: &str, item: impl Fn(&str) -> Option<T>) -> Option<Vec<T>> {
    match word.strip_prefix('[')?.strip_suffix(']')? {
        "" => Some(Vec::new()),
        inner => inner.split(',').map(item).collect(),
    }
}

/// Decimal digits alone.
pub fn unsigned(word: &str) -> Option<u64> {
    if word.bytes().all(|c| c.is_ascii_digit()) {
        word.parse().ok()
    } else {
        None
    }
}

/// Decimal digits with or without a minus, in 32 bits.
pub fn signed(word: &str) -> Option<i32> {
    let size = i64::try_from(unsigned(word.strip_prefix('-').unwrap_or(word))?).ok()?;
    i32::try_from(if word.starts_with('-') { -size } else { size }).ok()
}

/// The bits of a double in sixteen digits.
pub fn double(word: &str) -> Option<f64> {
    Some(f64::from_bits(number_of(word, 16)? as u64))
}

/// Two words around a separator.
pub fn pair<T>(word: &str, separator: char, item: impl Fn(&str) -> Option<T>) -> Option<(T, T)> {
    let (first, second) = word.split_once(separator)?;
    Some((item(first)?, item(second)?))
}

/// An address of either family, and its mask.
pub fn address(word: &str) -> Option<(IpAddr, u8)> {
    let (address, mask) = word.split_once('/')?;
    let address = match address.split_once(':')? {
        ("v4", digits) => IpAddr::V4(Ipv4Addr::from(number_of(digits, 8)? as u32)),
        ("v6", digits) => IpAddr::V6(Ipv6Addr::from(number_of(digits, 32)?)),
        _ => return None,
    };
    Some((address, u8::try_from(unsigned(mask)?).ok()?))
}

/// A number in just so many lower-case hexadecimal digits.
fn number_of(digits: &str, length: usize) -> Option<u128> {
    if digits.len() != length {
        return None;
    }
    digits
        .bytes()
        .try_fold(0, |n, c| Some(n << 4 | u128::from(digit(c)?)))
}
