//! The writing functions of the crate.
use crate::{print, syntax, Answer, Refusal};
use bytes::{BufMut, BytesMut};
use postgres_protocol::types::{self, ArrayDimension, RangeBound};
use postgres_protocol::{IsNull, Oid};
use std::str;

type Written = Result<(), Refusal>;
type Item = Option<Vec<u8>>;

pub fn answer(kind: &str, words: &[&str]) -> Option<Answer> {
    let mut out = BytesMut::new();
    let written = match (kind, words) {
        ("array", [oid, dimensions, items]) => array(oid, dimensions, items, &mut out),
        ("range", [lower, upper]) => range(lower, upper, &mut out),
        ("hstore", [entries]) => hstore(entries, &mut out),
        ("varbit", [bits, value]) => varbit(bits, value, &mut out),
        ("point", [words]) => point(words, &mut out),
        ("box", [words]) => rectangle(words, &mut out),
        ("path", [closed, points]) => path(closed, points, &mut out),
        ("inet", [word]) => inet(word, &mut out),
        _ => None,
    }?;
    Some(written.map(|()| wrote(&out)))
}

pub fn empty_range() -> String {
    let mut out = BytesMut::new();
    types::empty_range_to_sql(&mut out);
    wrote(&out)
}

fn wrote(out: &[u8]) -> String {
    format!("wrote {}", print::bytes(out))
}

fn put(item: &Item, out: &mut BytesMut) -> IsNull {
    match item {
        Some(bytes) => {
            out.put_slice(bytes);
            IsNull::No
        }
        None => IsNull::Yes,
    }
}

fn array(oid: &str, dimensions: &str, items: &str, out: &mut BytesMut) -> Option<Written> {
    let oid = Oid::try_from(syntax::unsigned(oid)?).ok()?;
    let dimensions = syntax::list(dimensions, |word| {
        let (len, lower_bound) = syntax::pair(word, ':', syntax::signed)?;
        Some(ArrayDimension { len, lower_bound })
    })?;
    let items = syntax::list(items, syntax::nullable)?;
    Some(types::array_to_sql(
        dimensions,
        oid,
        items,
        |item, out| Ok(put(&item, out)),
        out,
    ))
}

fn range(lower: &str, upper: &str, out: &mut BytesMut) -> Option<Written> {
    let (lower, upper) = (bound(lower)?, bound(upper)?);
    Some(types::range_to_sql(
        |out| Ok(put_bound(lower, out)),
        |out| Ok(put_bound(upper, out)),
        out,
    ))
}

fn bound(word: &str) -> Option<RangeBound<Item>> {
    if word == "unb" {
        return Some(RangeBound::Unbounded);
    }
    match word.split_once(':')? {
        ("inc", value) => Some(RangeBound::Inclusive(syntax::nullable(value)?)),
        ("exc", value) => Some(RangeBound::Exclusive(syntax::nullable(value)?)),
        _ => None,
    }
}

fn put_bound(bound: RangeBound<Item>, out: &mut BytesMut) -> RangeBound<IsNull> {
    match bound {
        RangeBound::Inclusive(value) => RangeBound::Inclusive(put(&value, out)),
        RangeBound::Exclusive(value) => RangeBound::Exclusive(put(&value, out)),
        RangeBound::Unbounded => RangeBound::Unbounded,
    }
}

fn hstore(entries: &str, out: &mut BytesMut) -> Option<Written> {
    let entries = syntax::list(entries, |word| {
        let (key, value) = word.split_once('=')?;
        Some((syntax::bytes(key)?, syntax::nullable(value)?))
    })?;
    Some(put_entries(&entries, out))
}

/// The crate takes a `str`, so what is not UTF-8 is refused before it is called.
fn put_entries(entries: &[(Vec<u8>, Item)], out: &mut BytesMut) -> Written {
    let texts = entries
        .iter()
        .map(|(key, value)| {
            let value = value.as_deref().map(str::from_utf8).transpose()?;
            Ok((str::from_utf8(key)?, value))
        })
        .collect::<Result<Vec<_>, Refusal>>()?;
    types::hstore_to_sql(texts, out)
}

fn varbit(bits: &str, value: &str, out: &mut BytesMut) -> Option<Written> {
    let bits = usize::try_from(syntax::unsigned(bits)?).ok()?;
    let value = syntax::bytes(value)?;
    Some(types::varbit_to_sql(bits, value.into_iter(), out))
}

fn point(words: &str, out: &mut BytesMut) -> Option<Written> {
    let (x, y) = syntax::pair(words, ',', syntax::double)?;
    types::point_to_sql(x, y, out);
    Some(Ok(()))
}

fn rectangle(words: &str, out: &mut BytesMut) -> Option<Written> {
    let words: Option<Vec<f64>> = words.split(',').map(syntax::double).collect();
    let [x1, y1, x2, y2] = words?.try_into().ok()?;
    types::box_to_sql(x1, y1, x2, y2, out);
    Some(Ok(()))
}

fn path(closed: &str, points: &str, out: &mut BytesMut) -> Option<Written> {
    let closed = match closed {
        "0" => false,
        "1" => true,
        _ => return None,
    };
    let points = syntax::list(points, |word| syntax::pair(word, ':', syntax::double))?;
    Some(types::path_to_sql(closed, points, out))
}

fn inet(word: &str, out: &mut BytesMut) -> Option<Written> {
    let (address, mask) = syntax::address(word)?;
    types::inet_to_sql(address, mask, out);
    Some(Ok(()))
}
