//! Layers of arrays and ranges over one kind of value, read to the end at every level.
use crate::Refusal;
use fallible_iterator::FallibleIterator;
use postgres_protocol::types::{self, Range, RangeBound};

type Checked = Result<(), Refusal>;

pub enum Pile {
    Array(Box<Pile>),
    Range(Box<Pile>),
    Bottom(fn(&[u8]) -> Checked),
}

/// A pile such as `array(range(int4))`.
pub fn parse(word: &str) -> Option<Pile> {
    let inner = |layer| parse(word.strip_prefix(layer)?.strip_suffix(')')?).map(Box::new);
    if word.ends_with(')') {
        return inner("array(")
            .map(Pile::Array)
            .or_else(|| inner("range(").map(Pile::Range));
    }
    bottom(word).map(Pile::Bottom)
}

fn bottom(word: &str) -> Option<fn(&[u8]) -> Checked> {
    Some(match word {
        "int4" => |value| types::int4_from_sql(value).map(drop),
        "int8" => |value| types::int8_from_sql(value).map(drop),
        "text" => |value| types::text_from_sql(value).map(drop),
        "point" => |value| types::point_from_sql(value).map(drop),
        "box" => |value| types::box_from_sql(value).map(drop),
        "path" => |value| exhaust(types::path_from_sql(value)?.points()),
        "varbit" => |value| types::varbit_from_sql(value).map(drop),
        "hstore" => |value| exhaust(types::hstore_from_sql(value)?),
        "inet" => |value| types::inet_from_sql(value).map(drop),
        _ => return None,
    })
}

fn exhaust<I: FallibleIterator<Error = Refusal>>(items: I) -> Checked {
    items.for_each(|_| Ok(()))
}

impl Pile {
    pub fn check(&self, value: &[u8]) -> Checked {
        match self {
            Pile::Array(below) => check_array(below, value),
            Pile::Range(below) => check_range(below, value),
            Pile::Bottom(check) => check(value),
        }
    }
}

fn check_array(below: &Pile, value: &[u8]) -> Checked {
    let array = types::array_from_sql(value)?;
    exhaust(array.dimensions())?;
    array.values().for_each(|item| match item {
        Some(payload) => below.check(payload),
        None => Ok(()),
    })
}

fn check_range(below: &Pile, value: &[u8]) -> Checked {
    let Range::Nonempty(lower, upper) = types::range_from_sql(value)? else {
        return Ok(());
    };
    for bound in [lower, upper] {
        if let RangeBound::Inclusive(Some(payload)) | RangeBound::Exclusive(Some(payload)) = bound {
            below.check(payload)?;
        }
    }
    Ok(())
}
