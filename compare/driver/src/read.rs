//! The reading functions of the crate, each printed to the end of its cursors.
use crate::{print, Answer};
use postgres_protocol::types::{self, Range, RangeBound};
use std::net::IpAddr;

pub fn answer(kind: &str, value: &[u8]) -> Option<Answer> {
    Some(match kind {
        "text" => types::text_from_sql(value).map(|_| "text ok".into()),
        "array" => array(value),
        "range" => range(value),
        "hstore" => hstore(value),
        "varbit" => varbit(value),
        "point" => point(value),
        "box" => rectangle(value),
        "path" => path(value),
        "inet" => inet(value),
        _ => return None,
    })
}

fn array(value: &[u8]) -> Answer {
    let array = types::array_from_sql(value)?;
    Ok(format!(
        "array nulls={} oid={} dims={} values={}",
        u8::from(array.has_nulls()),
        array.element_type(),
        print::list(array.dimensions(), |d| format!(
            "{}:{}",
            d.len, d.lower_bound
        )),
        print::list(array.values(), print::nullable),
    ))
}

fn range(value: &[u8]) -> Answer {
    Ok(match types::range_from_sql(value)? {
        Range::Empty => "range empty".into(),
        Range::Nonempty(lower, upper) => {
            format!("range lower={} upper={}", bound(lower), bound(upper))
        }
    })
}

fn bound(bound: RangeBound<Option<&[u8]>>) -> String {
    match bound {
        RangeBound::Inclusive(value) => format!("inc:{}", print::nullable(value)),
        RangeBound::Exclusive(value) => format!("exc:{}", print::nullable(value)),
        RangeBound::Unbounded => "unb".into(),
    }
}

fn hstore(value: &[u8]) -> Answer {
    let entries = types::hstore_from_sql(value)?;
    let listed = print::list(entries, |(key, value)| {
        let value = print::nullable(value.map(str::as_bytes));
        format!("{}={value}", print::bytes(key.as_bytes()))
    });
    Ok(format!("hstore {listed}"))
}

fn varbit(value: &[u8]) -> Answer {
    let bits = types::varbit_from_sql(value)?;
    Ok(format!(
        "varbit bits={} {}",
        bits.len(),
        print::bytes(bits.bytes())
    ))
}

fn point(value: &[u8]) -> Answer {
    let point = types::point_from_sql(value)?;
    Ok(format!("point {}", print::point(point, ',')))
}

fn rectangle(value: &[u8]) -> Answer {
    let corners = types::box_from_sql(value)?;
    Ok(format!(
        "box {},{}",
        print::point(corners.upper_right(), ','),
        print::point(corners.lower_left(), ','),
    ))
}

fn path(value: &[u8]) -> Answer {
    let path = types::path_from_sql(value)?;
    let points = print::list(path.points(), |p| print::point(p, ':'));
    Ok(format!("path closed={} {points}", u8::from(path.closed())))
}

fn inet(value: &[u8]) -> Answer {
    let inet = types::inet_from_sql(value)?;
    let mask = inet.netmask();
    Ok(match inet.addr() {
        IpAddr::V4(address) => format!("inet v4:{:08x}/{mask}", u32::from(address)),
        IpAddr::V6(address) => format!("inet v6:{:032x}/{mask}", u128::from(address)),
    })
}
