//! The values that both sides read and write.
use std::str;

/// A text hstore: every key and value in one pool, and where they lie in it.
pub struct Hstore {
    pub pool: String,
    pub rows: Vec<Parts>,
}

/// As `cabi` declares it.
#[repr(C)]
#[derive(Clone, Copy)]
pub struct Parts {
    pub key: usize,
    pub key_length: usize,
    pub value: usize,
    pub value_length: usize,
}

/// As `cabi` declares it.
#[repr(C)]
#[derive(Clone, Copy)]
pub struct Pair {
    pub x: f64,
    pub y: f64,
}

/// Numbers that look random and are the same in every run.
struct Numbers(u64);

impl Numbers {
    fn next(&mut self) -> u64 {
        self.0 ^= self.0 << 13;
        self.0 ^= self.0 >> 7;
        self.0 ^= self.0 << 17;
        self.0
    }
}

pub fn words(count: usize) -> Vec<i32> {
    let mut numbers = Numbers(1);
    (0..count).map(|_| numbers.next() as i32).collect()
}

pub fn points(count: usize) -> Vec<Pair> {
    let mut numbers = Numbers(2);
    let mut coordinate = || (numbers.next() as i32) as f64 / 1024.0;
    (0..count)
        .map(|_| Pair {
            x: coordinate(),
            y: coordinate(),
        })
        .collect()
}

/// Keys of 4 to 11 ASCII characters, values of 0 to 15.
pub fn short_ascii(count: usize) -> Hstore {
    let letters: Vec<char> = ('a'..='z').chain('0'..='9').collect();
    hstore(count, &letters, |n| 4 + n % 8, |n| n % 16)
}

/// Keys of 16 to 31 characters, values of 64 to 191; each character has two to four bytes.
pub fn long_foreign(count: usize) -> Hstore {
    let letters: Vec<char> = "éßøжщλωאשقम語漢字한€😀🦀".chars().collect();
    hstore(count, &letters, |n| 16 + n % 16, |n| 64 + n % 128)
}

fn hstore(
    count: usize,
    letters: &[char],
    key_length: fn(usize) -> usize,
    value_length: fn(usize) -> usize,
) -> Hstore {
    let mut numbers = Numbers(3);
    let mut pool = String::new();
    let mut text = |length: fn(usize) -> usize| {
        let start = pool.len();
        let length = length(numbers.next() as usize >> 8);
        pool.extend((0..length).map(|_| letters[numbers.next() as usize % letters.len()]));
        (start, pool.len() - start)
    };
    let rows = (0..count)
        .map(|_| {
            let (key, key_length) = text(key_length);
            let (value, value_length) = text(value_length);
            Parts {
                key,
                key_length,
                value,
                value_length,
            }
        })
        .collect();
    Hstore { pool, rows }
}

impl Hstore {
    /// The bytes of each key and value.
    pub fn parts(&self) -> impl Iterator<Item = (&[u8], &[u8])> {
        let part = |start: usize, length: usize| &self.pool.as_bytes()[start..start + length];
        self.rows.iter().map(move |row| {
            (
                part(row.key, row.key_length),
                part(row.value, row.value_length),
            )
        })
    }

    /// The entries as the crate takes them.
    pub fn entries(&self) -> Vec<(&str, Option<&str>)> {
        let text = |part| str::from_utf8(part).expect("the pool has whole texts");
        self.parts()
            .map(|(key, value)| (text(key), Some(text(value))))
            .collect()
    }
}
