//! Document 01 again, with the order of pixels of Card 3, by counting and searching; the cycles of Card 4 are in classes.rs. It
//! shares no code with the library, only the types that the answers are compared in.

use crate::library::{Plan, Record};
use std::collections::HashSet;

/// A refusal's number and place.
pub type Refused = (u64, u64);

fn refuse<T>(number: u64) -> Result<T, Refused> {
    Err((number, 0))
}

// ---- whole numbers, by taking steps

/// z = q × d + r with 0 ≤ r < d.
pub fn divide(z: i64, d: i64) -> (i64, i64) {
    let (mut q, mut r) = (0, z);
    // long steps first, so that far numbers end soon
    let mut step = 1 << 20;
    while step > 0 {
        while r >= step * d {
            q += step;
            r -= step * d;
        }
        while r <= -step * d {
            q -= step;
            r += step * d;
        }
        step /= 2;
    }
    if r < 0 {
        q -= 1;
        r += d;
    }
    assert!(0 <= r && r < d && z == q * d + r);
    (q, r)
}

fn rounded_up(n: i64, d: i64) -> i64 {
    (0..).find(|m| n <= m * d).unwrap()
}

// ---- plans

pub fn is_plan(p: Plan) -> bool {
    let (a, b, d) = (u128::from(p.a), u128::from(p.b), u128::from(p.d));
    a >= 1 && d >= 1 && b < a && a * d <= 1024
}

fn is_side(n: u32) -> bool {
    (1..=4096).contains(&n)
}

/// v is a whole-number combination of x and y, by Cramer's rule.
pub fn is_combination(x: (i64, i64), y: (i64, i64), v: (i64, i64)) -> bool {
    let det = x.0 * y.1 - x.1 * y.0;
    let m = v.0 * y.1 - v.1 * y.0;
    let n = x.0 * v.1 - x.1 * v.0;
    det != 0 && m % det == 0 && n % det == 0
}

/// The only a, b, d whose lattice is that of x and y: every candidate is tried.
pub fn normal_form(x: (i64, i64), y: (i64, i64)) -> Result<Plan, Refused> {
    let det = x.0 * y.1 - x.1 * y.0;
    if det == 0 {
        return refuse(8);
    }
    let size = det.abs();
    if size > 1024 {
        return refuse(9);
    }
    let mut found = Vec::new();
    for d in 1..=size {
        if size % d != 0 {
            continue;
        }
        let a = size / d;
        for b in 0..a {
            let (u, v) = ((a, 0), (b, d));
            if is_combination(u, v, x) && is_combination(u, v, y) && is_combination(x, y, u) && is_combination(x, y, v) {
                found.push(Plan { a: a as u32, b: b as u32, d: d as u32 });
            }
        }
    }
    assert_eq!(found.len(), 1, "one normal form of {x:?} and {y:?}");
    Ok(found[0])
}

fn bank_of(p: Plan, v: (i64, i64)) -> i64 {
    let (q, r) = divide(v.1, p.d.into());
    r * i64::from(p.a) + divide(v.0 - i64::from(p.b) * q, p.a.into()).1
}

fn address_of(p: Plan, w: u32, v: (i64, i64)) -> i64 {
    divide(v.1, p.d.into()).0 * rounded_up(w.into(), p.a.into()) + divide(v.0, p.a.into()).0
}

fn depth_of(p: Plan, w: u32, h: u32) -> i64 {
    rounded_up(w.into(), p.a.into()) * rounded_up(h.into(), p.d.into())
}

pub fn bank(p: Plan, v: (i64, i64)) -> Result<i64, Refused> {
    if !is_plan(p) {
        return refuse(11);
    }
    Ok(bank_of(p, v))
}

pub fn depth(p: Plan, w: u32, h: u32) -> Result<i64, Refused> {
    if !is_plan(p) {
        return refuse(11);
    }
    if !is_side(w) || !is_side(h) {
        return refuse(12);
    }
    Ok(depth_of(p, w, h))
}

pub fn address(p: Plan, w: u32, h: u32, v: (i64, i64)) -> Result<i64, Refused> {
    depth(p, w, h)?;
    if v.0 < 0 || v.1 < 0 || v.0 >= w.into() || v.1 >= h.into() {
        return refuse(14);
    }
    Ok(address_of(p, w, v))
}

/// The pixel of a bank and an address: every pixel of the picture is asked.
pub fn locate(p: Plan, w: u32, h: u32, bank: u64, address: u64) -> Result<(i64, i64), Refused> {
    depth(p, w, h)?;
    let mut found = Vec::new();
    for j in 0..i64::from(h) {
        for i in 0..i64::from(w) {
            if bank_of(p, (i, j)) as u64 == bank && address_of(p, w, (i, j)) as u64 == address {
                found.push((i, j));
            }
        }
    }
    assert!(found.len() <= 1, "each pixel has its own word");
    found.pop().map_or(refuse(15), Ok)
}

// ---- books

pub type Pattern = Vec<(i64, i64)>;

fn small(z: i64) -> bool {
    (-16..=15).contains(&z)
}

/// v is lower than w: its row is lower, or in the same row its column.
pub fn is_lower(v: (i64, i64), w: (i64, i64)) -> bool {
    if v.1 == w.1 { v.0 < w.0 } else { v.1 < w.1 }
}

/// The same pixels in the order that a book has them in.
pub fn ordered(mut t: Pattern) -> Pattern {
    t.sort_by_key(|&(column, row)| (row, column));
    t
}

/// The patterns of a book's bytes, taken from the left one by one.
pub fn read(bytes: &[u8]) -> Result<Vec<Pattern>, Refused> {
    let end = bytes.len() as u64;
    let mut rest = bytes;
    let here = |rest: &[u8]| end - rest.len() as u64;
    let count = |rest: &mut &[u8], most: u8| -> Result<u8, Refused> {
        let place = here(rest);
        let (&n, after) = rest.split_first().ok_or((1, end))?;
        *rest = after;
        if n == 0 || n > most { Err((2, place)) } else { Ok(n) }
    };
    let mut book = Vec::new();
    for _ in 0..count(&mut rest, 16)? {
        let mut pattern = Pattern::new();
        let mut seen = HashSet::new();
        for _ in 0..count(&mut rest, 64)? {
            let place = here(rest);
            if rest.len() < 2 {
                return Err((1, end));
            }
            let v = (i64::from(rest[0] as i8), i64::from(rest[1] as i8));
            rest = &rest[2..];
            if !small(v.0) {
                return Err((3, place));
            }
            if !small(v.1) {
                return Err((3, place + 1));
            }
            if !seen.insert(v) {
                return Err((4, place));
            }
            if pattern.last().is_some_and(|&before| is_lower(v, before)) {
                return Err((19, place));
            }
            pattern.push(v);
        }
        book.push(pattern);
    }
    if rest.is_empty() { Ok(book) } else { Err((5, here(rest))) }
}

/// The record of patterns, unused entries 0.
pub fn record_of(book: &[Pattern]) -> Record {
    let mut r = Record { columns: [0; 1024], rows: [0; 1024], used: [0; 16], count: book.len() };
    for (n, t) in book.iter().enumerate() {
        r.used[n] = t.len();
        for (e, v) in t.iter().enumerate() {
            r.columns[64 * n + e] = v.0 as i8;
            r.rows[64 * n + e] = v.1 as i8;
        }
    }
    r
}

/// A pattern's part of a book's bytes: its place and its length.
pub fn part(bytes: &[u8], n: usize) -> Result<(usize, usize), Refused> {
    let book = read(bytes)?;
    if n >= book.len() {
        return refuse(17);
    }
    let before: usize = book[..n].iter().map(|t| 1 + 2 * t.len()).sum();
    Ok((1 + before + 1, 2 * book[n].len()))
}

/// A record's patterns, or what refuses it; the place is 0.
pub fn patterns_of(r: &Record) -> Result<Vec<Pattern>, Refused> {
    if !(1..=16).contains(&r.count) {
        return refuse(2);
    }
    let mut book = Vec::new();
    for n in 0..r.count {
        if !(1..=64).contains(&r.used[n]) {
            return refuse(2);
        }
        let mut t = Pattern::new();
        for e in 64 * n..64 * n + r.used[n] {
            let v = (i64::from(r.columns[e]), i64::from(r.rows[e]));
            if !small(v.0) || !small(v.1) {
                return refuse(3);
            }
            if t.contains(&v) {
                return refuse(4);
            }
            if !t.is_empty() && is_lower(v, t[t.len() - 1]) {
                return refuse(19);
            }
            t.push(v);
        }
        book.push(t);
    }
    Ok(book)
}

/// The bytes of patterns, be they a book or not.
pub fn bytes_of(patterns: &[Pattern]) -> Vec<u8> {
    let mut bytes = vec![patterns.len() as u8];
    for t in patterns {
        bytes.push(t.len() as u8);
        for v in t {
            bytes.push(v.0.rem_euclid(256) as u8);
            bytes.push(v.1.rem_euclid(256) as u8);
        }
    }
    bytes
}

/// The bytes of a record for an output of the given room.
pub fn write(r: &Record, room: usize) -> Result<Vec<u8>, Refused> {
    let bytes = bytes_of(&patterns_of(r)?);
    if room < bytes.len() { refuse(16) } else { Ok(bytes) }
}
