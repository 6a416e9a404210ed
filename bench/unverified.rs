//! The same work in Rust as one would write it without proofs: the same checks, the same table, the same order of search. The
//! searches that count pixels are in counting.rs.

use crate::bankplan::{Book as Record, Plan};
use crate::counting::search_for;
use crate::words::is_plan;

fn small(z: i8) -> bool {
    (-16..=15).contains(&z)
}

/// 2, 3, 4 or 19, or 0 for a legal record.
pub fn test_record(r: &Record) -> u64 {
    if !(1..=16).contains(&r.count) {
        return 2;
    }
    for n in 0..r.count {
        if !(1..=64).contains(&r.used[n]) {
            return 2;
        }
        let pixel = |e: usize| (r.rows[64 * n + e], r.columns[64 * n + e]);
        for e in 0..r.used[n] {
            let (j, i) = pixel(e);
            if !small(i) || !small(j) {
                return 3;
            }
            // those before it ascend, so one that comes after the last of them is no repeat
            if e > 0 && pixel(e) <= pixel(e - 1) {
                return if (0..e).any(|k| pixel(k) == (j, i)) { 4 } else { 19 };
            }
        }
    }
    0
}

/// 2, 3, 4, 19, 20.
pub fn test_book(book: &Record, r: u32) -> Result<(), u64> {
    match test_record(book) {
        0 if (1..=8).contains(&r) => Ok(()),
        0 => Err(20),
        number => Err(number),
    }
}

/// The differences of a legal record in the rows 0 to 31 and the columns -31 to 31, 63 to a row.
fn marks(r: &Record) -> [bool; 2016] {
    let mut marks = [false; 2016];
    for n in 0..r.count {
        let (first, end) = (64 * n, 64 * n + r.used[n]);
        for e in first..end {
            for l in first..end {
                let i = i32::from(r.columns[l]) - i32::from(r.columns[e]);
                let j = i32::from(r.rows[l]) - i32::from(r.rows[e]);
                if j >= 0 {
                    marks[(63 * j + 31 + i) as usize] = true;
                }
            }
        }
    }
    marks
}

fn row_marked(marks: &[bool; 2016], a: usize, j: usize, first: usize) -> bool {
    let row = &marks[63 * j..63 * j + 63];
    let mut x = first;
    while x < row.len() {
        if row[x] {
            return true;
        }
        x += a;
    }
    false
}

fn rows_marked(marks: &[bool; 2016], a: usize, b: usize, d: usize, first: usize) -> bool {
    let (mut j, mut x) = (d, first);
    while j < 32 {
        if row_marked(marks, a, j, x) {
            return true;
        }
        j += d;
        x += b;
        if x >= a {
            x -= a;
        }
    }
    false
}

// The least b below `end` of a plan with this a and d.
fn least_b(marks: &[bool; 2016], a: usize, d: usize, end: usize) -> Option<usize> {
    if row_marked(marks, a, 0, 31 + a) {
        return None;
    }
    let mut first = 31 % a;
    for b in 0..end {
        if !rows_marked(marks, a, b, d, first) {
            return Some(b);
        }
        first += 1;
        if first == a {
            first = 0;
        }
    }
    None
}

// For each divisor d the least b below the best so far.
fn search(marks: &[bool; 2016], limit: usize) -> Option<Plan> {
    for n in 1..=limit {
        let (mut best, mut below) = (None, n);
        for d in 1..=n {
            if n % d != 0 {
                continue;
            }
            let a = n / d;
            if let Some(b) = least_b(marks, a, d, a.min(below)) {
                best = Some(Plan { a: a as u32, b: b as u32, d: d as u32 });
                below = b;
            }
        }
        if best.is_some() {
            return best;
        }
    }
    None
}

// The plan of a legal record.
fn plan_for(book: &Record, r: u32, limit: usize) -> Option<Plan> {
    if r == 1 { search(&marks(book), limit) } else { search_for(book, r as u8, limit) }
}

/// The plan for r within the limit, or the refusal's number.
pub fn find(book: &Record, r: u32, limit: u32) -> Result<Plan, u64> {
    match test_record(book) {
        0 => {}
        number => return Err(number),
    }
    if !(1..=1024).contains(&limit) {
        return Err(6);
    }
    if !(1..=8).contains(&r) {
        return Err(20);
    }
    plan_for(book, r, limit as usize).ok_or(7)
}

fn gcd(a: i32, b: i32) -> i32 {
    if b == 0 { a.abs() } else { gcd(b, a % b) }
}

/// The normal form of two vectors, or 8, 9.
fn normal_form(x: (i16, i16), y: (i16, i16)) -> Result<Plan, u64> {
    let (x1, x2, y1, y2) = (i64::from(x.0), i64::from(x.1), i64::from(y.0), i64::from(y.1));
    let n = (x1 * y2 - x2 * y1).abs();
    if n == 0 {
        return Err(8);
    }
    if n > 1024 {
        return Err(9);
    }
    let d = i64::from(gcd(x2 as i32, y2 as i32));
    let a = n / d;
    // Euclid on the rows, the columns carried along
    let ((mut u1, mut u2), (mut v1, mut v2)) = ((x1, x2), (y1, y2));
    while v2 != 0 {
        let q = u2.div_euclid(v2);
        (u1, u2, v1, v2) = (v1, v2, u1 - q * v1, u2 - q * v2);
    }
    if u2 < 0 {
        u1 = -u1;
    }
    Ok(Plan { a: a as u32, b: u1.rem_euclid(a) as u32, d: d as u32 })
}

/// A pattern's number and the positions of r + 1 pixels in it, then 0.
#[derive(Clone, Copy)]
pub struct Clash {
    pub pattern: usize,
    pub positions: [u64; 9],
}

/// A clash, or the plan with its surplus.
pub enum Verdict {
    Clash(Clash),
    Suits(Plan, u32),
}

fn bank_of(book: &Record, p: &Plan, e: usize) -> usize {
    let (a, b, d) = (p.a as i32, p.b as i32, p.d as i32);
    let (i, j) = (i32::from(book.columns[e]), i32::from(book.rows[e]));
    (j.rem_euclid(d) * a + (i - b * j.div_euclid(d)).rem_euclid(a)) as usize
}

/// The clash of pattern n for r: each bank's pixels are counted from the last on.
pub fn clash_of(book: &Record, r: u32, p: &Plan, n: usize) -> Option<Clash> {
    let (mut counts, mut first) = ([0u8; 1024], None);
    let entries = 64 * n..64 * n + book.used[n];
    for e in entries.clone().rev() {
        let bank = bank_of(book, p, e);
        counts[bank] += 1;
        if u32::from(counts[bank]) > r {
            first = Some((e, bank));
        }
    }
    let (first, bank) = first?;
    let mut positions = [0; 9];
    let same = (first..entries.end).filter(|&e| bank_of(book, p, e) == bank);
    for (to, e) in positions.iter_mut().zip(same.take(r as usize + 1)) {
        *to = (e - 64 * n) as u64;
    }
    Some(Clash { pattern: n, positions })
}

/// The verdict for r on two vectors, or the refusal's number.
pub fn check(book: &Record, r: u32, x: (i16, i16), y: (i16, i16)) -> Result<Verdict, u64> {
    test_book(book, r)?;
    let p = normal_form(x, y)?;
    if let Some(met) = (0..book.count).find_map(|n| clash_of(book, r, &p, n)) {
        return Ok(Verdict::Clash(met));
    }
    let least = plan_for(book, r, 1024).map_or(1024, |q| q.a * q.d);
    let surplus = p.a * p.d - least;
    Ok(Verdict::Suits(p, surplus))
}

/// Puts the cycles of pattern n at the start of the output, or 2, 3, 4, 19, 20, 11, 17, 10, 16.
#[inline(never)]
pub fn write_cycles(book: &Record, r: u32, p: &Plan, n: usize, out: &mut [u8]) -> Result<usize, u64> {
    test_book(book, r)?;
    if !is_plan(p) {
        return Err(11);
    }
    if n >= book.count {
        return Err(17);
    }
    let (used, mut counts, mut cycles) = (book.used[n], [0u8; 1024], [0u8; 64]);
    for (e, cycle) in cycles[..used].iter_mut().enumerate() {
        let count = &mut counts[bank_of(book, p, 64 * n + e)];
        *cycle = *count;
        *count += 1;
        if u32::from(*count) > r {
            return Err(10);
        }
    }
    if out.len() < used {
        return Err(16);
    }
    out[..used].copy_from_slice(&cycles[..used]);
    Ok(used)
}
