//! Document 01's finder and check again, by trying every plan, for each r of Card 4. It shares no code with the library, only the
//! types that the answers are compared in.

use crate::classes::{clash_for, is_cycles, suits_for};
use crate::library::Plan;
use crate::oracle::{is_combination, normal_form, Pattern, Refused};

pub fn plan(a: i64, b: i64, d: i64) -> Plan {
    Plan { a: a as u32, b: b as u32, d: d as u32 }
}

/// "d divides j and a divides i - b × (j/d)"
pub fn in_lattice(p: Plan, (i, j): (i64, i64)) -> bool {
    let (a, b, d) = (i64::from(p.a), i64::from(p.b), i64::from(p.d));
    j % d == 0 && (i - b * (j / d)) % a == 0
}

pub fn minus(v: (i64, i64), w: (i64, i64)) -> (i64, i64) {
    (v.0 - w.0, v.1 - w.1)
}

/// "none of the pattern's differences is in the lattice"
pub fn suits(p: Plan, t: &Pattern) -> bool {
    t.iter().all(|&v| t.iter().all(|&w| v == w || !in_lattice(p, minus(v, w))))
}

/// "r × a + ((i - b × q) mod a)"
pub fn bank_of(p: Plan, (i, j): (i64, i64)) -> i64 {
    let (a, b, d) = (i64::from(p.a), i64::from(p.b), i64::from(p.d));
    j.rem_euclid(d) * a + (i - b * j.div_euclid(d)).rem_euclid(a)
}

/// The pixels of a pattern have different banks: they are counted bank by bank.
pub fn one_to_a_bank(p: Plan, t: &Pattern) -> bool {
    let mut taken = [false; 1024];
    t.iter().all(|&v| !std::mem::replace(&mut taken[bank_of(p, v) as usize], true))
}

/// Every plan with n banks that passes the test for each pattern, in no order that counts.
pub fn passing(book: &[Pattern], n: i64, test: impl Fn(Plan, &Pattern) -> bool) -> Vec<Plan> {
    (1..=n)
        .filter(|d| n % d == 0)
        .flat_map(|d| (0..n / d).map(move |b| plan(n / d, b, d)))
        .filter(|&p| book.iter().all(|t| test(p, t)))
        .collect()
}

/// "Among plans of equal least N, take the least b, then the least d": of those within the limit that pass the test for each
/// pattern.
pub fn first_plan(book: &[Pattern], limit: i64, test: impl Fn(Plan, &Pattern) -> bool) -> Option<Plan> {
    (1..=limit).find_map(|n| passing(book, n, &test).into_iter().min_by_key(|p| (p.b, p.d)))
}

/// The first plan for r by N, b and d; limit 1024 is always enough.
pub fn least_plan(book: &[Pattern], r: u32) -> Plan {
    first_plan(book, 1024, |p, t| suits_for(r, p, t)).expect("limit 1024 is always enough")
}

/// The finder: 6, 20, then the first plan by N, b and d that passes the test for each pattern, then 7.
pub fn find(book: &[Pattern], r: u32, limit: i64, test: impl Fn(Plan, &Pattern) -> bool) -> Result<Plan, Refused> {
    if !(1..=1024).contains(&limit) {
        return Err((6, 0));
    }
    if !is_cycles(r) {
        return Err((20, 0));
    }
    first_plan(book, limit, test).ok_or((7, 0))
}

/// A book of 16 patterns of 64 pixels whose differences fill the window, so that it needs all 1,024 banks. The columns of a
/// pattern are one of four sets, and so are its rows; their differences are 0 to 7, 8 to 23, 24 to 31, and multiples of four.
pub fn hardest() -> Vec<Pattern> {
    let sets: [[i64; 8]; 4] = [
        [0, 1, 2, 3, 4, 5, 6, 7],
        [0, 1, 2, 3, 11, 15, 19, 23],
        [0, 1, 2, 3, 27, 29, 30, 31],
        [0, 4, 8, 12, 16, 20, 24, 28],
    ];
    let mut book = Vec::new();
    for rows in &sets {
        for columns in &sets {
            book.push(rows.iter().flat_map(|j| columns.iter().map(move |i| (i - 16, j - 16))).collect());
        }
    }
    book
}

/// What the check says of two vectors: the plan with its surplus, or a clash, that is a pattern's number and positions in it.
#[derive(Clone, Debug, PartialEq)]
pub enum Verdict {
    Suits(Plan, i64),
    Clash(usize, Vec<usize>),
}

/// The clash of the lowest pattern that has one: a difference is a whole-number combination of the vectors themselves.
fn clash(book: &[Pattern], r: u32, x: (i64, i64), y: (i64, i64)) -> Option<Verdict> {
    let in_pattern = |(n, t)| clash_for(r, t, |v| is_combination(x, y, v)).map(|positions| Verdict::Clash(n, positions));
    book.iter().enumerate().find_map(in_pattern)
}

/// The check of two vectors for a legal book whose least count for r is known.
pub fn check(book: &[Pattern], r: u32, least: i64, x: (i64, i64), y: (i64, i64)) -> Result<Verdict, Refused> {
    if !is_cycles(r) {
        return Err((20, 0));
    }
    let p = normal_form(x, y)?;
    Ok(clash(book, r, x, y).unwrap_or(Verdict::Suits(p, i64::from(p.a * p.d) - least)))
}
