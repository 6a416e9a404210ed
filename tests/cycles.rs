//! Card 4 of document 02: the finder, the check and the cycles for each r, against a brute force that counts classes. Fetches and
//! lists of calls for each r go through lists.rs and runs.rs, the order of the checks is in cycle_orders.rs.

use crate::books::{damaged_record, fill_unused, legal_record, reached};
use crate::classes::{clash_under, cycles, is_cycles, suits_for};
use crate::finds::{banks, judged, planned, random_book, vectors};
use crate::library::{self, Plan, Record, Told};
use crate::lists::NO_CYCLES;
use crate::memory::clash_told;
use crate::oracle::{self, Pattern};
use crate::pictures::cross;
use crate::plans::{any_plan, legal_plan};
use crate::search::{self, hardest, least_plan, plan};
use crate::{as_told, corollary, cycle_orders, told, wide, Random, Tally};

/// Every r, and one more at each end.
pub const AROUND: std::ops::RangeInclusive<u32> = 0..=9;

/// What the cycles of pattern n must be, or 2, 3, 4, 19, 20, 11, 17, 10, 16.
pub fn written(book: &Record, r: u32, p: Plan, n: usize, room: usize) -> Result<Vec<u8>, Told> {
    let refuse = |number| Err(told(number, &[0]));
    let book = oracle::patterns_of(book).map_err(|(number, place)| told(number, &[place]))?;
    if !is_cycles(r) {
        return refuse(20);
    }
    if !oracle::is_plan(p) {
        return refuse(11);
    }
    let Some(t) = book.get(n) else {
        return refuse(17);
    };
    if let Some(positions) = clash_under(r, p, t) {
        return Err(clash_told(n, &positions));
    }
    if room < t.len() { refuse(16) } else { Ok(cycles(p, t)) }
}

/// The bytes of an output before a call.
pub fn before(room: usize) -> Vec<u8> {
    (0..room).map(|k| 0xc9 ^ (k as u8).wrapping_mul(0x35)).collect()
}

/// Asks for the cycles of pattern n, with eight bytes behind the output that are lent to no call. The number is given back.
pub fn ask_cycles(t: &mut Tally, book: &Record, r: u32, p: Plan, n: usize, room: usize) -> u64 {
    let (mut out, mut left) = (before(room + 8), before(room + 8));
    let got = library::write_cycles(book, r, p, n, &mut out[..room]);
    let number = got.number;
    let wanted = written(book, r, p, n, room).map(|bytes| {
        left[..bytes.len()].copy_from_slice(&bytes);
        told(0, &[bytes.len() as u64])
    });
    t.same(|| format!("cycles of {n} for {r}, {p:?}, room {room}, of {book:?}"), (got, out), (wanted.unwrap_or_else(|x| x), left));
    number
}

// At most one word from each bank in each cycle: each cycle is below r, and no two pixels have both bank and cycle in common.
fn one_to_a_cycle(t: &mut Tally, book: &Record, r: u32, p: Plan, n: usize) {
    let mut out = [0; 64];
    let count = library::write_cycles(book, r, p, n, &mut out).row[0] as usize;
    let pixel = |e: usize| (book.columns[64 * n + e].into(), book.rows[64 * n + e].into());
    let mut seen: Vec<(u64, u8)> = (0..count).map(|e| (library::bank(p, pixel(e)).row[0], out[e])).collect();
    let below = seen.iter().all(|&(_, cycle)| u32::from(cycle) < r);
    seen.sort();
    seen.dedup();
    let wanted = (book.used[n], true, count);
    t.same(|| format!("banks and cycles of {n} for {r}, {p:?}, of {book:?}"), (count, below, seen.len()), wanted);
}

fn plan_row(p: Plan) -> Vec<u64> {
    vec![p.a.into(), p.b.into(), p.d.into()]
}

fn figures() -> Tally {
    let mut t = Tally::new("cycles: figures");
    let block = |w: i64, h: i64| -> Pattern { (0..w * h).map(|k| (k % w, k / w)).collect() };
    let mut figure = |book: &[Pattern], r: u32, (a, b, d): (i64, i64, i64)| {
        let wanted = planned(Some(plan(a, b, d)));
        let searched = search::find(book, r, 1024, |p, t| suits_for(r, p, t));
        t.same(|| format!("brute force, {book:?} {r}"), as_told(searched, plan_row), wanted.clone());
        t.same(|| format!("{book:?} {r}"), library::find(&oracle::record_of(book), r, 1024), wanted);
    };
    for (r, wanted) in (1..).zip([(5, 2, 1), (3, 1, 1), (2, 0, 1), (2, 0, 1), (1, 0, 1), (1, 0, 1), (1, 0, 1), (1, 0, 1)]) {
        figure(&[cross()], r, wanted);
    }
    for r in 1..=8 {
        // a row of eight takes as many banks as there are groups of r
        figure(&[block(8, 1)], r, ((8 + i64::from(r) - 1) / i64::from(r), 0, 1));
        figure(&[vec![(0, 0)]], r, (1, 0, 1));
    }
    for (r, wanted) in [(1, (8, 0, 8)), (2, (8, 0, 4)), (4, (8, 0, 2)), (8, (8, 0, 1))] {
        figure(&[block(8, 8)], r, wanted);
    }
    // the three patterns have two pixels in a row each
    figure(&[vec![(0, 0), (1, 0)], vec![(0, 0), (2, 0)], vec![(0, 0), (3, 0)]], 2, (1, 0, 1));
    for (r, p, wanted) in [
        (2, plan(3, 1, 1), [0, 0, 0, 1, 1, 9, 9]),
        (5, plan(1, 0, 1), [0, 1, 2, 3, 4, 9, 9]),
        (1, plan(5, 2, 1), [0, 0, 0, 0, 0, 9, 9]),
    ] {
        let mut out = [9; 7];
        let got = library::write_cycles(&oracle::record_of(&[cross()]), r, p, 0, &mut out);
        t.same(|| format!("cycles of the cross, {r} {p:?}"), (got, out), (told(0, &[5]), wanted));
    }
    let pair = oracle::record_of(&[cross(), cross()]);
    t.same(|| "a clash of three".into(), library::check(&pair, 2, (2, 0), (0, 1)), told(10, &[0, 0, 0, 2, 4]));
    t.same(|| "a clash of five".into(), library::check(&pair, 4, (1, 0), (0, 1)), told(10, &[0, 0, 0, 1, 2, 3, 4]));
    t.same(|| "a surplus for 2".into(), library::check(&pair, 2, (10, 0), (2, 1)), told(0, &[10, 2, 1, 7]));
    t
}

// One pattern of 16 has many pixels and the others have one each: it decides alone, whatever its number is.
fn one_of_sixteen() -> Tally {
    let mut t = Tally::new("cycles: one pattern of 16 decides");
    let mut random = Random::new(40);
    for n in 0..16 {
        let large = random_book(&mut random, 1, 64, 8, 8);
        for r in 1..=8 {
            let mut book: Vec<Pattern> = (0..16).map(|k| vec![(k, -k)]).collect();
            book[n] = large[0].clone();
            let (record, least) = (oracle::record_of(&book), least_plan(&large, r));
            t.same(|| format!("{n} {r} {book:?}"), library::find(&record, r, 1024), planned(Some(least)));
            let wanted = clash_under(r, plan(1, 0, 1), &large[0]);
            let wanted = wanted.map_or(told(0, &[1, 0, 1, 0]), |positions| clash_told(n, &positions));
            t.same(|| format!("check, {n} {r} {book:?}"), library::check(&record, r, (1, 0), (0, 1)), wanted);
        }
    }
    t
}

// Everything that is asked of a legal book for one r: limits about the count, suppliers' vectors, and the cycles of its patterns.
fn ask(t: &mut Tally, book: &[Pattern], r: u32, random: &mut Random, checks: usize) -> i64 {
    let mut record = oracle::record_of(book);
    fill_unused(&mut record, random);
    let least = if is_cycles(r) { least_plan(book, r) } else { plan(5, 2, 1) };
    let n = banks(least);
    for limit in [1024, n, n - 1, random.from_to(1, 1024), 0, 1025] {
        let wanted = match limit {
            1..=1024 if !is_cycles(r) => told(20, &[0]),
            1..=1024 => planned(Some(least).filter(|_| n <= limit)),
            _ => told(6, &[0]),
        };
        t.same(|| format!("{book:?} {r} {limit}"), library::find(&record, r, limit as u32), wanted);
    }
    for _ in 0..checks {
        let (x, y) = vectors(random, least);
        let wanted = judged(search::check(book, r, n, wide(x), wide(y)));
        t.same(|| format!("{book:?} {r} {x:?} {y:?}"), library::check(&record, r, x, y), wanted);
    }
    for pattern in 0..book.len() {
        let own = [least, legal_plan(random), any_plan(random)][random.from_to(0, 2) as usize];
        let room = book[pattern].len() + random.one_of(&[0, 0, 5, 64]);
        if ask_cycles(t, &record, r, own, pattern, room) == 0 {
            one_to_a_cycle(t, &record, r, own, pattern);
        }
    }
    n
}

// For each r from 0 to 9. The least count never rises with r, and is never below a pattern's pixel count over r.
fn each_r(t: &mut Tally, book: &[Pattern], random: &mut Random, checks: usize) {
    let most = book.iter().map(Vec::len).max().unwrap() as i64;
    let mut last = 1024;
    for r in AROUND {
        let n = ask(t, book, r, random, checks);
        if is_cycles(r) {
            let fewest = (most + i64::from(r) - 1) / i64::from(r);
            t.same(|| format!("the count {n} for {r}, {last} before it, of {book:?}"), fewest <= n && n <= last, true);
            last = n;
        }
    }
}

fn small_books() -> Tally {
    let mut t = Tally::new("cycles: 3,000 random small books, r from 0 to 9");
    let mut random = Random::new(36);
    for _ in 0..3_000 {
        let (patterns, pixels) = random.one_of(&[(1, 4), (1, 12), (4, 6), (6, 5), (3, 20), (16, 9)]);
        let (width, height) = random.one_of(&[(2, 2), (3, 3), (5, 4), (7, 1), (1, 9), (12, 2), (3, 8), (32, 32)]);
        let book = random_book(&mut random, patterns, pixels, width, height);
        each_r(&mut t, &book, &mut random, 3);
    }
    t
}

fn large_books() -> Tally {
    let mut t = Tally::new("cycles: 150 random large books, r from 0 to 9, and the hardest");
    let mut random = Random::new(37);
    for round in 0..150 {
        let (width, height) = random.one_of(&[(8, 8), (16, 6), (6, 16), (32, 3), (3, 32), (10, 10), (4, 12), (32, 1)]);
        let (width, height) = if round % 50 == 0 { (32, 32) } else { (width, height) };
        let book = random_book(&mut random, 16, 64, width, height);
        each_r(&mut t, &book, &mut random, 2);
    }
    for r in 2..=8 {
        ask(&mut t, &hardest(), r, &mut random, 2);
    }
    t
}

// Records of any kind with each r: the record's own refusal comes first, then that of r.
fn records() -> Tally {
    let mut t = Tally::new("cycles: damaged records, r from 0 to 9 and far off");
    let mut random = Random::new(38);
    let mut gave = [0; 21];
    for round in 0..12_000 {
        let record: Record = if round % 3 == 0 { legal_record(&mut random) } else { damaged_record(&mut random) };
        let r = if round % 4 == 0 { random.one_of(&NO_CYCLES) } else { random.from_to(0, 9) as u32 };
        let book = oracle::patterns_of(&record);
        let limit = random.one_of(&[0, 1025]);
        let (y, vectors) = random.one_of(&[((4, 2), 8), ((4000, 2), 9)]);
        let refused = |other: u64| told(book.as_ref().map_or_else(|e| e.0, |_| other), &[0]);
        t.same(|| format!("{record:?} {r} {limit}"), library::find(&record, r, limit), refused(6));
        let wanted = refused(if is_cycles(r) { vectors } else { 20 });
        t.same(|| format!("{record:?} {r} {y:?}"), library::check(&record, r, (2, 1), y), wanted);
        let plans = [any_plan(&mut random), legal_plan(&mut random), plan(random.from_to(1, 3), 0, 1)];
        let p = random.one_of(&plans);
        let n = random.one_of(&[0, 1, record.count.wrapping_sub(1), record.count, 16, usize::MAX]);
        let room = random.one_of(&[0, 3, record.used[n.min(15)].min(64), 64, 70]);
        gave[ask_cycles(&mut t, &record, r, p, n, room) as usize] += 1;
    }
    reached(&mut t, &gave, &[0, 2, 3, 4, 10, 11, 16, 17, 19, 20], 100);
    t
}

// Suits for r exactly where no clash is told, and a fetch's 10 where a class exceeds r: every plan of up to 24 banks.
fn every_plan() -> Tally {
    let mut t = Tally::new("cycles: every plan of up to 24 banks, r from 1 to 8");
    let mut random = Random::new(39);
    for book in [vec![cross()], random_book(&mut random, 3, 20, 5, 5), random_book(&mut random, 1, 64, 8, 8)] {
        let record = oracle::record_of(&book);
        for n in 1..=24 {
            for p in search::passing(&book, n, |_, _| true) {
                for r in 1..=8 {
                    for (pattern, pixels) in book.iter().enumerate() {
                        let number = ask_cycles(&mut t, &record, r, p, pattern, 64);
                        t.same(|| format!("{pixels:?} {r} {p:?}"), number == 0, suits_for(r, p, pixels));
                    }
                }
            }
        }
    }
    t
}

pub fn run() -> Vec<Tally> {
    let mut tallies = vec![figures(), one_of_sixteen(), small_books(), large_books(), records(), every_plan()];
    tallies.extend(cycle_orders::run());
    tallies.push(corollary::run());
    tallies
}
