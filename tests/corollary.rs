//! Corollary 3.3 of document 002, as Card 4 of document 02 asks: "For k pixels in even steps along a row the cycle counts are
//! compared by program". Under a plan with this a, k pixels with step s take 1 cycle more than (k - 1) × gcd(s, a)/a rounded down.

use crate::library::{self, Plan, Record};
use crate::oracle::record_of;
use crate::search::plan;
use crate::{told, Tally};

// By trying every divisor.
fn gcd(x: u32, y: u32) -> u32 {
    (1..=x.min(y)).rev().find(|d| x % d == 0 && y % d == 0).unwrap()
}

// 1 and the greatest cycle that the library writes for eight cycles; 0 where it refuses.
fn counted(book: &Record, k: usize, p: Plan) -> u32 {
    let mut out = [99; 65];
    let got = library::write_cycles(book, 8, p, 0, &mut out);
    let fine = got == told(0, &[k as u64]) && out[k..].iter().all(|&cycle| cycle == 99);
    if fine { out[..k].iter().max().map_or(0, |&cycle| 1 + u32::from(cycle)) } else { 0 }
}

// The row for each r: 10 exactly where it takes more than r cycles, with r + 1 pixels of one remainder by a.
fn each_r(t: &mut Tally, book: &Record, (k, s): (u32, u32), a: u32, cycles: u32) {
    for r in 1..=8 {
        let got = library::write_cycles(book, r, plan(a.into(), 0, 1), 0, &mut [0; 64]);
        let apart = a / gcd(s, a);
        let positions = (0..=r).map(|m| u64::from(m * apart));
        let clash: Vec<u64> = [0, 0].into_iter().chain(positions).collect();
        let wanted = if cycles <= r { told(0, &[k.into()]) } else { told(10, &clash) };
        t.same(|| format!("k = {k}, s = {s}, a = {a}, r = {r}"), got, wanted);
    }
}

/// Every k and s whose row fits into the columns -16 to 15, under every a. The row is 0 in each, so b and d have no say: a few are
/// tried.
pub fn run() -> Tally {
    let mut t = Tally::new("document 002, Corollary 3.3: k pixels in even steps along a row");
    for k in 1..=32u32 {
        for s in (1..=31u32).filter(|s| (k - 1) * s <= 31) {
            let row = (0..k).map(|m| (i64::from(m * s) - 16, 0)).collect();
            let book = record_of(&[row]);
            for a in 1..=1024 {
                let cycles = (k - 1) * gcd(s, a) / a + 1;
                let plans = [(0, 1), (a / 2, 1), (a - 1, 1024 / a)];
                for (b, d) in plans {
                    let got = counted(&book, k as usize, Plan { a, b, d });
                    t.same(|| format!("k = {k}, s = {s}, plan {a}, {b}, {d}"), got, if cycles <= 8 { cycles } else { 0 });
                }
                each_r(&mut t, &book, (k, s), a, cycles);
            }
        }
    }
    t
}
