//! Searches that count pixels per bank, in Rust as one would write it without proofs.

use crate::bankplan::{Book as Record, Plan};

/// The search that counts pixels per bank, pattern after pattern, and gives a plan up at the first bank with two. The pixels are
/// moved by (16, 16), which keeps clashes, so that nothing is negative.
pub fn find_by_counting(r: &Record, limit: u32) -> Option<Plan> {
    let mut taken = [0u32; 1024];
    let mut stamp = 0;
    for n in 1..=limit {
        let (mut best, mut below) = (None, n);
        for d in 1..=n {
            if n % d != 0 {
                continue;
            }
            let a = n / d;
            let strips: [(u32, u32); 32] = std::array::from_fn(|j| (j as u32 / d, j as u32 % d * a));
            for b in 0..a.min(below) {
                let one_to_a_bank = |t: usize| {
                    stamp += 1;
                    for e in 64 * t..64 * t + r.used[t] {
                        let (q, first) = strips[(r.rows[e] + 16) as usize];
                        let bank = first + ((r.columns[e] + 16) as u32 + (a - b) * q) % a;
                        if std::mem::replace(&mut taken[bank as usize], stamp) == stamp {
                            return false;
                        }
                    }
                    true
                };
                if (0..r.count).all(one_to_a_bank) {
                    best = Some(Plan { a, b, d });
                    below = b;
                    break;
                }
            }
        }
        if best.is_some() {
            return best;
        }
    }
    None
}

// Whether a bank has more than r pixels of one of the patterns, whose pixels are column and row from 0 on. There is a table of the
// columns' remainders, and one of what a row adds: its first bank, and how far it moves the columns.
fn is_crowded(patterns: &[Vec<(u8, u8)>], r: u8, a: usize, lanes: &[usize; 32], rows: &[(usize, usize); 32], banks: usize) -> bool {
    let mut counts = [0u8; 1024];
    patterns.iter().any(|t| {
        counts[..banks].fill(0);
        t.iter().any(|&(i, j)| {
            let (first, shift) = rows[j as usize & 31];
            let x = lanes[i as usize & 31] + shift;
            let count = &mut counts[first + if x < a { x } else { x - a }];
            *count += 1;
            *count > r
        })
    })
}

/// The search for r above 1 in the library's order: the pixels are counted to each bank, and a plan is left at the first that has
/// more than r.
pub fn search_for(book: &Record, r: u8, limit: usize) -> Option<Plan> {
    let pixel = |e: usize| ((book.columns[e] + 16) as u8, (book.rows[e] + 16) as u8);
    let patterns: Vec<Vec<_>> = (0..book.count).map(|n| (64 * n..64 * n + book.used[n]).map(pixel).collect()).collect();
    for n in 1..=limit {
        let (mut best, mut below) = (None, n);
        for d in (1..=n).filter(|d| n % d == 0) {
            let a = n / d;
            let lanes = std::array::from_fn(|i| i % a);
            let firsts: [usize; 32] = std::array::from_fn(|j| j % d * a);
            let suits = |b: &usize| {
                let mut shift = 0;
                let rows = std::array::from_fn(|j| {
                    // each strip of d rows is moved by b more
                    if j > 0 && firsts[j] == 0 {
                        shift = if shift < *b { shift + a - b } else { shift - b };
                    }
                    (firsts[j], shift)
                });
                !is_crowded(&patterns, r, a, &lanes, &rows, n)
            };
            if let Some(b) = (0..a.min(below)).find(suits) {
                best = Some(Plan { a: a as u32, b: b as u32, d: d as u32 });
                below = b;
            }
        }
        if best.is_some() {
            return best;
        }
    }
    None
}
