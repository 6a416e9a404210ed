//! Random books, plans and sides of pictures for the lists of calls.

use crate::classes::suits_for;
use crate::finds::random_book;
use crate::library::Plan;
use crate::memory::{turns, Lent};
use crate::oracle::Pattern;
use crate::search::plan;
use crate::Random;

/// A book; with r there are more pixels, so that a plan can clash.
pub fn any_book(random: &mut Random, r: u32) -> Vec<Pattern> {
    let (patterns, pixels) = random.one_of(&[(1, 5), (3, 5), (4, 3), (2, 9), (6, 2), (16, 3), (1, 64)]);
    let (width, height) = random.one_of(&[(3, 3), (4, 3), (5, 5), (3, 3), (12, 2), (2, 9), (8, 8), (32, 32), (7, 1), (1, 5)]);
    // a window full of pixels would need too many banks
    let pixels = if width == 32 { pixels.min(6) } else { pixels };
    random_book(random, patterns, 64.min(pixels * i64::from(r)), width, height)
}

/// A supplier's plan: one that suits every pattern for r with a surplus, or one that suits some patterns only.
pub fn suppliers(random: &mut Random, book: &[Pattern], r: u32, least: Plan, mixed: bool) -> Option<Plan> {
    let n = i64::from(least.a * least.d);
    for _ in 0..60 {
        let most = random.one_of(&[n + 3, 2 * n, 4 * n, 1024]).min(1024);
        let banks = if mixed { random.from_to(1, 2 * n.min(512)) } else { random.from_to(n.min(most), most) };
        let d = random.from_to(1, banks);
        let a = banks / d;
        let p = plan(a, random.from_to(0, a - 1), d);
        let suiting = book.iter().filter(|t| suits_for(r, p, t)).count();
        let wanted = if mixed { (1..book.len()).contains(&suiting) } else { suiting == book.len() && a * d > n };
        if wanted {
            return Some(p);
        }
    }
    None
}

// One side of a picture: 1, a prime, about a multiple of the plan's number, or any.
fn side(random: &mut Random, of: i64) -> i64 {
    match random.from_to(0, 7) {
        0 => 1,
        1 | 2 => random.one_of(&[2, 3, 5, 7, 11, 13, 17, 19, 23, 29, 31]),
        3 => (of * random.from_to(1, 4) + random.from_to(-1, 1)).clamp(1, 4096),
        _ => random.from_to(1, 24),
    }
}

/// The sides of a picture: ring fetches are allowed, or a divides W and d divides H, or one side is long, or they are any.
pub fn sides(random: &mut Random, p: Plan) -> (u32, u32) {
    let (a, d, turns) = (i64::from(p.a), i64::from(p.d), turns(p));
    let most = if random.from_to(0, 99) == 0 { 400_000 } else { random.one_of(&[12_000, 12_000, 12_000, 40_000]) };
    let mut tries = 0;
    loop {
        tries += 1;
        let long = random.one_of(&[1024, 4000, 4095, 4096]).min(random.from_to(1000, 6000));
        let (w, h) = match random.from_to(0, 11) {
            0..=3 if tries < 4 => (turns.0 * random.from_to(1, 3), turns.1 * random.from_to(1, 3)),
            4 if tries < 4 => (4096 / turns.0 * turns.0, turns.1),
            5 if tries < 4 => (turns.0, 4096 / turns.1 * turns.1),
            6 if tries < 4 => (a * random.from_to(1, 3), d * random.from_to(1, 3)),
            7 if tries < 2 => (long, random.from_to(1, 3)),
            8 if tries < 2 => (random.from_to(1, 3), long),
            _ => (side(random, a), side(random, d)),
        };
        let g = Lent::new(p, w as u32, h as u32);
        if w <= 4096 && h <= 4096 && g.size() <= most {
            return (g.w, g.h);
        }
    }
}
