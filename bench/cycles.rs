//! Buffers read in several cycles: the finder for each r, the cycles and the clash, beside unverified Rust.

use std::cell::RefCell;
use std::hint::black_box;

use crate::bankplan::raw::bankplan_write_cycles;
use crate::bankplan::{Book as Record, Plan};
use crate::pictures::row;
use crate::unverified::{check, find, write_cycles};
use crate::{in_order, proved_check, proved_find, random_book, record, seconds, time, told, told_verdict};

type Pattern = Vec<(i8, i8)>;

// The bank of a pixel with its column and row from 0 to 31.
fn bank((a, b, d): (usize, usize, usize), (i, j): (i8, i8)) -> usize {
    let (i, j) = (i as usize, j as usize);
    j % d * a + (i + (a - b) * (j / d)) % a
}

// How many of a pattern's pixels are in each bank.
fn counts(p: (usize, usize, usize), t: &Pattern) -> [u8; 1024] {
    let mut counts = [0; 1024];
    t.iter().for_each(|&v| counts[bank(p, v)] += 1);
    counts
}

// Whether a plan suits a pattern for two cycles.
fn suits_for_two(p: (usize, usize, usize), t: &Pattern) -> bool {
    counts(p, t).iter().all(|&count| count <= 2)
}

// A book that needs many banks for two cycles, made greedily. The plans come by their bank count, and the first 300 that still suit
// are looked at: of 256 pixels that one is put into the pattern which meets two others of it in a bank most often, or one.
fn hard_for_two() -> Record {
    let mut random = crate::below(77);
    let with = |n: usize| (1..=n).filter(move |d| n % d == 0).flat_map(move |d| (0..n / d).map(move |b| (n / d, b, d)));
    let mut plans = (1..=1024).flat_map(with);
    let (mut book, mut open) = (Vec::<Pattern>::new(), Vec::new());
    for _ in 0..16 {
        book.push(Pattern::new());
        while book[book.len() - 1].len() < 64 {
            let t = &book[book.len() - 1];
            open.retain(|&p| suits_for_two(p, t));
            let suiting = plans.by_ref().filter(|&p| book.iter().all(|t| suits_for_two(p, t)));
            open.extend(suiting.take(300 - open.len()));
            let met: Vec<_> = open.iter().map(|&p| counts(p, t)).collect();
            let gain = |v: &(i8, i8)| -> u32 {
                open.iter().zip(&met).map(|(&p, met)| [0, 1, 16][met[bank(p, *v)] as usize]).sum()
            };
            let pixels: Pattern = (0..256).map(|_| (random(32) as i8, random(32) as i8)).filter(|v| !t.contains(v)).collect();
            let best = pixels.into_iter().max_by_key(gain).expect("64 of 1,024 pixels are taken");
            book.last_mut().expect("a pattern was begun").push(best);
        }
    }
    for t in &mut book {
        t.iter_mut().for_each(|v| *v = (v.0 - 16, v.1 - 16));
        in_order(t);
    }
    record(&book)
}

// The window of 32 by 32 in 16 patterns of 64 pixels: blocks of 8 by 8.
fn window() -> Record {
    let corner = |n: i8| (n % 4 * 8 - 16, n / 4 * 8 - 16);
    let block = |n: i8| (0..64).map(|k| (corner(n).0 + k % 8, corner(n).1 + k / 8)).collect();
    record(&(0..16).map(block).collect::<Vec<_>>())
}

fn proved_cycles(book: &Record, r: u32, p: &Plan, n: usize, out: &mut [u8]) -> u64 {
    let (Record { columns, rows, used, count }, mut answer) = (book, [0; 12]);
    let (room, out) = (out.len(), out.as_mut_ptr());
    unsafe { bankplan_write_cycles(columns, rows, used, *count, r, p.a, p.b, p.d, n, out, room, &mut answer) }
}

// The same cycles and numbers from both, for each r, pattern number and room.
fn same_cycles(name: &str, book: &Record, p: &Plan) {
    for r in 0..10 {
        for (n, room) in [(0, 64), (book.count - 1, 64), (0, 3), (book.count, 64)] {
            let (mut x, mut y) = ([7; 64], [7; 64]);
            let got = proved_cycles(book, r, p, n, &mut x[..room]);
            assert_eq!((got, x), (write_cycles(book, r, p, n, &mut y[..room]).err().unwrap_or(0), y), "{name}, {r}");
        }
    }
}

fn plan_of(book: &Record, r: u32) -> Plan {
    let [a, b, d, ..] = proved_find(book, r).1.map(|x| x as u32);
    Plan { a, b, d }
}

// A row for each r.
fn finds(name: &str, book: &Record, cycles: &[u32]) {
    for &r in cycles {
        let p = plan_of(book, r);
        let [proved, unproved] =
            seconds([&|| proved_find(black_box(book), r).0, &|| find(black_box(book), r, 1024).is_ok().into()]);
        println!("| {name} | {r} | {} | {} | {} | {:.2} |", p.a * p.d, time(proved), time(unproved), proved / unproved);
    }
}

// The cycles of a pattern, and a check that ends with a clash.
fn calls(name: &str, book: &Record, r: u32) {
    let (p, out) = (plan_of(book, r), RefCell::new([0; 64]));
    row(
        &format!("cycles, r = {r}, {name}"),
        1,
        &|| proved_cycles(black_box(book), r, &p, 0, &mut *out.borrow_mut()),
        &|| write_cycles(black_box(book), r, &p, 0, &mut *out.borrow_mut()).is_err().into(),
    );
    row(
        &format!("check with a clash, r = {r}, {name}"),
        1,
        &|| proved_check(black_box(book), r, (1, 0), (0, 1)).0,
        &|| check(black_box(book), r, (1, 0), (0, 1)).is_err().into(),
    );
}

/// The answers of both, compared; then the tables.
pub fn tables(small: &(&str, Record), hardest: &(&str, Record), timed: bool) {
    let random = random_book(4, 16, 64, 32, 32);
    let (window, hard) = (window(), hard_for_two());
    let random = ("random, 16 patterns of 64 in 32 by 32", &random);
    let others = [("window of 32 by 32, 16 blocks of 8 by 8", &window), (hardest.0, &hardest.1), ("hard for two cycles", &hard)];
    for (name, book) in [&[(small.0, &small.1), random], &others[..]].concat() {
        for r in [0, 1, 2, 3, 8, 9] {
            assert_eq!(proved_find(book, r), told(find(book, r, 1024)), "{name}, {r}");
            for (x, y) in [((1, 0), (0, 1)), ((31, 0), (0, 1)), ((32, 0), (0, 32))] {
                assert_eq!(proved_check(book, r, x, y), told_verdict(check(book, r, x, y)), "{name}, {r}");
            }
        }
        same_cycles(name, book, &plan_of(book, 2));
        same_cycles(name, book, &Plan { a: 0, b: 0, d: 1 });
    }
    if !timed {
        return;
    }
    println!("\n| find for r | r | N | proved | unverified | ratio |");
    println!("|---|---|---|---|---|---|");
    finds(random.0, random.1, &[1, 2, 3, 4, 5, 6, 7, 8]);
    others.iter().for_each(|(name, book)| finds(name, book, &[2, 3, 8]));
    println!("\n| cycles and clash | proved | unverified | ratio |");
    println!("|---|---|---|---|");
    for r in [1, 2, 8] {
        calls(small.0, &small.1, r);
        calls(random.0, random.1, r);
    }
}
