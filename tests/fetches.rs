//! Fetches: patterns at corners and edges, rings, suppliers' plans, and memories of any content. Which sides make a ring is in
//! rings.rs.

use crate::calls::{first_difference, wrong_sums, Call, Kind, Picture};
use crate::classes::suits_for;
use crate::finds::random_book;
use crate::library::{self, Plan, Record};
use crate::memory::{moved, turns, wrapped, Lent};
use crate::oracle::Pattern;
use crate::pictures::{cross, expect, record};
use crate::search::{plan, suits};
use crate::{told, wide, Random, Tally};
use std::ops::Range;

// Words that tell the pixels apart.
fn word_at((i, j): (i64, i64)) -> u16 {
    (1000 * j + i + 1) as u16
}

fn words_at(pixels: &Pattern) -> Vec<u16> {
    pixels.iter().map(|&v| word_at(v)).collect()
}

// Stores a word of its own at each pixel of the picture that these ranges have.
fn fill(t: &mut Tally, picture: &mut Picture, columns: Range<i16>, rows: Range<i16>) {
    let book = record(&[cross()]);
    for v in rows.flat_map(|j| columns.clone().map(move |i| (i, j))) {
        let x = word_at(wide(v));
        expect(t, Call { v, x, ..Call::new(Kind::Store, picture.lent) }, 0, &book, picture);
    }
}

/// A picture with a word of its own at each pixel, 1000 * j + i + 1 at (i, j).
pub fn filled(t: &mut Tally, p: Plan, w: i16, h: i16) -> Picture {
    let mut picture = Picture::new(p, w as u32, h as u32);
    fill(t, &mut picture, 0..w, 0..h);
    picture
}

/// Fetches, and compares the words with those stated here.
pub fn fetched(t: &mut Tally, picture: &mut Picture, book: &Record, kind: Kind, n: usize, v: (i16, i16), wanted: &[u16]) {
    expect(t, Call { n, v, room: wanted.len(), ..Call::new(kind, picture.lent) }, 0, book, picture);
    let Lent { plan: p, w, h, .. } = picture.lent;
    let call = if kind == Kind::Ring { library::ring_fetch } else { library::fetch };
    let mut out = vec![0; wanted.len()];
    let told = call(book, 1, p, w, h, &picture.memory, n, v, &mut out);
    t.same(|| format!("{kind:?} {p:?} {w} {h} {n} {v:?}"), (told.number, out), (0, wanted.to_vec()));
}

/// A block of pixels in rows.
pub fn block(columns: Range<i64>, rows: Range<i64>) -> Pattern {
    rows.flat_map(|j| columns.clone().map(move |i| (i, j))).collect()
}

// The least column and row of a pattern, and the greatest.
fn extent(t: &Pattern) -> ((i64, i64), (i64, i64)) {
    let (columns, rows) = (|| t.iter().map(|v| v.0), || t.iter().map(|v| v.1));
    ((columns().min().unwrap(), rows().min().unwrap()), (columns().max().unwrap(), rows().max().unwrap()))
}

/// Positions at which a pattern is inside, from the least to the greatest; there may be none.
pub fn inside(g: &Lent, t: &Pattern) -> ((i64, i64), (i64, i64)) {
    let (least, greatest) = extent(t);
    ((-least.0, -least.1), (i64::from(g.w) - 1 - greatest.0, i64::from(g.h) - 1 - greatest.1))
}

// A pattern at and around the ends of the positions at which it is inside.
fn around(t: &mut Tally, picture: &mut Picture, pattern: &Pattern) {
    let book = record(&[pattern.clone()]);
    let ((left, low), (right, high)) = inside(&picture.lent, pattern);
    for i in [-32768, left - 1, left, (left + right) / 2, right, right + 1, 32767] {
        for j in [-32768, low - 1, low, (low + high) / 2, high, high + 1, 32767] {
            let v = (i as i16, j as i16);
            if (left..=right).contains(&i) && (low..=high).contains(&j) {
                fetched(t, picture, &book, Kind::Fetch, 0, v, &words_at(&moved(pattern, v)));
            } else {
                expect(t, Call { v, ..Call::new(Kind::Fetch, picture.lent) }, 14, &book, picture);
            }
        }
    }
}

// The finder's plan for these patterns and r; should there be none, one that suits every pattern.
pub fn found(t: &mut Tally, book: &Record, r: u32, patterns: &[Pattern]) -> Plan {
    let told = library::find(book, r, 1024);
    let p = if told.number == 0 { plan(told.row[0] as i64, told.row[1] as i64, told.row[2] as i64) } else { plan(32, 0, 32) };
    t.same(|| format!("the plan found for {patterns:?}"), (told.number, patterns.iter().all(|t| suits_for(r, p, t))), (0, true));
    p
}

fn corners() -> Tally {
    let mut t = Tally::new("patterns at the corners and one step outside");
    let patterns = [
        cross(),
        vec![(0, 0)],
        vec![(-16, -16), (-16, 15), (15, 15)],
        vec![(3, 2), (4, 4), (5, 7)],
        vec![(-2, 0), (0, 0), (1, 0)],
        vec![(0, -9), (0, -7)],
        block(-4..4, -3..5),
    ];
    for pattern in &patterns {
        let (least, greatest) = extent(pattern);
        let (width, height) = (greatest.0 - least.0 + 1, greatest.1 - least.1 + 1);
        // the finder's plan and two with a surplus; the picture is as large as the pattern, or a little larger
        let least = found(&mut t, &record(&[pattern.clone()]), 1, &[pattern.clone()]);
        for p in [least, plan(32, 0, 32), plan(37, 5, 17)] {
            assert!(suits(p, pattern));
            for (w, h) in [(width, height), (width + 1, height), (width, height + 3), (width + 6, height + 4)] {
                let mut picture = filled(&mut t, p, w as i16, h as i16);
                around(&mut t, &mut picture, pattern);
            }
        }
    }
    t
}

fn rings() -> Tally {
    let mut t = Tally::new("ring fetches");
    let book = record(&[vec![(0, 0), (5, 0)], cross()]);
    let wide = &mut filled(&mut t, plan(5, 2, 1), 10, 5);
    let high = &mut filled(&mut t, plan(5, 2, 1), 5, 10);
    let mut case = |picture: &mut Picture, v, words: [u16; 5]| fetched(&mut t, picture, &book, Kind::Ring, 1, v, &words);
    case(wide, (0, 0), [4001, 10, 1, 2, 1001]);
    case(wide, (9, 4), [3010, 4009, 4010, 4001, 10]);
    case(wide, (-1, -1), [3010, 4009, 4010, 4001, 10]);
    case(wide, (-10, 5), [4001, 10, 1, 2, 1001]);
    case(wide, (-32768, 32767), [1003, 2002, 2003, 2004, 3003]);
    case(wide, (32767, -32768), [1008, 2007, 2008, 2009, 3008]);
    case(wide, (-32768, -32768), [1003, 2002, 2003, 2004, 3003]);
    case(high, (-1, -1), [8005, 9004, 9005, 9001, 5]);
    case(high, (0, 9), [8001, 9005, 9001, 9002, 1]);
    case(high, (32767, 32767), [6003, 7002, 7003, 7004, 8003]);
    // the other pattern of the book clashes, and only its own fetch says so
    for kind in [Kind::Fetch, Kind::Ring] {
        expect(&mut t, Call { v: (4, 2), ..Call::new(kind, wide.lent) }, 10, &book, wide);
        expect(&mut t, Call { v: (4, 2), n: 1, ..Call::new(kind, wide.lent) }, 0, &book, wide);
    }
    // 5 does not divide one side or both
    for (w, h, number) in [(10, 5, 0), (5, 5, 0), (10, 6, 18), (9, 5, 18), (1, 5, 18), (4, 4, 18), (4095, 5, 0), (4096, 5, 18)] {
        let mut picture = Picture::new(plan(5, 2, 1), w, h);
        expect(&mut t, Call { n: 1, ..Call::new(Kind::Ring, picture.lent) }, number, &book, &mut picture);
    }
    // 64 pixels across all four corners, of a ring of 64 by 128, under the plan found and one of the same N with a slant
    let (square, book) = (block(-4..4, -4..4), record(&[block(-4..4, -4..4)]));
    let least = found(&mut t, &book, 1, &[square.clone()]);
    t.same(|| "the plan of 8 by 8".into(), least, plan(8, 0, 8));
    let words = words_at(&wrapped(&square, 64, 128));
    for p in [least, plan(64, 8, 1)] {
        let mut picture = Picture::new(p, 64, 128);
        for (columns, rows) in [(0..4, 0..4), (60..64, 0..4), (0..4, 124..128), (60..64, 124..128)] {
            fill(&mut t, &mut picture, columns, rows);
        }
        for v in [(0, 0), (64, 128), (-64, -128), (-32768, -32768), (32704, 32640)] {
            fetched(&mut t, &mut picture, &book, Kind::Ring, 0, v, &words);
        }
    }
    t
}

// Each position of the cross under plans with a surplus, plain and on a ring: the stored words come.
fn surplus() -> Tally {
    let mut t = Tally::new("fetches under suppliers' plans");
    let book = record(&[cross()]);
    for (a, b, d) in [(6, 2, 1), (7, 2, 1), (3, 1, 2), (3, 0, 3), (8, 3, 1), (4, 1, 3), (12, 5, 1), (1024, 32, 1), (16, 3, 64)] {
        let p = plan(a, b, d);
        assert!(suits(p, &cross()) && a * d > 5);
        let n = a * d;
        // the least ring may be smaller than the cross; with many banks it would be long
        for (w, h) in if n < 13 { vec![(9, 7), (2 * n, n), turns(p)] } else { vec![(9, 7), (5, 11)] } {
            let mut picture = filled(&mut t, p, w as i16, h as i16);
            let ring = picture.lent.is_ring();
            for (i, j) in (-1..=w).flat_map(|i| (-1..=h).map(move |j| (i, j))) {
                let v = (i as i16, j as i16);
                let pixels = moved(&cross(), v);
                if i >= 1 && i < w - 1 && j >= 1 && j < h - 1 {
                    fetched(&mut t, &mut picture, &book, Kind::Fetch, 0, v, &words_at(&pixels));
                }
                if ring {
                    fetched(&mut t, &mut picture, &book, Kind::Ring, 0, v, &words_at(&wrapped(&pixels, w, h)));
                }
            }
        }
    }
    t
}

// A memory that holds anything, also where no pixel has its word: each call goes by bank and address alone.
fn any_content() -> Tally {
    let mut t = Tally::new("memories of any content");
    let mut random = Random::new(15);
    for _ in 0..6_000 {
        let (a, d) = (random.from_to(1, 7), random.from_to(1, 4));
        let p = plan(a, random.from_to(0, a - 1), d);
        let (n, turns) = (a * d, turns(p));
        let (mut w, mut h) = (random.from_to(1, 20), random.from_to(1, 20));
        if random.from_to(0, 1) == 0 {
            (w, h) = (turns.0 * random.from_to(1, 3), turns.1 * random.from_to(1, 2));
        }
        let g = Lent::new(p, w as u32, h as u32);
        let mut memory: Vec<u16> = (0..g.size() as i64 + random.from_to(0, 3)).map(|_| random.next() as u16).collect();
        let (mut wanted, mut sums) = (memory.clone(), wrong_sums(g.entries));
        let v = (random.from_to(0, w - 1) as i16, random.from_to(0, h - 1) as i16);
        let (k, x) = (random.from_to(0, n - 1) as usize, random.next() as u16);
        let (at, bank) = (g.place_of(wide(v)), k * g.depth() as usize..(k + 1) * g.depth() as usize);
        let what = |call: &str| format!("{call} {g:?} {v:?} {k}");
        t.same(|| what("load"), library::load(p, g.w, g.h, &memory, v), told(0, &[memory[at].into()]));
        let sum = memory[bank.clone()].iter().map(|&x| u64::from(x)).sum();
        t.same(|| what("sum"), library::sum(p, g.w, g.h, &memory, k as u64), told(0, &[sum]));
        let pattern = random_book(&mut random, 1, 6, 4, 3).remove(0);
        let pixels = moved(&pattern, v);
        if suits(p, &pattern) {
            let book = record(&[pattern]);
            let count = pixels.len();
            let words = |pixels: &Pattern| pixels.iter().map(|&u| memory[g.place_of(u)]).collect();
            let mut out = vec![0; count];
            if pixels.iter().all(|&u| g.has(u)) {
                let fetched = library::fetch(&book, 1, p, g.w, g.h, &memory, 0, v, &mut out);
                t.same(|| what("fetch"), (fetched, out.clone()), (told(0, &[count as u64]), words(&pixels)));
            }
            if g.is_ring() {
                let fetched = library::ring_fetch(&book, 1, p, g.w, g.h, &memory, 0, v, &mut out);
                t.same(|| what("ring fetch"), (fetched, out), (told(0, &[count as u64]), words(&wrapped(&pixels, w, h))));
            }
        }
        t.same(|| what("store"), library::store(p, g.w, g.h, &mut memory, &mut sums, v, x), told(0, &[]));
        wanted[at] = x;
        t.same(|| what("store"), first_difference(&memory, &wanted), None);
        t.same(|| what("clear"), library::clear(p, g.w, g.h, &mut memory, &mut sums, k as u64), told(0, &[]));
        wanted[bank].fill(0);
        t.same(|| what("clear"), first_difference(&memory, &wanted), None);
    }
    t
}

pub fn run() -> Vec<Tally> {
    vec![corners(), rings(), surplus(), any_content()]
}
