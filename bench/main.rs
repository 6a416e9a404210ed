//! Times the proved library beside unverified Rust of the same work, in one run, and prints a table of ratios.
//! Answers are compared too: a difference ends the run.

use std::hint::black_box;
use std::time::Instant;

#[path = "../bindings/bankplan.rs"]
#[allow(dead_code)]
mod bankplan;
mod counting;
mod cycles;
mod pictures;
mod records;
mod runs;
mod sums;
mod tested;
mod unverified;
mod words;

use bankplan::raw::{bankplan_check, bankplan_find};
use bankplan::{Book as Record, Plan};

// A call's number and the numbers it told; those that it did not set are 0.
type Told = (u64, [u64; 12]);

fn answer(number: u64, told: &[u64]) -> Told {
    let mut row = [0; 12];
    row[..told.len()].copy_from_slice(told);
    (number, row)
}

fn proved_find(book: &Record, r: u32) -> Told {
    let mut answer = [0; 12];
    (unsafe { bankplan_find(&book.columns, &book.rows, &book.used, book.count, r, 1024, &mut answer) }, answer)
}

fn proved_check(book: &Record, r: u32, x: (i16, i16), y: (i16, i16)) -> Told {
    let (Record { columns, rows, used, count }, mut answer) = (book, [0; 12]);
    (unsafe { bankplan_check(columns, rows, used, *count, r, x.0, x.1, y.0, y.1, &mut answer) }, answer)
}

fn told(p: Result<Plan, u64>) -> Told {
    p.map_or_else(|n| answer(n, &[]), |p| answer(0, &[p.a.into(), p.b.into(), p.d.into()]))
}

fn told_verdict(v: Result<unverified::Verdict, u64>) -> Told {
    match v {
        Ok(unverified::Verdict::Clash(c)) => answer(10, &[&[0, c.pattern as u64], &c.positions[..]].concat()),
        Ok(unverified::Verdict::Suits(p, s)) => answer(0, &[p.a.into(), p.b.into(), p.d.into(), s.into()]),
        Err(n) => answer(n, &[]),
    }
}

// ---- books

fn record(book: &[Vec<(i8, i8)>]) -> Record {
    let mut r = Record { columns: [0; 1024], rows: [0; 1024], used: [0; 16], count: book.len() };
    for (n, t) in book.iter().enumerate() {
        r.used[n] = t.len();
        for (e, v) in t.iter().enumerate() {
            (r.columns[64 * n + e], r.rows[64 * n + e]) = *v;
        }
    }
    r
}

// By row, then column, as a book has them.
fn in_order(t: &mut [(i8, i8)]) {
    t.sort_unstable_by_key(|&(i, j)| (j, i));
}

fn block(w: i8, h: i8) -> Vec<(i8, i8)> {
    (0..h).flat_map(|j| (0..w).map(move |i| (i, j))).collect()
}

// Pixels with the differences 0 to width - 1 along one side, eight at most to a set: blocks, and steps of four beyond them.
fn rulers(width: i8) -> Vec<Vec<i8>> {
    let near: Vec<i8> = (0..width.min(8)).collect();
    let far = |steps: [i8; 4]| [vec![0, 1, 2, 3], steps.iter().copied().filter(|&s| s < width).collect()].concat();
    match width {
        0..=8 => vec![near],
        9..=24 => vec![near, far([11, 15, 19, 23].map(|s: i8| s.min(width - 1)))],
        _ => vec![near, far([11, 15, 19, 23]), far([27, 31, 30, 29]), (0..8).map(|k| 4 * k).collect()],
    }
}

// A book whose differences fill the window of w by h, so that it needs w × h banks. For 32 by 32 it is the hardest book: 16
// patterns of 64 pixels.
fn full(w: i8, h: i8) -> Record {
    let (across, up) = (rulers(w), rulers(h));
    let mut book = Vec::new();
    for y in &up {
        for x in &across {
            let mut t: Vec<(i8, i8)> = y.iter().flat_map(|&j| x.iter().map(move |&i| (i - 16, j - 16))).collect();
            in_order(&mut t);
            t.dedup();
            book.push(t);
        }
    }
    record(&book)
}

// Numbers below those given, the same in every run.
fn below(seed: u64) -> impl FnMut(u64) -> u64 {
    let mut state = seed * 2 + 1;
    move |n| {
        state ^= state << 13;
        state ^= state >> 7;
        state ^= state << 17;
        (state >> 11) % n
    }
}

fn random_book(seed: u64, patterns: usize, pixels: usize, width: u64, height: u64) -> Record {
    let mut below = below(seed);
    let book: Vec<_> = (0..patterns)
        .map(|_| {
            let mut t = Vec::new();
            while t.len() < pixels {
                let v = (below(width) as i8 - 16, below(height) as i8 - 16);
                if !t.contains(&v) {
                    t.push(v);
                }
            }
            in_order(&mut t);
            t
        })
        .collect();
    record(&book)
}

// What is no book is none to both: the cross shuffled, and a repeat that is lower too.
fn same_refusals() {
    for (t, number) in [(vec![(0, 0), (-1, 0), (1, 0), (0, -1), (0, 1)], 19), (vec![(0, 0), (1, 0), (0, 0)], 4)] {
        let (r, refused) = (record(&[t]), answer(number, &[]));
        for cycles in [1, 2, 9] {
            assert_eq!(proved_find(&r, cycles), refused);
            assert_eq!(told(unverified::find(&r, cycles, 1024)), refused);
            assert_eq!(proved_check(&r, cycles, (32, 0), (0, 32)), refused);
            assert_eq!(told_verdict(unverified::check(&r, cycles, (32, 0), (0, 32))), refused);
        }
    }
}

// ---- time

// Seconds of one call of each version: the best of some rounds. In each round every version has its turn, with as many calls as
// fill a few milliseconds, so that what else the machine does meets them all.
fn seconds<const N: usize>(versions: [&dyn Fn() -> u64; N]) -> [f64; N] {
    let calls = versions.map(|call| {
        let start = Instant::now();
        black_box(call());
        ((0.004 / start.elapsed().as_secs_f64()) as usize).clamp(1, 20_000)
    });
    let mut best = [f64::MAX; N];
    for _ in 0..15 {
        for (k, call) in versions.iter().enumerate() {
            let start = Instant::now();
            for _ in 0..calls[k] {
                black_box(call());
            }
            best[k] = best[k].min(start.elapsed().as_secs_f64() / calls[k] as f64);
        }
    }
    best
}

// How long a store takes hangs on where the memory lies, for each version in another way. So it is timed in some places, each made
// anew while the others are kept, and the best counts.
fn best_of_places<T, const N: usize>(place: impl Fn() -> T, seconds_at: impl Fn(&T) -> [f64; N]) -> [f64; N] {
    let places: Vec<T> = (0..8).map(|_| place()).collect();
    let times = places.iter().map(seconds_at);
    times.fold([f64::MAX; N], |best, now| std::array::from_fn(|k| best[k].min(now[k])))
}

fn time(s: f64) -> String {
    if s < 1e-7 {
        format!("{:.1} ns", s * 1e9)
    } else if s < 1e-4 {
        format!("{:.2} µs", s * 1e6)
    } else {
        format!("{:.2} ms", s * 1e3)
    }
}

fn main() {
    let books = [
        ("one pixel", record(&[block(1, 1)])),
        ("cross of 5", record(&[vec![(0, -1), (-1, 0), (0, 0), (1, 0), (0, 1)]])),
        ("3 by 3 block", record(&[block(3, 3)])),
        ("random, 4 patterns of 9 in 8 by 8", random_book(1, 4, 9, 8, 8)),
        ("random, 8 patterns of 16 in 16 by 16", random_book(2, 8, 16, 16, 16)),
        ("random, 16 patterns of 32 in 32 by 32", random_book(3, 16, 32, 32, 32)),
        ("full 8 by 8", full(8, 8)),
        ("full 16 by 8", full(16, 8)),
        ("full 16 by 16", full(16, 16)),
        ("full 32 by 16", full(32, 16)),
        ("hardest, full 32 by 32", full(32, 32)),
    ];
    for (name, r) in &books {
        let (number, plan) = proved_find(r, 1);
        assert_eq!((number, plan), told(unverified::find(r, 1, 1024)), "{name}");
        assert_eq!((number, plan), told(counting::find_by_counting(r, 1024).ok_or(7)), "{name}");
    }
    for ((_, r), n) in books[6..].iter().zip([64, 128, 256, 512, 1024]) {
        let plan = proved_find(r, 1).1;
        assert_eq!(plan[0] * plan[2], n);
    }
    let vectors = [((32, 0), (0, 32)), ((31, 0), (0, 1)), ((1024, 0), (32, 1))];
    let checked = [&books[2], &books[4], &books[10]];
    for (name, r) in checked {
        for (x, y) in vectors {
            for cycles in [1, 2, 8, 9] {
                let checked = unverified::check(r, cycles, x, y);
                assert_eq!(proved_check(r, cycles, x, y), told_verdict(checked), "{name}");
            }
        }
    }
    same_refusals();
    let mut fetched = Vec::from([2, 3, 4, 9].map(|k| {
        let [a, b, d, ..] = proved_find(&books[k].1, 1).1.map(|x| x as u32);
        (books[k].0, &books[k].1, Plan { a, b, d })
    }));
    // a supplier's plan of several rows
    fetched.push(("3 by 3 block, plan 6, 4, 5", &books[2].1, Plan { a: 6, b: 4, d: 5 }));
    let listed = [fetched[0].2, fetched[4].2];
    // lists of fetches of one small pattern, and of all patterns of the largest book
    let [a, b, d, ..] = proved_find(&books[10].1, 1).1.map(|x| x as u32);
    let runs = [fetched[0], (books[10].0, &books[10].1, Plan { a, b, d })];
    if std::env::args().nth(1).as_deref() == Some("answers") {
        pictures::pictures(&fetched, false);
        records::lists(&listed, false);
        runs::lists(&runs, false);
        cycles::tables(&books[2], &books[10], false);
        println!("the unverified versions give the same answers");
        return;
    }
    println!("| find | N | proved | unverified | ratio | counting per bank | ahead of it |");
    println!("|---|---|---|---|---|---|---|");
    for (name, r) in &books {
        let plan = proved_find(r, 1).1;
        let [proved, unproved, counting] = seconds([
            &|| proved_find(black_box(r), 1).0,
            &|| unverified::find(black_box(r), 1, 1024).is_ok().into(),
            &|| counting::find_by_counting(black_box(r), 1024).is_some().into(),
        ]);
        println!(
            "| {name} | {} | {} | {} | {:.2} | {} | {:.1} times |",
            plan[0] * plan[2],
            time(proved),
            time(unproved),
            proved / unproved,
            time(counting),
            counting / proved
        );
    }
    println!();
    println!("| check | answer | proved | unverified | ratio |");
    println!("|---|---|---|---|---|");
    for (name, r) in checked {
        for (x, y) in vectors {
            let (number, answer) = proved_check(r, 1, x, y);
            let [proved, unproved] = seconds([&|| proved_check(black_box(r), 1, x, y).0, &|| {
                unverified::check(black_box(r), 1, x, y).is_ok().into()
            }]);
            let said = if number == 10 { "clash".into() } else { format!("surplus {}", answer[3]) };
            println!("| {name}, {x:?} {y:?} | {said} | {} | {} | {:.2} |", time(proved), time(unproved), proved / unproved);
        }
    }
    pictures::pictures(&fetched, true);
    records::lists(&listed, true);
    runs::lists(&runs, true);
    cycles::tables(&books[2], &books[10], true);
}
