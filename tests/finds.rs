//! The finder and the check for r = 1. Every r is in cycles.rs.

use crate::books::{damaged_record, fill_unused, legal_record, reached};
use crate::library::{self, Plan, Record, Told};
use crate::memory::clash_told;
use crate::oracle::{self, Pattern};
use crate::search::{self, first_plan, one_to_a_bank, suits, Verdict};
use crate::{as_told, wide, Random, Tally};

fn refused(number: u64) -> Told {
    Told { number, row: vec![0] }
}

pub fn planned(p: Option<Plan>) -> Told {
    p.map_or(refused(7), |p| Told { number: 0, row: plan_row(p) })
}

fn plan_row(p: Plan) -> Vec<u64> {
    vec![p.a.into(), p.b.into(), p.d.into()]
}

pub fn judged(v: Result<Verdict, oracle::Refused>) -> Told {
    match v {
        Ok(Verdict::Suits(p, s)) => Told { number: 0, row: vec![p.a.into(), p.b.into(), p.d.into(), s as u64] },
        Ok(Verdict::Clash(n, positions)) => clash_told(n, &positions),
        Err((number, place)) => Told { number, row: vec![place] },
    }
}

pub fn banks(p: Plan) -> i64 {
    i64::from(p.a * p.d)
}

fn figures() -> Tally {
    let mut t = Tally::new("finder's figures");
    let mut figure = |book: &[Pattern], limit: u32, wanted: Told| {
        let searched = as_told(search::find(book, 1, limit.into(), one_to_a_bank), plan_row);
        t.same(|| format!("brute force, {book:?} {limit}"), searched, wanted.clone());
        t.same(|| format!("{book:?} {limit}"), library::find(&oracle::record_of(book), 1, limit), wanted);
    };
    let plan = |a, b, d| planned(Some(search::plan(a, b, d)));
    let row = vec![(0, 0), (1, 0), (2, 0)];
    let column = vec![(0, 0), (0, 1), (0, 2)];
    let gap = vec![(0, 0), (1, 0), (3, 0)];
    let cross = vec![(0, -1), (-1, 0), (0, 0), (1, 0), (0, 1)];
    let six: Vec<Pattern> =
        [(0, 1), (1, 1), (2, 1), (-1, 1), (1, 2), (1, 0)].iter().map(|&v| vec![(0, 0), v]).collect();
    figure(&[vec![(0, 0)]], 1024, plan(1, 0, 1));
    figure(&[vec![(0, 0)]], 1, plan(1, 0, 1));
    figure(&[row.clone()], 1024, plan(3, 0, 1));
    figure(&[row, column], 1024, plan(3, 1, 1));
    figure(&[vec![(0, 0), (1, 0), (0, 1), (1, 1)]], 1024, plan(2, 0, 2));
    figure(&[cross], 1024, plan(5, 2, 1));
    figure(&[gap.clone()], 1024, plan(4, 0, 1));
    figure(&[gap.clone()], 3, refused(7));
    figure(&[gap.clone()], 4, plan(4, 0, 1));
    figure(&[gap.clone()], 0, refused(6));
    figure(&[gap.clone()], 1025, refused(6));
    figure(&[gap], u32::MAX, refused(6));
    figure(&six, 1024, plan(2, 0, 2));
    figure(&[vec![(0, 0), (1, 0)]], 1, refused(7));
    // the four corners of the window in one pattern, and two far corners
    figure(&[vec![(-16, -16), (15, -16), (-16, 15), (15, 15)]], 1024, plan(2, 0, 2));
    figure(&[vec![(-16, -16), (15, 15)]], 1024, plan(2, 0, 1));
    // a book that fills the window needs every bank there is
    let hardest = search::hardest();
    figure(&hardest, 1024, plan(32, 0, 32));
    figure(&hardest, 1023, refused(7));
    // no two pixels of a pattern in one row, and differences in all others: only d = 32 is left
    let mut random = Random::new(12);
    let mut column = || random.from_to(-16, 15);
    let upright: Vec<Pattern> = (0..16).map(|_| (-16..16).map(|j| (column(), j)).collect()).collect();
    figure(&upright, 1024, plan(1, 0, 32));
    // the table's examples of 10, 8 and 9, and both ends of the surplus
    let pair = oracle::record_of(&[vec![(0, 0), (1, 0)]]);
    let clash = Told { number: 10, row: vec![0, 0, 0, 1] };
    t.same(|| "table, 10".into(), library::check(&pair, 1, (1, 0), (0, 1)), clash);
    t.same(|| "table, 8".into(), library::check(&pair, 1, (2, 1), (4, 2)), refused(8));
    t.same(|| "table, 9".into(), library::check(&pair, 1, (32, 0), (0, 33)), refused(9));
    let fine = Told { number: 0, row: vec![2, 0, 1, 0] };
    t.same(|| "no surplus".into(), library::check(&pair, 1, (2, 0), (0, 1)), fine);
    let more = Told { number: 0, row: vec![32, 0, 32, 1022] };
    t.same(|| "the greatest surplus".into(), library::check(&pair, 1, (32, 0), (0, 32)), more);
    let none = Told { number: 0, row: vec![32, 0, 32, 0] };
    t.same(|| "the hardest book".into(), library::check(&oracle::record_of(&hardest), 1, (32, 0), (0, 32)), none);
    // coordinates at both ends of 16 bits
    for (x, y) in [
        ((-32768, 1), (-32763, 1)),
        ((32767, -1), (32762, -1)),
        ((-32768, -32767), (-32767, -32766)),
        ((32767, -32768), (-32766, 32767)),
        ((-1, -32768), (0, 5)),
        ((5, 32767), (0, 1)),
        ((-32768, -32768), (32767, 32767)),
        ((-32768, 32767), (32767, -32768)),
    ] {
        for book in [vec![vec![(0, 0), (1, 0)]], vec![vec![(0, 0)]], vec![vec![(0, 0), (5, 0), (0, 5)]]] {
            let least = first_plan(&book, 1024, suits).unwrap();
            let wanted = judged(search::check(&book, 1, banks(least), wide(x), wide(y)));
            t.same(|| format!("{book:?} {x:?} {y:?}"), library::check(&oracle::record_of(&book), 1, x, y), wanted);
        }
    }
    t
}

// A random book: patterns and pixels up to these numbers, in a box of this width and height that lies anywhere in the window.
pub fn random_book(random: &mut Random, patterns: i64, pixels: i64, width: i64, height: i64) -> Vec<Pattern> {
    (0..random.from_to(1, patterns))
        .map(|_| {
            let (left, low) = (random.from_to(-16, 16 - width), random.from_to(-16, 16 - height));
            let size = random.from_to(1, pixels.min(width * height)) as usize;
            let mut t = Pattern::new();
            while t.len() < size {
                let v = (left + random.from_to(0, width - 1), low + random.from_to(0, height - 1));
                if !t.contains(&v) {
                    t.push(v);
                }
            }
            oracle::ordered(t)
        })
        .collect()
}

// Two vectors as a supplier might send them: any small ones, or those of a plan, each with multiples of the other added.
pub fn vectors(random: &mut Random, least: Plan) -> ((i16, i16), (i16, i16)) {
    let (mut x, mut y) = match random.from_to(0, 3) {
        0 => {
            let mut c = || random.from_to(-9, 9);
            ((c(), c()), (c(), c()))
        }
        1 => ((i64::from(least.a), 0), (i64::from(least.b), i64::from(least.d))),
        2 => ((i64::from(least.a) * random.from_to(1, 3), 0), (i64::from(least.b), i64::from(least.d) * random.from_to(1, 3))),
        _ => ((random.from_to(1, 40), 0), (random.from_to(0, 40), random.from_to(1, 28))),
    };
    for _ in 0..random.from_to(0, 4) {
        let k = random.from_to(-3, 3);
        (x, y) = (y, (x.0 + k * y.0, x.1 + k * y.1));
    }
    ((x.0 as i16, x.1 as i16), (y.0 as i16, y.1 as i16))
}

// Everything that is asked of a legal book whose least plan is known: limits around the count, and suppliers' vectors.
fn ask(t: &mut Tally, book: &[Pattern], least: Plan, random: &mut Random, checks: usize) {
    let mut r = oracle::record_of(book);
    fill_unused(&mut r, random);
    let n = banks(least);
    for limit in [1024, n, n - 1, random.from_to(1, 1024)] {
        let wanted = if limit < 1 { refused(6) } else { planned(Some(least).filter(|_| n <= limit)) };
        t.same(|| format!("{book:?} {limit}"), library::find(&r, 1, limit as u32), wanted);
    }
    for _ in 0..checks {
        let (x, y) = vectors(random, least);
        let wanted = judged(search::check(book, 1, n, wide(x), wide(y)));
        t.same(|| format!("{book:?} {x:?} {y:?}"), library::check(&r, 1, x, y), wanted);
    }
}

fn small_books() -> Tally {
    let mut t = Tally::new("20,000 random small books: plans, and suppliers' vectors");
    let mut random = Random::new(8);
    for _ in 0..20_000 {
        let (patterns, pixels) = random.one_of(&[(1, 4), (1, 9), (4, 5), (6, 3), (3, 16), (16, 2)]);
        let (width, height) = random.one_of(&[(2, 2), (3, 3), (5, 4), (7, 1), (1, 9), (12, 2), (3, 8), (32, 32)]);
        let book = random_book(&mut random, patterns, pixels, width, height);
        let least = first_plan(&book, 1024, suits).expect("limit 1024 is always enough");
        ask(&mut t, &book, least, &mut random, 5);
    }
    t
}

fn large_books() -> Tally {
    let mut t = Tally::new("2,000 random large books: plans, and suppliers' vectors");
    let mut random = Random::new(9);
    for round in 0..2_000 {
        let whole = round % 100 == 0;
        let (width, height) = random.one_of(&[(8, 8), (16, 6), (6, 16), (32, 3), (3, 32), (10, 10), (4, 12), (32, 1)]);
        let (width, height) = if whole { (32, 32) } else { (width, height) };
        let book = random_book(&mut random, 16, 64, width, height);
        let least = first_plan(&book, 1024, one_to_a_bank).expect("limit 1024 is always enough");
        ask(&mut t, &book, least, &mut random, 3);
    }
    t
}

// What the record's own refusal is, and what find and check say before and after it.
fn records() -> Tally {
    let mut t = Tally::new("find and check of damaged records");
    let mut random = Random::new(10);
    let mut gave = [[0; 21]; 2];
    for round in 0..20_000 {
        let r: Record = if round % 4 == 0 { legal_record(&mut random) } else { damaged_record(&mut random) };
        let limit = random.one_of(&[0, 1025, u32::MAX]);
        let (x, y) = random.one_of(&[((2, 1), (4, 2)), ((32, 0), (0, 33)), ((0, 0), (0, 0)), ((1, 0), (0, 1025))]);
        let book = oracle::patterns_of(&r);
        let number = |other| book.as_ref().map_or_else(|e| Told { number: e.0, row: vec![e.1] }, |_| other);
        let (found, checked) = (library::find(&r, 1, limit), library::check(&r, 1, x, y));
        gave[0][found.number.min(20) as usize] += 1;
        gave[1][checked.number.min(20) as usize] += 1;
        t.same(|| format!("{r:?} {limit}"), found, number(refused(6)));
        let vectors = judged(oracle::normal_form(wide(x), wide(y)).map(|p| Verdict::Suits(p, 0)));
        t.same(|| format!("{r:?} {x:?} {y:?}"), checked, number(vectors));
        if book.is_err() {
            t.same(|| format!("{r:?}"), library::find(&r, 1, 1024), number(refused(6)));
            t.same(|| format!("{r:?}"), library::check(&r, 1, (5, 0), (2, 1)), number(refused(6)));
        }
    }
    reached(&mut t, &gave[0], &[2, 3, 4, 6, 19], 500);
    reached(&mut t, &gave[1], &[2, 3, 4, 8, 9, 19], 500);
    t
}

// Document 002, Theorem 4.3: with a linear scheme rows, columns and both diagonals of length n need n, n + 1, n + 2 or n + 3
// banks. The finder has plans that are no linear schemes too; that they do no better is what is seen here. The theorem's proof
// passes over an even count of at least 2n, which is below n + 3 for n = 2: there 4 banks do, not 5. The four lines of length 2
// have the differences of a 2 by 2 block, whose plan is the figure 2, 0, 2.
fn theorem() -> Tally {
    let mut t = Tally::new("document 002, Theorem 4.3, n up to 16");
    for n in 1..=16i64 {
        let line = |i: i64, j: i64| oracle::ordered((0..n).map(|k| (i * k, j * k)).collect());
        let book = [line(1, 0), line(0, 1), line(1, 1), line(1, -1)];
        let stated = match (n % 2, n % 3) {
            (1, 1 | 2) => n,
            (0, 0 | 1) => n + 1,
            (1, _) => n + 2,
            _ => n + 3,
        };
        let told = library::find(&oracle::record_of(&book), 1, 1024);
        let count = if n == 2 { 4 } else { stated };
        t.same(|| format!("{n}"), told.row[0] * told.row[2], count as u64);
        t.same(|| format!("{n}"), told, planned(first_plan(&book, 1024, suits)));
    }
    t
}

// Every pattern in a row of 16 that begins at column 0: it needs the least M whose remainders tell its columns apart. Document 003
// has 4 for 0, 1, 3 and 7 for 0, 1, 4, 6.
fn one_row() -> Tally {
    let mut t = Tally::new("the catalogue of one-row patterns, 16 columns");
    for set in (1..1u32 << 16).step_by(2) {
        let columns: Vec<i64> = (0..16).filter(|k| set >> k & 1 == 1).collect();
        let apart = |m: &i64| {
            let mut seen = [false; 32];
            columns.iter().all(|c| !std::mem::replace(&mut seen[(c % m) as usize], true))
        };
        let least = (1..).find(apart).unwrap();
        let row: Pattern = columns.iter().map(|&c| (c, 0)).collect();
        let told = library::find(&oracle::record_of(&[row]), 1, 1024);
        t.same(|| format!("{columns:?}"), told, planned(Some(search::plan(least, 0, 1))));
        if columns == [0, 1, 3] || columns == [0, 1, 4, 6] {
            t.same(|| format!("document 003, {columns:?}"), least, if columns.len() == 3 { 4 } else { 7 });
        }
    }
    t
}

// Books with several suiting plans of least N: the least b is given, and of those with this b the least d. Each way to miss the
// order gives another plan often enough to be seen.
fn ties() -> Tally {
    let mut t = Tally::new("plans of equal least N: the least b, then the least d");
    let mut random = Random::new(13);
    let mut differ = [0; 4];
    while differ.iter().any(|&n| n < 1_000) {
        let (patterns, pixels) = random.one_of(&[(1, 6), (2, 4), (4, 3), (8, 2), (16, 2)]);
        let (width, height) = random.one_of(&[(2, 2), (4, 4), (3, 6), (6, 3), (8, 8), (32, 32)]);
        let book = random_book(&mut random, patterns, pixels, width, height);
        let suiting = (1..).map(|n| search::passing(&book, n, one_to_a_bank)).find(|all| !all.is_empty()).unwrap();
        let b = suiting.iter().map(|p| p.b).min().unwrap();
        let d = suiting.iter().filter(|p| p.b == b).map(|p| p.d).min().unwrap();
        let first = search::plan(banks(suiting[0]) / i64::from(d), b.into(), d.into());
        let others = [
            suiting.iter().min_by_key(|p| (p.d, p.b)),
            suiting.iter().max_by_key(|p| p.b),
            suiting.iter().min_by_key(|p| (p.b, u32::MAX - p.d)),
            suiting.iter().max_by_key(|p| (p.d, u32::MAX - p.b)),
        ];
        for (n, other) in differ.iter_mut().zip(others) {
            *n += usize::from(*other.unwrap() != first);
        }
        t.same(|| format!("{book:?}"), library::find(&oracle::record_of(&book), 1, 1024), planned(Some(first)));
    }
    t
}

pub fn run() -> Vec<Tally> {
    vec![figures(), small_books(), large_books(), ties(), records(), theorem(), one_row()]
}
