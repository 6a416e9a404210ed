//! The safe functions of bindings/bankplan.rs against the brute force, on legal inputs and refused ones. What a function gives is
//! put as number and row, as the library tells it. The calls on a memory go through lists.rs; lists of calls as types are in
//! wrapper_lists.rs.

use crate::books::{bytes_of, damage, damaged_record, legal_book, legal_record};
use crate::calls::{Call, Kind};
use crate::classes::is_cycles;
use crate::cycles::written;
use crate::finds::{banks, judged, planned, random_book, vectors};
use crate::library::bankplan::{self, Book, Clash, Picture, Plan, Refused};
use crate::library::Told;
use crate::lists::NO_CYCLES;
use crate::oracle::{self, Pattern};
use crate::plans::{any_coordinate, any_plan, legal_plan, SIDES};
use crate::search::{self, least_plan};
use crate::{as_told, lists, wide, wrapper_lists, Random, Tally};
use std::collections::HashMap;

// Each function, and the numbers that can refuse it.
const FUNCTIONS: [(&str, &[u64]); 13] = [
    ("read_book", &[1, 2, 3, 4, 5, 19]),
    ("pattern_part", &[1, 2, 3, 4, 5, 17, 19]),
    ("Book::new", &[2, 3, 4, 19]),
    ("Book::test", &[2, 3, 4, 19]),
    ("Book::write", &[2, 3, 4, 16, 19]),
    ("Book::find", &[2, 3, 4, 6, 7, 19, 20]),
    ("Book::check", &[2, 3, 4, 8, 9, 10, 19, 20]),
    ("Book::write_cycles", &[2, 3, 4, 10, 11, 16, 17, 19, 20]),
    ("normal_form", &[8, 9]),
    ("Plan::bank", &[11]),
    ("Picture::depth", &[11, 12]),
    ("Picture::address", &[11, 12, 14]),
    ("Picture::locate", &[11, 12, 15]),
];

/// What a safe function gave, as the library tells it.
pub fn told<T>(answer: Result<T, Refused>, row: impl FnOnce(T) -> Vec<u64>) -> Told {
    match answer {
        Ok(x) => Told { number: 0, row: row(x) },
        Err(Refused { number, place, clash }) => {
            let clash = clash.iter().flat_map(|c: &Clash| [&[c.pattern], c.positions()].concat());
            Told { number, row: [place].into_iter().chain(clash).map(|x| x as u64).collect() }
        }
    }
}

fn plan_row(p: Plan) -> Vec<u64> {
    vec![p.a.into(), p.b.into(), p.d.into()]
}

// The cases, and how often each function gave each number.
struct Asked {
    tally: Tally,
    gave: HashMap<&'static str, [u64; 21]>,
}

impl Asked {
    fn same(&mut self, function: &'static str, what: impl Fn() -> String, got: Told, wanted: Told) {
        self.gave.entry(function).or_insert([0; 21])[got.number.min(20) as usize] += 1;
        self.tally.same(|| format!("{function}, {}", what()), got, wanted);
    }

    // Every function gave a value, and each number that can refuse it.
    fn reached(&mut self) {
        for (function, refusals) in FUNCTIONS {
            let gave = self.gave.get(function).copied().unwrap_or([0; 21]);
            let numbers: Vec<u64> = (0..21).filter(|&n| gave[n as usize] > 0).collect();
            let wanted: Vec<u64> = [&[0], refusals].concat();
            self.tally.same(|| format!("the numbers that {function} gave"), numbers, wanted);
        }
    }
}

// ---- bytes and records

fn ask_bytes(a: &mut Asked, bytes: &[u8]) {
    let what = || format!("{bytes:02x?}");
    let answer = oracle::read(bytes);
    let got = bankplan::read_book(bytes);
    if let (Ok(book), Ok(patterns)) = (&got, &answer) {
        a.tally.same(what, book, &oracle::record_of(patterns));
    }
    a.same("read_book", what, told(got, |book| vec![book.count as u64]), as_told(answer.clone(), |book| vec![book.len() as u64]));
    let count = answer.map_or(1, |book| book.len());
    for n in [0, count - 1, count, usize::MAX] {
        // a part of these bytes, where it stands
        let place = |part: &[u8]| vec![(part.as_ptr() as usize - bytes.as_ptr() as usize) as u64, part.len() as u64];
        let wanted = as_told(oracle::part(bytes, n), |(place, length)| vec![place as u64, length as u64]);
        a.same("pattern_part", what, told(bankplan::pattern_part(bytes, n), place), wanted);
    }
}

fn ask_record(a: &mut Asked, r: &Book) {
    let what = || format!("{r:?}");
    a.same("Book::test", what, told(r.test(), |()| vec![]), as_told(oracle::patterns_of(r), |_| vec![]));
    let size = oracle::write(r, usize::MAX).map_or(9, |bytes| bytes.len());
    for room in [size + 3, size, size - 1, 0] {
        let (mut out, mut wanted) = (vec![0xc9; room], vec![0xc9; room]);
        let answer = oracle::write(r, room);
        if let Ok(bytes) = &answer {
            wanted[..bytes.len()].copy_from_slice(bytes);
        }
        let got = told(r.write(&mut out), |n| vec![n as u64]);
        a.same("Book::write", what, got, as_told(answer, |bytes| vec![bytes.len() as u64]));
        a.tally.same(what, out, wanted);
    }
    // the pixels of each pattern; none past the count, and none of a count above 64
    for n in [0, 1, 2, 7, 15, 16, usize::MAX] {
        let has = n < 16 && n < r.count && r.used[n] <= 64;
        let wanted = has.then(|| (0..r.used[n]).map(|e| (r.columns[64 * n + e], r.rows[64 * n + e])).collect::<Vec<_>>());
        a.tally.same(|| format!("pattern {n} of {r:?}"), r.pattern(n).map(Iterator::collect), wanted);
    }
}

// Patterns that may be too many or too long for a record, and pixels that may be wrong; their bytes tell what is.
fn ask_new(a: &mut Asked, random: &mut Random) {
    let mut patterns: Vec<Pattern> = legal_book(random);
    let n = random.from_to(0, patterns.len() as i64 - 1) as usize;
    match random.from_to(0, 8) {
        0 => patterns.clear(),
        1 => patterns.resize(random.one_of(&[16, 17, 200]), vec![(0, 0)]),
        2 => patterns[n].clear(),
        3 => patterns[n] = (0..random.one_of(&[64, 65, 255])).map(|k| (k % 16, k / 16)).collect(),
        4 => patterns[n].push((random.from_to(-17, 16), random.one_of(&[-128, -17, -16, 15, 16, 127]))),
        5 => patterns[n].push(random.one_of(&[(-17, 0), (16, 0), (0, -17), (0, 16)])),
        6 => {
            let first = patterns[n][0];
            patterns[n].push(first);
        }
        7 => patterns[n].rotate_right(1),
        _ => {}
    }
    let bytes = oracle::bytes_of(&patterns);
    let small: Vec<Vec<(i8, i8)>> = patterns.iter().map(|t| t.iter().map(|v| (v.0 as i8, v.1 as i8)).collect()).collect();
    let (got, wanted) = (Book::new(&small), oracle::read(&bytes).map_err(|(number, _)| (number, 0)));
    let what = || format!("{patterns:?}");
    if let Ok(book) = &got {
        a.tally.same(what, book, &oracle::record_of(&patterns));
    }
    a.same("Book::new", what, told(got, |book| vec![book.count as u64]), as_told(wanted, |book| vec![book.len() as u64]));
}

fn books(a: &mut Asked) {
    let mut random = Random::new(21);
    ask_bytes(a, &[]);
    for _ in 0..500 {
        let mut bytes = bytes_of(&legal_book(&mut random));
        ask_bytes(a, &bytes);
        damage(&mut bytes, &mut random);
        ask_bytes(a, &bytes);
        ask_record(a, &legal_record(&mut random));
        ask_record(a, &damaged_record(&mut random));
        ask_new(a, &mut random);
    }
}

// ---- finder, check, plans

fn checked_row(c: bankplan::Checked) -> Vec<u64> {
    [plan_row(c.plan), vec![c.surplus.into()]].concat()
}

// The cycles of a pattern, which may not be there, under a plan for an output of the given room.
fn ask_cycles(a: &mut Asked, book: &Book, r: u32, p: Plan, n: usize, room: usize) {
    let (mut out, mut left) = (vec![0xc9; room], vec![0xc9; room]);
    let what = || format!("{book:?} {r} {p:?} {n}");
    let got = told(book.write_cycles(r, p, n, &mut out), |count| vec![count as u64]);
    let wanted = written(book, r, p, n, room).map(|bytes| {
        left[..bytes.len()].copy_from_slice(&bytes);
        Told { number: 0, row: vec![bytes.len() as u64] }
    });
    a.same("Book::write_cycles", what, got, wanted.unwrap_or_else(|refused| refused));
    a.tally.same(what, out, left);
}

fn finds(a: &mut Asked) {
    let mut random = Random::new(22);
    for round in 0..800 {
        let book = random_book(&mut random, 4, 7, 5, 4);
        // every other r is 1, and one of ten is none
        let cycles = [1, 2, 1, 3, 1, 5, 1, 8, 1, random.one_of(&NO_CYCLES)][round % 10];
        let least = if is_cycles(cycles) { least_plan(&book, cycles) } else { search::plan(5, 2, 1) };
        let r = oracle::record_of(&book);
        let what = || format!("{book:?} {cycles}");
        for limit in [1024, banks(least), banks(least) - 1, 1025] {
            let wanted = match limit {
                1..=1024 if !is_cycles(cycles) => Told { number: 20, row: vec![0] },
                1..=1024 => planned(Some(least).filter(|p| banks(*p) <= limit)),
                _ => Told { number: 6, row: vec![0] },
            };
            a.same("Book::find", what, told(r.find(cycles, limit as u32), plan_row), wanted);
        }
        for _ in 0..4 {
            let (x, y) = vectors(&mut random, least);
            let wanted = judged(search::check(&book, cycles, banks(least), wide(x), wide(y)));
            a.same("Book::check", || format!("{book:?} {cycles} {x:?} {y:?}"), told(r.check(cycles, x, y), checked_row), wanted);
            let plans = [least, legal_plan(&mut random), any_plan(&mut random)];
            let p = random.one_of(&plans);
            ask_cycles(a, &r, cycles, p, random.one_of(&[0, 0, 1, 4]), random.one_of(&[7, 9, 3]));
            let wanted = as_told(oracle::normal_form(wide(x), wide(y)), plan_row);
            a.same("normal_form", || format!("{x:?} {y:?}"), told(bankplan::normal_form(x, y), plan_row), wanted);
        }
        let (x, y) = random.one_of(&[((2, 1), (4, 2)), ((32, 0), (0, 33)), ((-5, 0), (3, -1))]);
        let wanted = as_told(oracle::normal_form(wide(x), wide(y)), plan_row);
        a.same("normal_form", || format!("{x:?} {y:?}"), told(bankplan::normal_form(x, y), plan_row), wanted);
        no_book(a, r, cycles, round, &mut random);
    }
}

// The same record, damaged so that it is no book.
fn no_book(a: &mut Asked, mut r: Book, cycles: u32, round: usize, random: &mut Random) {
    match round % 4 {
        0 => r.used[0] = random.one_of(&[0, 65]),
        1 => r.rows[0] = random.one_of(&[-17, 16]),
        2 => (r.used[0], r.columns[0], r.columns[1], r.rows[1]) = (2, 15, 14, r.rows[0]),
        _ => (r.used[0], r.columns[1], r.rows[1]) = (2, r.columns[0], r.rows[0]),
    }
    let what = || format!("{r:?} {cycles}");
    let wanted = as_told(oracle::patterns_of(&r), |_| vec![]);
    a.same("Book::find", what, told(r.find(cycles, 1024), plan_row), wanted.clone());
    a.same("Book::check", what, told(r.check(cycles, (1, 0), (0, 1)), checked_row), wanted);
    ask_cycles(a, &r, cycles, search::plan(5, 2, 1), 0, 7);
}

fn plans(a: &mut Asked) {
    let mut random = Random::new(23);
    for round in 0..1_500 {
        let plan = if round % 5 == 0 { any_plan(&mut random) } else { legal_plan(&mut random) };
        let mut side = || if random.from_to(0, 7) == 0 { random.one_of(&SIDES) } else { random.from_to(1, 40) as u32 };
        let p = Picture { plan, width: side(), height: side() };
        let mut along = || if random.from_to(0, 3) == 0 { any_coordinate(&mut random) } else { random.from_to(-2, 41) as i16 };
        let v = (along(), along());
        let what = || format!("{p:?} {v:?}");
        let number = |n: i64| vec![n as u64];
        a.tally.same(what, plan.banks(), u64::from(plan.a) * u64::from(plan.d));
        a.same("Plan::bank", what, told(plan.bank(v), |n| vec![n]), as_told(oracle::bank(plan, wide(v)), number));
        a.same("Picture::depth", what, told(p.depth(), |n| vec![n]), as_told(oracle::depth(plan, p.width, p.height), number));
        let wanted = oracle::address(plan, p.width, p.height, wide(v));
        a.same("Picture::address", what, told(p.address(v), |n| vec![n]), as_told(wanted, number));
        if p.width > 100 || p.height > 100 {
            continue;
        }
        // a pixel's own bank and address, and any
        let own = (oracle::bank(plan, wide(v)).unwrap_or(0) as u64, wanted.unwrap_or(0) as u64);
        for (k, i) in [own, (own.1, own.0), (random.one_of(&[0, 1, plan.banks()]), random.one_of(&[0, 1, 1 << 32]))] {
            let wanted = as_told(oracle::locate(plan, p.width, p.height, k, i), |v| vec![v.0 as u64, v.1 as u64]);
            let got = told(p.locate(k, i), |v| vec![v.0 as u64, v.1 as u64]);
            a.same("Picture::locate", || format!("{p:?}, bank {k}, address {i}"), got, wanted);
        }
    }
}

// ---- the calls on a memory, and the text of a refusal

/// By the wrapper's safe function.
pub fn by_wrapper(book: &Book, c: &Call, mem: &mut [u16], sums: &mut [u64], out: &mut [u16]) -> Told {
    let p = Picture { plan: c.lent.plan, width: c.lent.w, height: c.lent.h };
    match c.kind {
        Kind::Store => told(p.store(mem, sums, c.v, c.x), |()| vec![]),
        Kind::Load => told(p.load(mem, c.v), |word| vec![word.into()]),
        Kind::Clear => told(p.clear(mem, sums, c.k), |()| vec![]),
        Kind::Sum => told(p.sum(mem, c.k), |sum| vec![sum]),
        Kind::Fetch => told(p.fetch(book, c.r, mem, c.n, c.v, out), |words| vec![words as u64]),
        Kind::Ring => told(p.ring_fetch(book, c.r, mem, c.n, c.v, out), |words| vec![words as u64]),
        Kind::MakeSums => told(p.make_sums(mem, sums), |()| vec![]),
        Kind::ReadSum => told(p.plan.read_sum(sums, c.k), |sum| vec![sum]),
    }
}

fn texts(t: &mut Tally) {
    let mut says = |answer: Result<(), Refused>, wanted: &str| {
        t.same(|| wanted.into(), answer.map_or_else(|r| r.to_string(), |()| String::new()), wanted.into());
    };
    let pair = Book::new(&[[(0, 0), (1, 0)]]).unwrap();
    let picture = Picture { plan: pair.find(1, 1024).unwrap(), width: 7, height: 4 };
    says(bankplan::read_book(&[1, 1, 16, 0]).map(|_| ()), "refused 3: coordinate not -16..15, place 2");
    says(Book::new(&[[(0, 0), (0, 0)]]).map(|_| ()), "refused 4: pixel already in this pattern");
    let lower = "refused 19: pixel lower than the one before it, by row, then column";
    says(bankplan::read_book(&[1, 2, 0, 0, 255, 0]).map(|_| ()), &format!("{lower}, place 4"));
    says(Book::new(&[[(0, 0), (-1, 0)]]).map(|_| ()), lower);
    says(pair.find(1, 1).map(|_| ()), "refused 7: no suiting plan within limit");
    says(pair.check(1, (1, 0), (0, 1)).map(|_| ()), "refused 10: plan doesn't suit, pattern 0, positions 0 and 1");
    let row = Book::new(&[vec![(5, 5)], (0..10).map(|i| (i, 0)).collect()]).unwrap();
    let clash = "refused 10: plan doesn't suit, pattern 1, positions";
    says(row.check(2, (2, 0), (0, 1)).map(|_| ()), &format!("{clash} 0, 2 and 4"));
    says(row.check(8, (1, 0), (0, 1)).map(|_| ()), &format!("{clash} 0, 1, 2, 3, 4, 5, 6, 7 and 8"));
    says(row.find(0, 1024).map(|_| ()), "refused 20: r outside 1 to 8");
    let short = "refused 13: memory shorter than N × depth, or sums shorter than N";
    says(picture.store(&mut [], &mut [0; 2], (0, 0), 1), short);
    says(picture.plan.read_sum(&[0], 0).map(|_| ()), short);
    says(picture.fetch(&pair, 1, &[0; 32], 0, (0, 0), &mut []).map(|_| ()), "refused 16: output too short");
    let no_ring = "refused 18: (W, 0) or (0, H) not in the lattice";
    says(picture.ring_fetch(&pair, 1, &[0; 32], 0, (0, 0), &mut [0; 2]).map(|_| ()), no_ring);
    says(Err(Refused { number: bankplan::NOT_CALLS, place: 5, clash: None }), "refused 255: not a list of calls, place 5");
    let version: Vec<_> = bankplan::VERSION.split('.').map(|n| n.parse::<u32>().is_ok()).collect();
    t.same(|| "the version is three numbers".into(), version, vec![true; 3]);
    // no more positions than a clash has
    for (pattern, positions) in [(0, vec![]), (3, vec![7]), (1, (0..20).collect())] {
        let clash = Clash::new(pattern, &positions);
        t.same(|| format!("{clash:?}"), (clash.pattern, clash.positions()), (pattern, &positions[..positions.len().min(9)]));
    }
    for number in [0, 21, u64::MAX] {
        t.same(|| number.to_string(), Refused { number, place: 0, clash: None }.condition(), "no such number");
    }
}

pub fn run() -> Vec<Tally> {
    let mut a = Asked { tally: Tally::new("the wrapper: books, finder, check, plans"), gave: HashMap::new() };
    books(&mut a);
    finds(&mut a);
    plans(&mut a);
    a.reached();
    texts(&mut a.tally);
    let cycles = [1, 1, 2, 3, 8];
    let on_pictures = lists::lists("the wrapper: 300 random lists of 200 calls on a picture", 24, 300, by_wrapper, &cycles);
    vec![a.tally, on_pictures, wrapper_lists::run()]
}
