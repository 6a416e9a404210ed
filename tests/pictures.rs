//! The calls on a picture: document 01's figures, the order of the checks, and both sides of each edge. Where patterns lie is in
//! fetches.rs, the random lists are in lists.rs, what is said of the sums alone is in sums.rs.

use crate::books::fill_unused;
use crate::calls::{by_library, Call, Kind, Picture, Way, KINDS};
use crate::library::{self, Plan, Record};
use crate::memory::Lent;
use crate::oracle::{self, Pattern};
use crate::runs::by_list;
use crate::search::plan;
use crate::wrapper::by_wrapper;
use crate::{fetches, lists, told, Random, Tally};

pub fn cross() -> Pattern {
    vec![(0, -1), (-1, 0), (0, 0), (1, 0), (0, 1)]
}

// A record of these patterns, any numbers in its unused entries.
pub fn record(book: &[Pattern]) -> Record {
    let mut r = oracle::record_of(book);
    fill_unused(&mut r, &mut Random::new(14));
    r
}

// Asks, and compares the number with the one stated here.
pub fn expect(t: &mut Tally, c: Call, number: u64, book: &Record, picture: &mut Picture) {
    let told = picture.ask(t, book, &c);
    t.same(|| format!("{c:?}"), told, number);
}

fn figures() -> Tally {
    let mut t = Tally::new("figures of pictures");
    let book = record(&[vec![(0, 0)]]);
    let p = plan(5, 2, 1);
    // plan 5, 2, 1, W = 7, H = 4: (6,3) is bank 0, address 7 of 8
    let (mut memory, mut sums) = (vec![0; 40], [0; 12]);
    let mut wanted = memory.clone();
    wanted[7] = 65535;
    t.same(|| "store".into(), library::store(p, 7, 4, &mut memory, &mut sums, (6, 3), 65535), told(0, &[]));
    t.same(|| "(6,3)".into(), memory.clone(), wanted);
    t.same(|| "load".into(), library::load(p, 7, 4, &memory, (6, 3)), told(0, &[65535]));
    t.same(|| "sum".into(), library::sum(p, 7, 4, &memory, 0), told(0, &[65535]));
    // 65535 everywhere: the word of bank 4, address 1 is no pixel's
    for v in (0..28).map(|k| (k % 7, k / 7)) {
        t.same(|| format!("{v:?}"), library::store(p, 7, 4, &mut memory, &mut sums, v, 65535), told(0, &[]));
    }
    t.same(|| "bank 4, address 1".into(), (memory[33], memory.iter().filter(|&&x| x == 65535).count()), (0, 28));
    let before = memory.clone();
    t.same(|| "clear".into(), library::clear(p, 7, 4, &mut memory, &mut sums, 4), told(0, &[]));
    t.same(|| "bank 4".into(), memory, [&before[..32], &[0; 8]].concat());
    // plan 6, 4, 2: the bank of (-1,-1) is 9; on a ring of 12 by 12 it is (11,11)
    let (mut memory, mut out) = (vec![0; 144], [0; 1]);
    let stored = library::store(plan(6, 4, 2), 12, 12, &mut memory, &mut sums, (11, 11), 77);
    t.same(|| "store".into(), stored, told(0, &[]));
    t.same(|| "bank 9".into(), library::sum(plan(6, 4, 2), 12, 12, &memory, 9), told(0, &[77]));
    let ring = library::ring_fetch(&book, 1, plan(6, 4, 2), 12, 12, &memory, 0, (-1, -1), &mut out);
    t.same(|| "(-1,-1)".into(), (ring, out), (told(0, &[1]), [77]));
    // the table's examples
    let pair = record(&[vec![(0, 0), (1, 0)]]);
    for call in [library::fetch, library::ring_fetch] {
        let clash = call(&pair, 1, plan(1, 0, 1), 12, 12, &memory, 0, (0, 0), &mut [0; 2]);
        t.same(|| "table, 10".into(), clash, told(10, &[0, 0, 0, 1]));
        t.same(|| "table, 17".into(), call(&book, 1, p, 7, 4, &memory, 1, (0, 0), &mut out), told(17, &[0]));
        t.same(|| "table, 13".into(), call(&book, 1, p, 5, 5, &[], 0, (0, 0), &mut out), told(13, &[0]));
        t.same(|| "table, 16".into(), call(&book, 1, p, 5, 5, &memory, 0, (0, 0), &mut []), told(16, &[0]));
    }
    t.same(|| "table, 18".into(), library::ring_fetch(&book, 1, p, 7, 5, &memory, 0, (0, 0), &mut out), told(18, &[0]));
    t.same(|| "table, 14".into(), library::fetch(&book, 1, p, 7, 5, &memory, 0, (7, 0), &mut out), told(14, &[0]));
    t.same(|| "table, 14".into(), library::load(p, 7, 4, &memory, (7, 0)), told(14, &[0]));
    t.same(|| "table, 15".into(), library::sum(p, 7, 4, &memory, 5), told(15, &[0]));
    t.same(|| "table, 15".into(), library::clear(p, 7, 4, &mut memory, &mut sums, 5), told(15, &[0]));
    t.same(|| "table, 13".into(), library::store(p, 7, 4, &mut [], &mut sums, (0, 0), 1), told(13, &[0]));
    t.same(|| "table, 12".into(), library::load(p, 0, 4, &memory, (0, 0)), told(12, &[0]));
    t.same(|| "table, 11".into(), library::load(plan(0, 0, 1), 7, 4, &memory, (0, 0)), told(11, &[0]));
    t
}

// How a set of broken conditions is made: the sides that are those of a ring, those that are none, and the plans of which the
// second does not suit the cross for two cycles. In each way another part of the condition for a ring fails, and no other: a
// does not divide W, d does not divide H, a does not divide b * (H/d).
const RINGS: [((u32, u32), (u32, u32), [(i64, i64, i64); 2]); 3] = [
    ((10, 10), (7, 10), [(5, 2, 1), (2, 0, 1)]),
    ((6, 6), (6, 5), [(3, 0, 3), (1, 0, 2)]),
    ((10, 10), (10, 7), [(5, 2, 1), (2, 1, 1)]),
];

// Whether the memory and whether the sums are too short, where 13 is broken. A call that is not lent the one or the other does not
// ask for it.
fn shorts(kind: Kind) -> &'static [(bool, bool)] {
    match kind {
        Kind::ReadSum => &[(false, true), (true, true)],
        _ if kind.takes_sums() => &[(true, false), (false, true), (true, true)],
        _ => &[(true, false), (true, true)],
    }
}

// A call on the cross with these conditions broken, and the first of them in the order of the checks.
fn broken_call(t: &mut Tally, kind: Kind, way: Way, r: u32, ring: usize, broken: &[u64], short: (bool, bool)) {
    let (sides, others, plans) = RINGS[ring];
    let (a, b, d) = plans[usize::from(broken.contains(&10))];
    let (w, h) = if broken.contains(&18) { others } else { sides };
    let mut picture = Picture::new(plan(a, b, d), w, h);
    picture.way = way;
    let mut book = record(&[cross(), cross()]);
    let mut c = Call { r, v: (1, 1), k: 1, n: 1, room: 5, ..Call::new(kind, picture.lent) };
    for number in broken {
        match number {
            2 => book.count = 17,
            // the pixels of 3 and 4 are lower than the one before, too
            3 => book.rows[1] = -17,
            4 => (book.columns[3], book.rows[3]) = (book.columns[1], book.rows[1]),
            19 => (book.columns[4], book.rows[4]) = (15, -1),
            20 => c.r = if r == 1 { 0 } else { 9 },
            11 => c.lent.plan.b = a as u32,
            12 => c.lent.h = 4097,
            13 => {
                c.lent.words = if short.0 { 1 } else { c.lent.words };
                c.lent.entries -= usize::from(short.1);
            }
            14 => c.v = if kind == Kind::Fetch { (0, 1) } else { (-1, 1) },
            15 => c.k = 5,
            16 => c.room = 4,
            17 => c.n = 2,
            _ => assert!([10, 18].contains(number)),
        }
    }
    expect(t, c, broken.first().copied().unwrap_or(0), &book, &mut picture);
    // a ring fetch is not refused for where it lies
    if kind == Kind::Ring {
        expect(t, Call { v: (-1, 4096), ..c }, broken.first().copied().unwrap_or(0), &book, &mut picture);
    }
}

// Each set of a call's conditions is broken: the first of them in the order of the checks refuses it. Each call is made by itself
// and as a list of one.
fn order() -> Tally {
    let mut t = Tally::new("every set of broken conditions of each call on a picture");
    for kind in KINDS {
        let refusals = kind.refusals();
        for set in 0..1 << refusals.len() {
            let broken: Vec<u64> = (0..refusals.len()).filter(|k| set >> k & 1 == 1).map(|k| refusals[k]).collect();
            let shorts = if broken.contains(&13) { shorts(kind) } else { &[(false, false)] };
            for way in [by_library, by_list, by_wrapper] {
                for ring in 0..if kind == Kind::Ring { 3 } else { 1 } {
                    for r in 1..if kind.fetches() { 3 } else { 2 } {
                        shorts.iter().for_each(|&short| broken_call(&mut t, kind, way, r, ring, &broken, short));
                    }
                }
            }
        }
    }
    book_order(&mut t);
    t
}

// In book order; every pattern of the book is tested, what is behind them is not.
fn book_order(t: &mut Tally) {
    let mut picture = Picture::new(plan(5, 2, 1), 10, 10);
    let sound = record(&[cross(), cross()]);
    for kind in [Kind::Fetch, Kind::Ring] {
        let c = Call { v: (4, 4), ..Call::new(kind, picture.lent) };
        let mut case = |damage: fn(&mut Record), number| {
            let mut book = sound.clone();
            damage(&mut book);
            expect(t, c, number, &book, &mut picture);
        };
        case(|r| (r.used[0], r.columns[0]) = (65, 16), 2);
        case(|r| (r.rows[4], r.used[1]) = (-17, 0), 3);
        case(|r| (r.columns[1], r.columns[64]) = (0, 16), 4);
        case(|r| (r.columns[1], r.rows[4]) = (0, 16), 4);
        case(|r| (r.columns[64], r.rows[64]) = (-1, 0), 4);
        case(|r| (r.columns[1], r.columns[64]) = (1, 16), 19);
        case(|r| (r.columns[1], r.rows[4]) = (1, 16), 19);
        case(|r| (r.columns[1], r.used[1]) = (1, 0), 19);
        case(|r| r.rows[64] = 1, 19);
        case(|r| r.used[1] = usize::MAX, 2);
        case(|r| r.count = 0, 2);
        case(|r| r.count = usize::MAX, 2);
        case(|r| (r.count, r.used[1], r.columns[64]) = (1, 65, 16), 0);
        case(|r| (r.columns[5], r.rows[5], r.used[2]) = (-128, 127, usize::MAX), 0);
    }
}

fn edges() -> Tally {
    let mut t = Tally::new("edges of memory, banks, pixels, sides and plans");
    let book = record(&[vec![(0, 0)], vec![(0, 0), (1, 0)]]);
    let plans = [(1, 0, 1), (5, 2, 1), (2, 1, 2), (1, 0, 3), (4, 3, 3), (1024, 1023, 1), (1, 0, 1024), (32, 31, 32)];
    for p in plans.map(|(a, b, d)| plan(a, b, d)) {
        let n = p.a * p.d;
        // 2N by N has a ring; with many banks it would be long
        let (w, h) = if n < 100 { (2 * n as i16, n as i16) } else { (3, 2) };
        let mut picture = Picture::new(p, w as u32, h as u32);
        let size = picture.lent.words;
        let fine = |kind| if kind == Kind::Ring && n >= 100 { 18 } else { 0 };
        for kind in KINDS {
            let c = Call::new(kind, picture.lent);
            // a call that reads a sum goes by no memory and no sides
            let by_memory = |number| if kind == Kind::ReadSum { 0 } else { number };
            for (words, number) in [(size, fine(kind)), (size + 1, fine(kind)), (size - 1, by_memory(13)), (0, by_memory(13))] {
                expect(&mut t, Call { lent: Lent { words, ..c.lent }, ..c }, number, &book, &mut picture);
            }
            let sides = [(0, 1), (1, 0), (4097, 1), (1, 4097), (u32::MAX, 1), (65537, 65537), (1 << 31, 1 << 31)];
            for (w, h) in sides {
                expect(&mut t, Call { lent: Lent { w, h, ..c.lent }, ..c }, by_memory(12), &book, &mut picture);
            }
            let (most, half) = (u32::MAX, 65536);
            let near = [(0, 0, 1), (1, 0, 0), (5, 5, 1), (1025, 0, 1), (1, 0, 1025), (41, 0, 25)];
            for (a, b, d) in near.into_iter().chain([(half, 0, half), (most, 1, most)]) {
                expect(&mut t, Call { lent: Lent { plan: Plan { a, b, d }, ..c.lent }, ..c }, 11, &book, &mut picture);
            }
        }
        for kind in [Kind::Clear, Kind::Sum, Kind::ReadSum] {
            let n = u64::from(n);
            for (k, number) in [(n - 1, 0), (n, 15), (n + 1, 15), (1 << 32, 15), (1 << 54, 15), (1 << 63, 15), (u64::MAX, 15)] {
                expect(&mut t, Call { k, ..Call::new(kind, picture.lent) }, number, &book, &mut picture);
            }
        }
        for kind in [Kind::Store, Kind::Load, Kind::Fetch] {
            for i in [-32768, -1, 0, w - 1, w, w + 1, 32767] {
                for j in [-32768, -1, 0, h - 1, h, h + 1, 32767] {
                    let number = if (0..w).contains(&i) && (0..h).contains(&j) { 0 } else { 14 };
                    expect(&mut t, Call { v: (i, j), x: 65535, ..Call::new(kind, picture.lent) }, number, &book, &mut picture);
                }
            }
        }
        for kind in [Kind::Fetch, Kind::Ring] {
            for (room, number) in [(0, 16), (1, 0), (2, 0)] {
                let number = if fine(kind) == 0 { number } else { 18 };
                expect(&mut t, Call { room, ..Call::new(kind, picture.lent) }, number, &book, &mut picture);
            }
            for n in [2, 3, 15, 16, usize::MAX] {
                expect(&mut t, Call { n, ..Call::new(kind, picture.lent) }, 17, &book, &mut picture);
            }
        }
    }
    t
}

// Long sides: 4096 by 1 and 1 by 4096, and the largest picture.
fn longest() -> Tally {
    let mut t = Tally::new("the longest sides and the largest sums");
    let book = record(&[vec![(0, 0)], vec![(-16, 15)]]);
    for p in [plan(1, 0, 1), plan(5, 2, 1), plan(3, 1, 7), plan(32, 5, 32)] {
        for (w, h) in [(4096, 1), (1, 4096), (4095, 2), (2, 4095)] {
            let mut picture = Picture::new(p, w as u32, h as u32);
            for v in [(0, 0), (w - 1, h - 1), (w - 1, 0), (0, h - 1), (w / 2, h / 2)] {
                for kind in [Kind::Store, Kind::Load, Kind::Fetch] {
                    expect(&mut t, Call { v, x: 65535, ..Call::new(kind, picture.lent) }, 0, &book, &mut picture);
                }
            }
        }
        largest(&mut t, &book, p);
    }
    t
}

// The largest picture, whose bank of 65535s under 1, 0, 1 has a sum beyond 32 bits, walked for, kept and made afresh.
fn largest(t: &mut Tally, book: &Record, p: Plan) {
    let lent = Lent::new(p, 4096, 4096);
    let (depth, banks) = (lent.depth() as u64, lent.banks() as u64);
    let mut memory = vec![65535; lent.words];
    for k in [0, banks - 1] {
        t.same(|| format!("{p:?} {k}"), library::sum(p, 4096, 4096, &memory, k), told(0, &[65535 * depth]));
    }
    let made = |memory: &[u16]| {
        let mut sums = vec![1; lent.entries];
        (library::make_sums(p, 4096, 4096, memory, &mut sums), sums)
    };
    let mut sums = vec![65535 * depth; lent.entries];
    t.same(|| format!("{p:?} made afresh"), made(&memory), (told(0, &[]), sums.clone()));
    let at = lent.place_of((4095, 4095));
    let stored = library::store(p, 4096, 4096, &mut memory, &mut sums, (4095, 4095), 1);
    t.same(|| format!("{p:?} last pixel"), (stored, memory[at]), (told(0, &[]), 1));
    let mut out = [0; 1];
    let fetched = library::fetch(book, 1, p, 4096, 4096, &memory, 1, (4111, 4080), &mut out);
    t.same(|| format!("{p:?} last pixel"), (fetched, out), (told(0, &[1]), [1]));
    t.same(|| format!("{p:?}"), memory.iter().filter(|&&x| x != 65535).count(), 1);
    let k = at as u64 / depth;
    t.same(|| format!("{p:?} {k}"), library::sum(p, 4096, 4096, &memory, k), told(0, &[65535 * (depth - 1) + 1]));
    t.same(|| format!("{p:?} {k}"), library::read_sum(p, &sums, k), told(0, &[65535 * (depth - 1) + 1]));
    t.same(|| format!("{p:?} {k}"), library::clear(p, 4096, 4096, &mut memory, &mut sums, k).number, 0);
    t.same(|| format!("{p:?} made afresh"), made(&memory), (told(0, &[]), sums));
    let (from, to) = ((k * depth) as usize, ((k + 1) * depth) as usize);
    let cleared = memory.iter().enumerate().all(|(at, &x)| (x == 0) == (from..to).contains(&at));
    t.same(|| format!("{p:?}, bank {k} is cleared"), cleared, true);
}

pub fn run() -> Vec<Tally> {
    let mut tallies = vec![figures(), order(), edges(), longest()];
    tallies.extend(fetches::run());
    tallies.push(lists::lists("10,000 random lists of 200 calls on a picture", 13, 10_000, by_library, &[1]));
    let cycles = [2, 3, 4, 5, 6, 7, 8];
    tallies.push(lists::lists("5,000 random lists of 200 calls on a picture, r from 2 to 8", 35, 5_000, by_library, &cycles));
    tallies
}
