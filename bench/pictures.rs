//! The calls on a picture: the proved library beside unverified Rust. Those on the sums and on whole banks are in sums.rs.

use std::cell::RefCell;
use std::hint::black_box;

use crate::bankplan::raw::{bankplan_bank, bankplan_fetch, bankplan_load, bankplan_ring_fetch};
use crate::bankplan::{Book as Record, Plan};
use crate::{block, record, seconds, sums, time, words};

/// A picture under a plan, with its memory and the sums of its banks.
pub struct Picture {
    pub p: Plan,
    pub w: u32,
    pub h: u32,
    pub mem: RefCell<Vec<u16>>,
    pub sums: RefCell<Vec<u64>>,
}

/// What stands in the entries behind the sums.
pub const BEHIND: [u64; 2] = [0x5eed, 0xbeef];

/// The words of a picture under a plan.
pub fn memory(p: &Plan, w: u32, h: u32) -> Vec<u16> {
    let words = p.a * p.d * w.div_ceil(p.a) * h.div_ceil(p.d);
    (0..words).map(|k| (k * 40503 % 65521) as u16).collect()
}

// What a call told: its number, and the value or 0.
pub type Told = (u64, u64);

pub fn told<T: Into<u64>>(r: Result<T, u64>) -> Told {
    r.map_or_else(|n| (n, 0), |x| (0, x.into()))
}

impl Picture {
    pub fn new(p: Plan, w: u32, h: u32) -> Picture {
        let mem = memory(&p, w, h);
        let depth = mem.len() / (p.a * p.d) as usize;
        let sums = mem.chunks_exact(depth).map(words::walk).chain(BEHIND).collect();
        Picture { p, w, h, mem: RefCell::new(mem), sums: RefCell::new(sums) }
    }

    fn bank(&self, (i, j): (i16, i16)) -> Told {
        let (p, mut answer) = (&self.p, [0; 12]);
        let n = unsafe { bankplan_bank(p.a, p.b, p.d, i, j, &mut answer) };
        (n, answer[0])
    }

    pub fn load(&self, (i, j): (i16, i16)) -> Told {
        let (p, mem, mut answer) = (&self.p, self.mem.borrow(), [0; 12]);
        let n = unsafe { bankplan_load(p.a, p.b, p.d, self.w, self.h, mem.as_ptr(), mem.len(), i, j, &mut answer) };
        (n, answer[0])
    }

    pub fn fetch(&self, ring: bool, r: &Record, n: usize, (i, j): (i16, i16), out: &mut [u16]) -> Told {
        let (p, mem, mut answer) = (&self.p, self.mem.borrow(), [0; 12]);
        let call = if ring { bankplan_ring_fetch } else { bankplan_fetch };
        let number = unsafe {
            call(
                &r.columns,
                &r.rows,
                &r.used,
                r.count,
                1,
                p.a,
                p.b,
                p.d,
                self.w,
                self.h,
                mem.as_ptr(),
                mem.len(),
                n,
                i,
                j,
                out.as_mut_ptr(),
                out.len(),
                &mut answer,
            )
        };
        (number, answer[0])
    }

    fn unverified_fetch(&self, ring: bool, r: &Record, n: usize, o: (i16, i16), out: &mut [u16]) -> Told {
        let call = if ring { words::ring_fetch } else { words::fetch };
        told(call(r, 1, &self.p, self.w, self.h, &self.mem.borrow(), n, o, out).map(|x| x as u64))
    }
}

/// Positions all over the picture, so that no call repeats the one before, and every pattern moved there is inside.
pub fn positions(w: u32, h: u32) -> Vec<(i16, i16)> {
    (0..1000u32).map(|k| ((16 + k * 7919 % (w - 32)) as i16, (16 + k * 104_729 % (h - 32)) as i16)).collect()
}

/// Positions all over a ring, and up to a turn off on either side.
pub fn around(w: u32, h: u32) -> Vec<(i16, i16)> {
    let at = |k: u32, side: u32| (k % (3 * side)) as i16 - side as i16;
    (0..1000).map(|k| (at(k * 7919, w), at(k * 104_729, h))).collect()
}

/// The greatest sides of a ring within these.
pub fn ring_sides(p: &Plan, w: u32, h: u32) -> (u32, u32) {
    let wide = w - w % p.a;
    (wide, (1..=h).rev().find(|&high| words::is_ring(p, wide, high)).expect("N rows are a ring's"))
}

// Numbers that no call can guess from those before.
fn mixed(k: u32) -> u32 {
    let x = (k ^ k >> 16).wrapping_mul(0x85eb_ca6b);
    let y = (x ^ x >> 13).wrapping_mul(0xc2b2_ae35);
    y ^ y >> 16
}

// Pixels of both signs, for a bank.
fn anywhere() -> Vec<(i16, i16)> {
    (1..=50_000).map(|k| (mixed(k) as i16, mixed(k + 50_000) as i16)).collect()
}

// Positions at the left edge: columns from 0 to 3, or from -4 to 3 around the edge.
fn at_left_edge(ring: bool, h: u32) -> Vec<(i16, i16)> {
    let column = |k| if ring { (mixed(k) % 8) as i16 - 4 } else { (mixed(k) % 4) as i16 };
    (1..=50_000).map(|k| (column(k), (16 + mixed(k + 50_000) % (h - 32)) as i16)).collect()
}

/// One row: what is done so many times, and the time of one.
pub fn row(name: &str, times: usize, proved: &dyn Fn() -> u64, unverified: &dyn Fn() -> u64) {
    show_row(name, times, seconds([proved, unverified]));
}

/// The same of times that were taken.
pub fn show_row(name: &str, times: usize, taken: [f64; 2]) {
    let [x, y] = taken.map(|s| s / times as f64);
    println!("| {name} | {} | {} | {:.2} |", time(x), time(y), x / y);
}

pub fn all<T: Copy>(at: &[T], call: impl Fn(T) -> u64) -> u64 {
    at.iter().map(|o| call(black_box(*o))).fold(0, u64::wrapping_add)
}

fn same_words(pic: &Picture, at: &[(i16, i16)]) {
    let (p, w, h, twin) = (&pic.p, pic.w, pic.h, Picture::new(pic.p, pic.w, pic.h));
    for (k, o) in at.iter().enumerate() {
        assert_eq!(pic.store(*o, k as u16), (0, 0));
        assert_eq!(twin.unverified_store(*o, k as u16), (0, 0));
        pic.is_like(&twin);
        assert_eq!(pic.load(*o), told(words::load(p, w, h, &pic.mem.borrow(), *o)));
    }
    for o in anywhere() {
        assert_eq!(pic.bank(o), told(words::bank(p, o)));
    }
    for k in [0, u64::from(p.a * p.d) - 1, u64::from(p.a * p.d)] {
        assert_eq!(pic.sum(k), told(words::sum(p, w, h, &twin.mem.borrow(), k)));
        assert_eq!(pic.clear(k), twin.unverified_clear(k));
        pic.is_like(&twin);
    }
}

fn same_fetches(pic: &Picture, r: &Record, at: &[(i16, i16)]) {
    for o in at {
        for ring in [false, true] {
            let (mut x, mut y) = ([7; 64], [7; 64]);
            assert_eq!(pic.fetch(ring, r, 0, *o, &mut x), pic.unverified_fetch(ring, r, 0, *o, &mut y));
            assert_eq!(x, y);
        }
    }
}

// Both allow a ring fetch of the same sides: every plan with up to 12 banks, all sides up to 24.
fn same_rings() {
    let one = record(&[block(1, 1)]);
    let plans = (1..=12).flat_map(|n| (1..=n).filter(move |d| n % d == 0).map(move |d| (n / d, d)));
    for (a, b, d) in plans.flat_map(|(a, d)| (0..a).map(move |b| (a, b, d))) {
        for (w, h) in (1..=24).flat_map(|w| (1..=24).map(move |h| (w, h))) {
            let (pic, mut x, mut y) = (Picture::new(Plan { a, b, d }, w, h), [7], [7]);
            let (got, wanted) = (pic.fetch(true, &one, 0, (-1, -1), &mut x), pic.unverified_fetch(true, &one, 0, (-1, -1), &mut y));
            assert_eq!((got, x), (wanted, y), "plan {a}, {b}, {d}, sides {w}, {h}");
        }
    }
}

/// The sides of turntables: the card's, and large ones. They are not both multiples of N.
pub const TURNTABLES: [(u32, u32); 2] = [(12, 6), (4086, 4090)];

/// The pattern of 6 by 2 pixels and its plan, under which these sides are a ring's.
pub fn turntable() -> (Record, Plan) {
    (record(&[block(6, 2)]), Plan { a: 6, b: 0, d: 2 })
}

fn turntables(timed: bool) {
    let (r, p) = turntable();
    for (w, h) in TURNTABLES {
        let (pic, at) = (Picture::new(p, w, h), around(w, h));
        same_fetches(&pic, &r, &at);
        assert_eq!(pic.fetch(true, &r, 0, (0, 0), &mut [0; 12]), (0, 12));
        if timed {
            fetch_row(&format!("ring fetch, 6 by 2 block, turntable of {w} by {h}"), &pic, true, &r, &at);
        }
    }
}

/// The answers of both, compared; then the table.
pub fn pictures(books: &[(&str, &Record, Plan)], timed: bool) {
    let (w, h) = (1920, 1080);
    if timed {
        println!();
        println!("| picture of 1920 by 1080 | proved | unverified | ratio |");
        println!("|---|---|---|---|");
    }
    for (k, (name, r, p)) in books.iter().enumerate() {
        let pic = Picture::new(*p, w, h);
        // a ring of sides that are multiples of N
        let n = p.a * p.d;
        let ring = Picture::new(*p, w - w % n, h - h % n);
        let at = positions(w, h);
        same_words(&pic, &at[..50]);
        sums::same(&pic);
        same_fetches(&pic, r, &at[..50]);
        same_fetches(&ring, r, &at[..50]);
        let edges = [false, true].map(|ring| at_left_edge(ring, h));
        edges.iter().for_each(|at| same_fetches(&ring, r, at));
        if timed {
            if k == 0 {
                sums::words_table(&pic, &at);
            }
            let plan = format!("plan {}, {}, {}", p.a, p.b, p.d);
            fetch_row(&format!("fetch, {name}"), &pic, false, r, &at);
            fetch_row(&format!("ring fetch, {name}"), &ring, true, r, &at);
            // a straight plan, and one with a slant and several rows
            if k == 0 || k + 1 == books.len() {
                fetch_row(&format!("fetch at the left edge, {plan}"), &pic, false, r, &edges[0]);
                fetch_row(&format!("ring fetch at the left edge, {plan}"), &ring, true, r, &edges[1]);
                bank_row(&plan, &pic);
            }
        }
    }
    same_rings();
    turntables(timed);
    sums::sizes(timed);
}

fn bank_row(plan: &str, pic: &Picture) {
    let (p, at) = (&pic.p, anywhere());
    row(
        &format!("bank of a pixel, {plan}"),
        at.len(),
        &|| all(&at, |o| pic.bank(o).1),
        &|| all(&at, |o| words::bank(black_box(p), o).map_or(0, u64::from)),
    );
}

fn fetch_row(name: &str, pic: &Picture, ring: bool, r: &Record, at: &[(i16, i16)]) {
    let out = RefCell::new([0; 64]);
    row(
        name,
        at.len(),
        &|| all(at, |o| pic.fetch(ring, r, 0, o, &mut *out.borrow_mut()).1),
        &|| all(at, |o| pic.unverified_fetch(ring, black_box(r), 0, o, &mut *out.borrow_mut()).1),
    );
}
