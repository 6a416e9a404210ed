//! Figures of the sums of the banks (Card 6 of document 02), stated here: stores, a clear, the sums made afresh, sums that begin
//! wrong, and a bank whose sum passes 2^16 and 2^32.

use crate::calls::{by_library, Call, Kind, Way};
use crate::library::{Plan, Record, Told};
use crate::memory::Lent;
use crate::pictures::record;
use crate::runs::by_list;
use crate::search::plan;
use crate::wrapper::by_wrapper;
use crate::{told, Tally};

/// The ways to make a call.
pub const WAYS: [(&str, Way); 3] = [("library", by_library), ("list of one", by_list), ("wrapper", by_wrapper)];

// A memory and sums, and how a call on them is made.
struct Kept {
    book: Record,
    lent: Lent,
    way: (&'static str, Way),
    memory: Vec<u16>,
    sums: Vec<u64>,
}

impl Kept {
    fn new(plan: Plan, w: u32, h: u32, way: (&'static str, Way)) -> Kept {
        let lent = Lent::new(plan, w, h);
        let (memory, sums) = (vec![0; lent.words], vec![0; lent.entries]);
        Kept { book: record(&[vec![(0, 0)]]), lent, way, memory, sums }
    }

    fn make(&mut self, c: Call) -> Told {
        (self.way.1)(&self.book, &c, &mut self.memory, &mut self.sums, &mut [])
    }

    fn store(&mut self, v: (i16, i16), x: u16) -> Told {
        self.make(Call { v, x, ..Call::new(Kind::Store, self.lent) })
    }

    fn of_bank(&mut self, kind: Kind, k: u64) -> Told {
        self.make(Call { k, ..Call::new(kind, self.lent) })
    }

    // The call was done, and these are the sums.
    fn left(&self, t: &mut Tally, what: &str, got: Told, sums: &[u64]) {
        t.same(|| format!("{what}, {}", self.way.0), (got, &self.sums[..]), (told(0, &[]), sums));
    }
}

// Plan 5, 2, 1 with W = 7 and H = 4: (6,3) and (0,0) are in bank 0, (1,0) is in bank 1, and the word of bank 4 and address 1, at 33,
// is no pixel's.
fn figures() -> Tally {
    let mut t = Tally::new("sums: figures");
    for way in WAYS {
        let mut p = Kept::new(plan(5, 2, 1), 7, 4, way);
        p.sums = vec![1, u64::MAX, 3, 1 << 63, 5];
        p.memory[33] = 9;
        let got = p.of_bank(Kind::MakeSums, 0);
        p.left(&mut t, "made afresh", got, &[0, 0, 0, 0, 9]);
        for (v, x, what, sums) in [
            ((6, 3), 65535, "a first word", [65535, 0, 0, 0, 9]),
            ((6, 3), 40, "over an old word", [40, 0, 0, 0, 9]),
            ((6, 3), 40, "over itself", [40, 0, 0, 0, 9]),
            ((0, 0), 65535, "past 2^16", [65575, 0, 0, 0, 9]),
            ((1, 0), 7, "another bank", [65575, 7, 0, 0, 9]),
            ((6, 3), 0, "0 over a word", [65535, 7, 0, 0, 9]),
        ] {
            let got = p.store(v, x);
            p.left(&mut t, what, got, &sums);
        }
        for (k, sum) in [(0, 65535), (1, 7), (4, 9)] {
            t.same(|| format!("read {k}, {}", way.0), p.of_bank(Kind::ReadSum, k), told(0, &[sum]));
            t.same(|| format!("walk {k}, {}", way.0), p.of_bank(Kind::Sum, k), told(0, &[sum]));
        }
        let got = p.of_bank(Kind::Clear, 4);
        p.left(&mut t, "a word that is no pixel's is cleared", got, &[65535, 7, 0, 0, 0]);
        let got = p.of_bank(Kind::Clear, 0);
        p.left(&mut t, "cleared", got, &[0, 7, 0, 0, 0]);
        let wanted: Vec<u16> = (0..40).map(|at| if at == 8 { 7 } else { 0 }).collect();
        t.same(|| format!("memory, {}", way.0), &p.memory, &wanted);
    }
    wraps(&mut t);
    t
}

// Sums that start wrong, and pass 0 and 2^64 without being made afresh.
fn wraps(t: &mut Tally) {
    for way in WAYS {
        let mut p = Kept::new(plan(5, 2, 1), 7, 4, way);
        (p.memory[7], p.memory[8], p.sums[1]) = (7, 1, u64::MAX);
        for (v, x, what, first, second) in [
            ((6, 3), 3, "below 0", u64::MAX - 3, u64::MAX),
            ((6, 3), 7, "0 again", 0, u64::MAX),
            ((6, 3), 0, "below 0 by the old word", u64::MAX - 6, u64::MAX),
            ((1, 0), 1, "over itself at 2^64 - 1", u64::MAX - 6, u64::MAX),
            ((1, 0), 65535, "past 2^64", u64::MAX - 6, 65533),
            ((1, 0), 0, "and back", u64::MAX - 6, u64::MAX - 1),
        ] {
            let got = p.store(v, x);
            p.left(t, what, got, &[first, second, 0, 0, 0]);
        }
        t.same(|| format!("read, {}", way.0), p.of_bank(Kind::ReadSum, 0), told(0, &[u64::MAX - 6]));
        t.same(|| format!("walk, {}", way.0), p.of_bank(Kind::Sum, 0), told(0, &[0]));
        let got = p.of_bank(Kind::Clear, 0);
        p.left(t, "cleared", got, &[0, u64::MAX - 1, 0, 0, 0]);
        let got = p.of_bank(Kind::MakeSums, 0);
        p.left(t, "made afresh", got, &[0; 5]);
    }
}

// A bank of 69,632 words that fills with 65,535: its sum passes 2^16 at the second word, is 2^32 - 1 at word 65,537, and passes 2^32
// at the next. Under the second plan only every other row is in the bank.
fn large_sums() -> Tally {
    let mut t = Tally::new("sums: a bank of 69,632 words");
    for (p, rows) in [(plan(1, 0, 1), 17), (plan(1, 0, 2), 33)] {
        let mut kept = Kept::new(p, 4096, rows, WAYS[0]);
        let pixels = (0..rows as i16).step_by(p.d as usize).flat_map(|j| (0..4096).map(move |i| (i, j)));
        for (n, v) in (1..).zip(pixels.clone()) {
            t.same(|| format!("{p:?} {v:?}"), kept.store(v, 65535), told(0, &[]));
            t.same(|| format!("{p:?} {v:?}"), kept.of_bank(Kind::ReadSum, 0), told(0, &[65535 * n]));
            let stated = [(1, 65_535), (2, 131_070), (65_537, 4_294_967_295), (65_538, 4_295_032_830), (69_632, 4_563_333_120)];
            for (_, sum) in stated.into_iter().filter(|stated| stated.0 == n) {
                for kind in [Kind::Sum, Kind::ReadSum] {
                    t.same(|| format!("{kind:?} after {n} words"), kept.of_bank(kind, 0), told(0, &[sum]));
                }
            }
        }
        let full = kept.sums.clone();
        kept.sums.fill(3);
        let got = kept.of_bank(Kind::MakeSums, 0);
        kept.left(&mut t, "made afresh", got, &full);
        // below 2^32 again, and over itself
        for (n, v) in (1..=4096).zip(pixels) {
            t.same(|| format!("{p:?} {v:?}"), kept.store(v, 0), told(0, &[]));
            t.same(|| format!("{p:?} {v:?}"), kept.store(v, 0), told(0, &[]));
            t.same(|| format!("{p:?} {v:?}"), kept.of_bank(Kind::ReadSum, 0), told(0, &[full[0] - 65535 * n]));
        }
        let got = kept.of_bank(Kind::Clear, 0);
        kept.left(&mut t, "cleared", got, &vec![0; kept.lent.entries]);
    }
    t
}

pub fn run() -> Vec<Tally> {
    vec![figures(), large_sums()]
}
