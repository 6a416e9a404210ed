//! Document 01's calls on a picture again, on a plain map from pixel to word, and the sums of Card 6 of document 02, counted again
//! from the words each time. It shares no code with the library, only the types that the answers are compared in.

use crate::classes::{clash_under, is_cycles};
use crate::library::{Plan, Record, Told};
use crate::oracle::{is_plan, patterns_of, Pattern};
use crate::search::bank_of;
use crate::{told, wide};
use std::cell::OnceCell;
use std::collections::HashMap;
use std::ops::Range;

/// What every call on a picture is given: a plan, two sides, a number of words, and a number of entries for the sums.
#[derive(Clone, Copy, Debug, PartialEq)]
pub struct Lent {
    pub plan: Plan,
    pub w: u32,
    pub h: u32,
    pub words: usize,
    pub entries: usize,
}

fn refuse<T>(number: u64) -> Result<T, Told> {
    Err(told(number, &[0]))
}

/// 10 with the clash of pattern n at these positions.
pub fn clash_told(n: usize, positions: &[usize]) -> Told {
    let positions = positions.iter().map(|&e| e as u64);
    told(10, &[0, n as u64].into_iter().chain(positions).collect::<Vec<_>>())
}

fn rounded_up(n: u32, by: u32) -> i64 {
    i64::from(n.div_ceil(by))
}

/// Whether a step keeps the bank of every pixel. The banks come again after N columns and after N rows, so that one such period is
/// looked at. Of one with more than 40 by 40 pixels these many are enough: a step keeps the banks of all pixels or of none, as
/// rings.rs sees in whole periods.
pub fn keeps_banks(p: Plan, step: (i64, i64)) -> bool {
    let side = i64::from((p.a * p.d).min(40));
    let kept = |i, j| bank_of(p, (i + step.0, j + step.1)) == bank_of(p, (i, j));
    (0..side).all(|j| (0..side).all(|i| kept(i, j)))
}

/// The least step to the right, and the least one down, that keeps every bank.
pub fn turns(p: Plan) -> (i64, i64) {
    let least = |step: fn(i64) -> (i64, i64)| (1..).find(|&k| keeps_banks(p, step(k))).unwrap();
    (least(|w| (w, 0)), least(|h| (0, h)))
}

impl Lent {
    /// A picture with just the words and the entries that it needs.
    pub fn new(plan: Plan, w: u32, h: u32) -> Lent {
        let bare = Lent { plan, w, h, words: 0, entries: 0 };
        Lent { words: bare.size(), entries: bare.banks() as usize, ..bare }
    }

    pub fn banks(&self) -> i64 {
        i64::from(self.plan.a) * i64::from(self.plan.d)
    }

    /// "C × (H/d rounded up)"
    pub fn depth(&self) -> i64 {
        rounded_up(self.w, self.plan.a) * rounded_up(self.h, self.plan.d)
    }

    /// The words of all banks, N × depth.
    pub fn size(&self) -> usize {
        (self.banks() * self.depth()) as usize
    }

    /// Where a pixel's word stands: its bank's stretch begins at k × depth, its address there is q × C + i/a.
    pub fn place_of(&self, v: (i64, i64)) -> usize {
        let address = v.1 / i64::from(self.plan.d) * rounded_up(self.w, self.plan.a) + v.0 / i64::from(self.plan.a);
        (bank_of(self.plan, v) * self.depth() + address) as usize
    }

    pub fn has(&self, v: (i64, i64)) -> bool {
        (0..self.w.into()).contains(&v.0) && (0..self.h.into()).contains(&v.1)
    }

    /// Whether a ring fetch is allowed: once around the picture, to the right or down, no pixel is in another bank.
    pub fn is_ring(&self) -> bool {
        keeps_banks(self.plan, (self.w.into(), 0)) && keeps_banks(self.plan, (0, self.h.into()))
    }

    fn are_sides(&self) -> bool {
        (1..=4096).contains(&self.w) && (1..=4096).contains(&self.h)
    }

    /// Whether there is a picture that the memory holds.
    pub fn is_held(&self) -> bool {
        is_plan(self.plan) && self.are_sides() && self.size() <= self.words
    }

    // 11, 12, 13
    fn test(&self) -> Result<(), Told> {
        if !is_plan(self.plan) {
            return refuse(11);
        }
        if !self.are_sides() {
            return refuse(12);
        }
        if self.words < self.size() { refuse(13) } else { Ok(()) }
    }

    // "A sums buffer shorter than N is a case of 13, tested with the memory"
    fn test_sums(&self) -> Result<(), Told> {
        if (self.entries as i64) < self.banks() { refuse(13) } else { Ok(()) }
    }

    // 15
    fn test_bank(&self, k: u64) -> Result<(), Told> {
        if k >= self.banks() as u64 { refuse(15) } else { Ok(()) }
    }
}

/// A pattern's pixels moved to o.
pub fn moved(t: &Pattern, o: (i16, i16)) -> Pattern {
    t.iter().map(|v| (v.0 + i64::from(o.0), v.1 + i64::from(o.1))).collect()
}

/// Pixels with their columns modulo w and their rows modulo h.
pub fn wrapped(t: &Pattern, w: i64, h: i64) -> Pattern {
    t.iter().map(|v| (v.0.rem_euclid(w), v.1.rem_euclid(h))).collect()
}

/// The words last stored in one picture, under one plan, and the sums of its banks.
pub struct Stored {
    of: Lent,
    words: HashMap<(i64, i64), u16>,
    // what stood in the picture's words at the start, now 0 where it was stored over or cleared; nothing where all was 0
    start: Vec<u16>,
    // how far each sum is above that of its bank's words, modulo 2^64: no store changes that
    above: Vec<u64>,
    // whether its ring fetches are allowed, once it was looked at
    ring: OnceCell<bool>,
}

impl Stored {
    /// With what stands in the memory and in the sums at the start.
    pub fn new(of: Lent, memory: &[u16], sums: &[u64]) -> Stored {
        let picture = if of.is_held() { &memory[..of.size()] } else { &[] };
        let start = if picture.iter().all(|&x| x == 0) { Vec::new() } else { picture.to_vec() };
        let banks = if is_plan(of.plan) { of.banks() as usize } else { 0 };
        let mut stored = Stored { of, words: HashMap::new(), start, above: vec![0; banks], ring: OnceCell::new() };
        for (k, &sum) in sums.iter().enumerate().take(banks) {
            stored.above[k] = sum.wrapping_sub(stored.walk(k));
        }
        stored
    }

    fn word(&self, v: (i64, i64)) -> u16 {
        let at_start = || if self.start.is_empty() { 0 } else { self.start[self.of.place_of(v)] };
        self.words.get(&v).copied().unwrap_or_else(at_start)
    }

    // Where a bank stands in what is left of the start.
    fn stretch(&self, k: usize) -> Range<usize> {
        let depth = if self.start.is_empty() { 0 } else { self.of.depth() as usize };
        k * depth..(k + 1) * depth
    }

    // The sum of a bank's words.
    fn walk(&self, k: usize) -> u64 {
        let stored = self.words.iter().filter(|(&v, _)| bank_of(self.of.plan, v) as usize == k).map(|(_, &x)| x);
        stored.chain(self.start[self.stretch(k)].iter().copied()).map(u64::from).sum()
    }

    // A call that is not refused is one on this picture.
    fn test(&self, g: &Lent) -> Result<(), Told> {
        g.test()?;
        assert_eq!((g.plan, g.w, g.h), (self.of.plan, self.of.w, self.of.h));
        Ok(())
    }

    pub fn store(&mut self, g: &Lent, v: (i16, i16), x: u16) -> Result<(), Told> {
        self.test(g)?;
        g.test_sums()?;
        if !g.has(wide(v)) {
            return refuse(14);
        }
        self.words.insert(wide(v), x);
        if !self.start.is_empty() {
            self.start[g.place_of(wide(v))] = 0;
        }
        Ok(())
    }

    pub fn load(&self, g: &Lent, v: (i16, i16)) -> Result<u16, Told> {
        self.test(g)?;
        if g.has(wide(v)) { Ok(self.word(wide(v))) } else { refuse(14) }
    }

    pub fn clear(&mut self, g: &Lent, k: u64) -> Result<(), Told> {
        self.test(g)?;
        g.test_sums()?;
        g.test_bank(k)?;
        self.words.retain(|&v, _| bank_of(g.plan, v) as u64 != k);
        let bank = self.stretch(k as usize);
        self.start[bank].fill(0);
        self.above[k as usize] = 0;
        Ok(())
    }

    pub fn sum(&self, g: &Lent, k: u64) -> Result<u64, Told> {
        self.test(g)?;
        g.test_bank(k)?;
        Ok(self.walk(k as usize))
    }

    pub fn make_sums(&mut self, g: &Lent) -> Result<(), Told> {
        self.test(g)?;
        g.test_sums()?;
        self.above.fill(0);
        Ok(())
    }

    /// It goes by no sides and no memory.
    pub fn read_sum(&self, g: &Lent, k: u64) -> Result<u64, Told> {
        if !is_plan(g.plan) {
            return refuse(11);
        }
        g.test_sums()?;
        g.test_bank(k)?;
        assert_eq!(g.plan, self.of.plan);
        Ok(self.above[k as usize].wrapping_add(self.walk(k as usize)))
    }

    /// A fetch, or a ring fetch, of pattern n for r moved to o, for an output of the given room.
    #[rustfmt::skip]
    pub fn fetch(
        &self, book: &Record, r: u32, g: &Lent, n: usize, o: (i16, i16), room: usize, ring: bool,
    ) -> Result<Vec<u16>, Told> {
        let book = patterns_of(book).map_err(|(number, place)| told(number, &[place]))?;
        if !is_cycles(r) {
            return refuse(20);
        }
        self.test(g)?;
        if n >= book.len() {
            return refuse(17);
        }
        let t = &book[n];
        if let Some(positions) = clash_under(r, g.plan, t) {
            return Err(clash_told(n, &positions));
        }
        let mut pixels = moved(t, o);
        if ring {
            if !self.ring.get_or_init(|| self.of.is_ring()) {
                return refuse(18);
            }
            pixels = wrapped(&pixels, g.w.into(), g.h.into());
        }
        if !pixels.iter().all(|&v| g.has(v)) {
            return refuse(14);
        }
        if room < pixels.len() {
            return refuse(16);
        }
        Ok(pixels.iter().map(|&v| self.word(v)).collect())
    }

    /// The memory as it must stand, put over the one of the start: each stored word at its place.
    pub fn put_words(&self, memory: &mut [u16]) {
        memory[..self.start.len()].copy_from_slice(&self.start);
        for (&v, &x) in &self.words {
            memory[self.of.place_of(v)] = x;
        }
    }

    /// The sums as they must stand, put over those of the start; too few of them have not changed.
    pub fn put_sums(&self, sums: &mut [u64]) {
        if self.of.entries < self.above.len() {
            return;
        }
        sums[..self.above.len()].copy_from_slice(&self.above);
        for (at, &x) in self.start.iter().enumerate() {
            let sum = &mut sums[at / self.of.depth() as usize];
            *sum = sum.wrapping_add(x.into());
        }
        for (&v, &x) in &self.words {
            let sum = &mut sums[bank_of(self.of.plan, v) as usize];
            *sum = sum.wrapping_add(x.into());
        }
    }
}
