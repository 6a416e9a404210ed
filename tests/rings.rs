//! Card 5 of document 02: which ring fetches are allowed, and what they give. A brute force looks for two pixels a step of W or H
//! apart in different banks. Then come random books and plans for each r. The figures are in ring_figures.rs, the order of the
//! checks is in pictures.rs, and ring fetches in lists are in ring_edges.rs and runs.rs.

use crate::classes::suits_for;
use crate::fetches::found;
use crate::library::{self, Plan, Record};
use crate::memory::{moved, turns, wrapped, Lent};
use crate::oracle::Pattern;
use crate::pictures::record;
use crate::plans::legal_plan;
use crate::random_pictures::any_book;
use crate::search::{bank_of, passing, plan};
use crate::{ring_figures, told, Random, Tally};
use std::collections::HashSet;

const MOST_BANKS: i64 = 40;
const MOST_SIDE: i64 = 60;

// The banks of the pixels of one period, N by N, and of those up to 60 columns and rows behind it.
struct Banks {
    n: usize,
    of: Vec<Vec<i64>>,
}

impl Banks {
    fn new(p: Plan) -> Banks {
        let n = i64::from(p.a * p.d);
        let of = (0..n + MOST_SIDE).map(|j| (0..n + MOST_SIDE).map(|i| bank_of(p, (i, j))).collect()).collect();
        Banks { n: n as usize, of }
    }

    // How many pixels of the period are led to another bank by a step to the right and down.
    fn parted(&self, right: usize, down: usize) -> usize {
        let row = |j: usize| self.of[j][..self.n].iter().zip(&self.of[j + down][right..]).filter(|(k, m)| k != m).count();
        (0..self.n).map(row).sum()
    }
}

// The word of each place is its number.
fn numbered(words: usize) -> Vec<u16> {
    assert!(words <= 65536);
    (0..words).map(|k| k as u16).collect()
}

// A ring fetch of one pixel at v with just the memory that it needs: where it is allowed it gives the word of the wrapped pixel.
fn ask_one(t: &mut Tally, book: &Record, g: Lent, memory: &[u16], v: (i16, i16), allowed: bool) {
    let mut out = [0xffff];
    let got = library::ring_fetch(book, 1, g.plan, g.w, g.h, &memory[..g.size()], 0, v, &mut out);
    let at = (i64::from(v.0).rem_euclid(g.w.into()), i64::from(v.1).rem_euclid(g.h.into()));
    let wanted = if allowed { (told(0, &[1]), [g.place_of(at) as u16]) } else { (told(18, &[0]), [0xffff]) };
    t.same(|| format!("{g:?} {v:?}"), (got, out), wanted);
}

// 18 exactly where two pixels a step of W or H apart are in different banks. A step parts all pixels from their banks or none, so
// memory.rs need not look at whole periods of larger plans.
fn every_plan() -> Tally {
    let mut t = Tally::new("rings: every plan of up to 40 banks with all sides from 1 to 60");
    let (book, memory) = (record(&[vec![(0, 0)]]), numbered(10_000));
    let (mut allowed, mut not_by_n) = (0, 0);
    for p in (1..=MOST_BANKS).flat_map(|n| passing(&[], n, |_, _| true)) {
        let (banks, n) = (Banks::new(p), p.a * p.d);
        let steps = 1..=MOST_SIDE as usize;
        let right: Vec<usize> = steps.clone().map(|w| banks.parted(w, 0)).collect();
        let down: Vec<usize> = steps.map(|h| banks.parted(0, h)).collect();
        let whole = right.iter().chain(&down).all(|&pixels| pixels == 0 || pixels == banks.n * banks.n);
        t.same(|| format!("{p:?}: a step parts all pixels or none"), whole, true);
        for (w, h) in (1..=60).flat_map(|w| (1..=60).map(move |h| (w, h))) {
            let g = Lent::new(p, w, h);
            let ring = right[w as usize - 1] == 0 && down[h as usize - 1] == 0;
            ask_one(&mut t, &book, g, &memory, ((2 * w + h) as i16 - 70, 40 - (3 * h + w) as i16), ring);
            allowed += u64::from(ring);
            not_by_n += u64::from(ring && (w % n != 0 || h % n != 0));
        }
    }
    // counted apart from this program, by the banks and by the three divisions
    t.same(|| "allowed, and of these with a side that is no multiple of N".into(), (allowed, not_by_n), (64_383, 44_867));
    t
}

// The same of some plans of many banks, whose whole period is looked at too: sides about the least ring, and at both ends.
fn large_plans() -> Tally {
    let mut t = Tally::new("rings: plans of about 1,024 banks with sides from 1 to 4096");
    let book = record(&[vec![(0, 0)]]);
    // all 0 but for the word of the last pixel; it is long enough for each of these pictures
    let mut memory = vec![0; 5120 * 5120];
    for (a, b, d) in [(32, 0, 32), (32, 24, 32), (1024, 640, 1), (1, 0, 1024), (341, 340, 3), (60, 45, 16)] {
        let p = plan(a, b, d);
        let keeps = |right: i64, down: i64| {
            let kept = |i, j| bank_of(p, (i + right, j + down)) == bank_of(p, (i, j));
            (0..a * d).all(|j| (0..a * d).all(|i| kept(i, j)))
        };
        let sides = |turn: i64| [1, a, d, turn - 1, turn, turn + 1, 4096 / turn * turn, 4096].into_iter().filter(|&n| n > 0);
        let right: Vec<(i64, bool)> = sides(turns(p).0).map(|w| (w, keeps(w, 0))).collect();
        let down: Vec<(i64, bool)> = sides(turns(p).1).map(|h| (h, keeps(0, h))).collect();
        for (&(w, to_right), &(h, to_below)) in right.iter().flat_map(|w| down.iter().map(move |h| (w, h))) {
            let g = Lent::new(p, w as u32, h as u32);
            let (at, mut out) = (g.place_of((w - 1, h - 1)), [9]);
            memory[at] = 7;
            let got = library::ring_fetch(&book, 1, p, g.w, g.h, &memory[..g.size()], 0, (-1, -1), &mut out);
            let wanted = if to_right && to_below { (told(0, &[1]), [7]) } else { (told(18, &[0]), [9]) };
            t.same(|| format!("{g:?}"), (got, out), wanted);
            memory[at] = 0;
        }
    }
    t
}

// A pattern of a random book that a plan suits for r, a ring under that plan, and a position.
#[derive(Debug)]
struct Drawn {
    book: Record,
    r: u32,
    n: usize,
    pattern: Pattern,
    lent: Lent,
    v: (i16, i16),
}

// The plan is the finder's or any. The memory is so short that the word of each place can be its number.
fn draw(t: &mut Tally, random: &mut Random) -> Option<Drawn> {
    let r = random.from_to(1, 8) as u32;
    let patterns = any_book(random, r);
    let book = record(&patterns);
    let p = if random.from_to(0, 1) == 0 { found(t, &book, r, &patterns) } else { legal_plan(random) };
    let n = patterns.iter().rposition(|pattern| suits_for(r, p, pattern))?;
    let (w, h) = (turns(p).0 * random.from_to(1, 4), turns(p).1 * random.from_to(1, 4));
    let lent = Lent::new(p, w as u32, h as u32);
    // some pixel is near an edge, now and then
    let q = random.one_of(&patterns[n]);
    let mut along = |side: i64, q: i64| match random.from_to(0, 5) {
        0 => random.one_of(&[-32768, 32767]),
        1 => random.from_to(-32768, 32767) as i16,
        _ => (side * random.from_to(-1, 1) - q + random.from_to(-1, 1)) as i16,
    };
    let v = (along(w, q.0), along(h, q.1));
    (w <= 4096 && h <= 4096 && lent.words <= 65536).then(|| Drawn { book, r, n, pattern: patterns[n].clone(), lent, v })
}

impl Drawn {
    // The places that the words come from, as the words tell them, and the cycles, by the library.
    fn ask(&self, t: &mut Tally) -> (Vec<usize>, Vec<u8>) {
        let (Lent { plan: p, w, h, words, .. }, count) = (self.lent, self.pattern.len());
        let (mut out, mut cycles) = (vec![0; count], vec![0; count]);
        let got = library::ring_fetch(&self.book, self.r, p, w, h, &numbered(words), self.n, self.v, &mut out);
        t.same(|| format!("{self:?}"), got, told(0, &[count as u64]));
        let got = library::write_cycles(&self.book, self.r, p, self.n, &mut cycles);
        t.same(|| format!("cycles, {self:?}"), got, told(0, &[count as u64]));
        (out.into_iter().map(usize::from).collect(), cycles)
    }

    // The same sides, of which one is longer or shorter: 18 where a pixel is then in another bank.
    fn ask_beside(&self, t: &mut Tally, random: &mut Random) -> u64 {
        let mut g = self.lent;
        let side = if random.from_to(0, 1) == 0 { &mut g.w } else { &mut g.h };
        *side = (i64::from(*side) + random.one_of(&[-1, 1, -i64::from(g.plan.d), i64::from(g.plan.d)])).clamp(1, 4096) as u32;
        let mut out = [0; 64];
        let memory = vec![0; g.size()];
        let got = library::ring_fetch(&self.book, self.r, g.plan, g.w, g.h, &memory, self.n, self.v, &mut out);
        let wanted = if g.is_ring() { told(0, &[self.pattern.len() as u64]) } else { told(18, &[0]) };
        t.same(|| format!("{g:?} beside {self:?}"), got.clone(), wanted);
        got.number
    }
}

// Each word stands at its wrapped pixel's bank and address, that bank is the one of the pixel itself, and no two words have both
// bank and cycle in common.
fn banks_and_cycles() -> Tally {
    let mut t = Tally::new("rings: words, banks and cycles of random books and plans, r from 1 to 8");
    let mut random = Random::new(41);
    let (mut again, mut around, mut below, mut refused) = (0, 0, 0, 0);
    for _ in 0..20_000 {
        let Some(drawn) = draw(&mut t, &mut random) else { continue };
        let (g, pixels) = (drawn.lent, moved(&drawn.pattern, drawn.v));
        let (places, cycles) = drawn.ask(&mut t);
        let wanted: Vec<usize> = wrapped(&pixels, g.w.into(), g.h.into()).iter().map(|&v| g.place_of(v)).collect();
        t.same(|| format!("places, {drawn:?}"), &places, &wanted);
        let banks: Vec<i64> = places.iter().map(|&at| at as i64 / g.depth()).collect();
        t.same(|| format!("banks, {drawn:?}"), &banks, &pixels.iter().map(|&v| bank_of(g.plan, v)).collect());
        let pairs: HashSet<(i64, u8)> = banks.iter().copied().zip(cycles.iter().copied()).collect();
        let below_r = cycles.iter().all(|&cycle| u32::from(cycle) < drawn.r);
        t.same(|| format!("banks and cycles, {drawn:?}"), (pairs.len(), below_r), (pixels.len(), true));
        again += u32::from(cycles.iter().any(|&cycle| cycle > 0));
        around += u32::from(pixels.iter().any(|&v| g.has(v)) && !pixels.iter().all(|&v| g.has(v)));
        below += u32::from(i64::from(g.w) < g.banks() && i64::from(g.h) < g.banks());
        refused += u32::from(drawn.ask_beside(&mut t, &mut random) == 18);
    }
    let counts = [again, around, below, refused];
    let many = counts.iter().all(|&n| n > 1_000);
    t.same(|| format!("banks met again, fetches across an edge, sides below N, 18: {counts:?}"), many, true);
    t
}

pub fn run() -> Vec<Tally> {
    vec![ring_figures::run(), every_plan(), large_plans(), banks_and_cycles()]
}
