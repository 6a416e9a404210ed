//! The sums of the banks (Card 6 of document 02), kept by single calls: random calls on memories and sums of any content. The
//! brute force keeps the memory as a plain row of words and adds up every bank again after each call. Figures are in
//! sum_figures.rs, edges in sum_edges.rs, lists of calls in sum_lists.rs.

use crate::calls::{first_difference, Call, Kind};
use crate::library::{Plan, Told};
use crate::memory::Lent;
use crate::oracle::is_plan;
use crate::pictures::record;
use crate::plans::{any_plan, legal_plan};
use crate::search::{bank_of, plan};
use crate::sum_figures::WAYS;
use crate::{sum_edges, sum_figures, sum_lists, told, wide, Random, Tally};

/// The sum of a bank's words, by the words.
pub fn walk(g: &Lent, memory: &[u16], k: usize) -> u128 {
    let depth = g.depth() as usize;
    memory[k * depth..(k + 1) * depth].iter().map(|&x| u128::from(x)).sum()
}

// The number that the card has for a call, in its order.
fn number_of(c: &Call) -> u64 {
    let g = c.lent;
    let sides = (1..=4096).contains(&g.w) && (1..=4096).contains(&g.h);
    let by_memory = c.kind != Kind::ReadSum;
    match c.kind {
        _ if !is_plan(g.plan) => 11,
        _ if by_memory && !sides => 12,
        _ if by_memory && g.words < g.size() => 13,
        _ if c.kind.takes_sums() && (g.entries as i64) < g.banks() => 13,
        Kind::Store if !g.has(wide(c.v)) => 14,
        Kind::Clear | Kind::Sum | Kind::ReadSum if c.k >= g.banks() as u64 => 15,
        _ => 0,
    }
}

// What the call must tell, and what it leaves in the memory and the sums: a store moves each sum as far as its bank's words moved.
fn wanted(c: &Call, memory: &[u16], sums: &[u64]) -> (Told, Vec<u16>, Vec<u64>) {
    let (g, mut next, mut kept) = (c.lent, memory.to_vec(), sums.to_vec());
    let number = number_of(c);
    if number != 0 {
        return (told(number, &[0]), next, kept);
    }
    let mut row = vec![];
    match c.kind {
        Kind::Store => next[g.place_of(wide(c.v))] = c.x,
        Kind::Clear => (0..g.size()).filter(|at| (at / g.depth() as usize) as u64 == c.k).for_each(|at| next[at] = 0),
        Kind::ReadSum => row.push(sums[c.k as usize]),
        Kind::Sum => row.push(walk(&g, memory, c.k as usize) as u64),
        _ => {}
    }
    let changes = matches!(c.kind, Kind::Store | Kind::Clear | Kind::MakeSums);
    for k in 0..if changes { g.banks() as usize } else { 0 } {
        let (before, after) = (walk(&g, memory, k), walk(&g, &next, k));
        kept[k] = match c.kind {
            Kind::Store => ((u128::from(sums[k]) + (1 << 64) + after - before) % (1 << 64)) as u64,
            Kind::Clear if k as u64 == c.k => 0,
            Kind::MakeSums => after as u64,
            _ => sums[k],
        };
    }
    (told(0, &row), next, kept)
}

// A plan of few banks, of one, or of any count, with sides and all that it needs; now and then something is wrong.
fn any_lent(random: &mut Random) -> Lent {
    let p = match random.from_to(0, 9) {
        0 => plan(1, 0, 1),
        1 => legal_plan(random),
        _ => plan(random.from_to(1, 6), 0, random.from_to(1, 4)),
    };
    let p = Plan { b: random.from_to(0, i64::from(p.a) - 1) as u32, ..p };
    let most = if p.a * p.d > 100 { 3 } else { 12 };
    let mut g = Lent::new(p, random.from_to(1, most) as u32, random.from_to(1, most) as u32);
    g.words += random.from_to(0, 3) as usize;
    g.entries += random.from_to(0, 3) as usize;
    match random.from_to(0, 23) {
        0 => g.plan = any_plan(random),
        1 => g.w = random.one_of(&[0, 4097, u32::MAX]),
        2 => g.h = random.one_of(&[0, 4097, u32::MAX]),
        3 => g.words -= random.one_of(&[1, 2, 3, 4]).min(g.words),
        4 | 5 => g.entries -= random.one_of(&[1, 2, 3, 4, 1000]).min(g.entries),
        _ => {}
    }
    g
}

fn any_word(random: &mut Random) -> u16 {
    let any = random.next() as u16;
    random.one_of(&[0, 1, 65535, any])
}

fn any_sum(random: &mut Random) -> u64 {
    match random.from_to(0, 5) {
        0 => random.from_to(0, 3) as u64,
        1 => u64::MAX - random.from_to(0, 3) as u64,
        2 => random.from_to(0, 70_000) as u64,
        3 => u64::MAX - random.from_to(0, 70_000) as u64,
        4 => random.one_of(&[1 << 16, 1 << 32, 1 << 63]) + random.from_to(-1, 1) as u64,
        _ => random.next(),
    }
}

fn any_call(random: &mut Random, g: Lent, memory: &[u16]) -> Call {
    let kind = random.one_of(&[Kind::Store, Kind::Store, Kind::Store, Kind::Clear, Kind::MakeSums, Kind::ReadSum, Kind::Sum]);
    let mut c = Call::new(kind, g);
    let mut along = |side: u32| match random.from_to(0, 15) {
        0 => random.one_of(&[-32768, -1, i64::from(side.min(4096)), 32767]) as i16,
        _ => random.from_to(0, i64::from(side.clamp(1, 4096)) - 1) as i16,
    };
    c.v = (along(g.w), along(g.h));
    c.x = any_word(random);
    let banks = if is_plan(g.plan) { g.banks() } else { 5 };
    c.k = random.from_to(0, banks - 1) as u64;
    if random.from_to(0, 7) == 0 {
        c.k = random.one_of(&[0, 1, 1 << 32, 1 << 63]) + banks as u64;
    }
    // the word that stands there
    if number_of(&c) == 0 && kind == Kind::Store && random.from_to(0, 3) == 0 {
        c.x = memory[g.place_of(wide(c.v))];
    }
    c
}

// What the random calls came to: each number, stores over the same word, and sums that passed 0 and 2^64.
#[derive(Debug, Default)]
struct Came {
    numbers: [u64; 21],
    same: u64,
    below: u64,
    above: u64,
}

impl Came {
    fn count(&mut self, c: &Call, memory: &[u16], sums: &[u64]) {
        let number = number_of(c);
        self.numbers[number as usize] += 1;
        if number != 0 || c.kind != Kind::Store {
            return;
        }
        let (sum, old) = (sums[bank_of(c.lent.plan, wide(c.v)) as usize], memory[c.lent.place_of(wide(c.v))]);
        self.same += u64::from(old == c.x);
        self.below += u64::from(c.x < old && sum < u64::from(old - c.x));
        self.above += u64::from(c.x > old && sum > u64::MAX - u64::from(c.x - old));
    }

    fn reached(&self, t: &mut Tally) {
        let [done, by_plan, by_sides, by_memory, outside, cell] = [0, 11, 12, 13, 14, 15].map(|n| self.numbers[n]);
        let often = [done, by_plan, by_sides, by_memory, outside, cell, self.same, self.below, self.above];
        t.same(|| format!("{self:?}"), often.iter().all(|&n| n > 2_000), true);
    }
}

// Some calls one after the other on one memory and one row of sums, now and then under another plan and other sides.
fn any_calls() -> Tally {
    let mut t = Tally::new("sums: random calls on memories and sums of any content");
    let (mut random, mut came, book) = (Random::new(60), Came::default(), record(&[vec![(0, 0)]]));
    for round in 0..50_000 {
        let way = WAYS[round % 3];
        let mut g = any_lent(&mut random);
        // behind what is lent stands more that must stay
        let mut memory: Vec<u16> = (0..g.words + 4).map(|_| any_word(&mut random)).collect();
        let mut sums: Vec<u64> = (0..g.entries + 4).map(|_| any_sum(&mut random)).collect();
        for _ in 0..6 {
            let c = any_call(&mut random, g, &memory);
            came.count(&c, &memory, &sums);
            let (told, next, kept) = wanted(&c, &memory, &sums);
            let got = (way.1)(&book, &c, &mut memory[..g.words], &mut sums[..g.entries], &mut []);
            let what = || format!("round {round}, {}: {c:?}", way.0);
            t.same(what, got, told);
            t.same(what, first_difference(&memory, &next), None);
            t.same(what, first_difference(&sums, &kept), None);
            let other = any_lent(&mut random);
            if random.from_to(0, 3) == 0 && other.words <= memory.len() && other.entries <= sums.len() {
                g = other;
            }
        }
    }
    came.reached(&mut t);
    t
}

pub fn run() -> Vec<Tally> {
    let mut tallies = sum_figures::run();
    tallies.push(any_calls());
    tallies.extend(sum_edges::run());
    tallies.extend(sum_lists::run());
    tallies
}
