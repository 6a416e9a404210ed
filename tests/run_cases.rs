//! A list of calls in numbers: what it must give by the map of what was stored, and what the library gives for it, by run_list,
//! by find_and_run, and by the functions for single calls.

use crate::calls::{by_library, guard, wanted, wrong_sums, Call, Kind};
use crate::library::{self, Plan, Record, Told};
use crate::memory::{Lent, Stored};
use crate::{told, wide, Random, Tally};

/// The kinds of calls in a list, by their numbers.
pub const KINDS: [Kind; 8] =
    [Kind::Store, Kind::Clear, Kind::Load, Kind::Fetch, Kind::Ring, Kind::MakeSums, Kind::Sum, Kind::ReadSum];

/// A call's five numbers; those that it has no use for are as given, the column and row of a call without a pixel in 16 bits.
pub fn numbers_of(c: &Call, unused: u64) -> [u64; 5] {
    let (i, j) = (wide(c.v).0.rem_euclid(65536) as u64, wide(c.v).1.rem_euclid(65536) as u64);
    let of_bank = |kind: u64| [kind, unused % 65536, unused % 65521, c.k, unused];
    match c.kind {
        Kind::Store => [0, i, j, c.x.into(), unused],
        Kind::Clear => of_bank(1),
        Kind::Load => [2, i, j, unused, unused],
        Kind::Fetch => [3, i, j, c.n as u64, c.room as u64],
        Kind::Ring => [4, i, j, c.n as u64, c.room as u64],
        Kind::MakeSums => [5, unused % 65536, unused % 65521, unused, unused],
        Kind::Sum => of_bank(6),
        Kind::ReadSum => of_bank(7),
    }
}

// The call of five numbers that are a call's, for r.
fn call_of(x: &[u64], r: u32, lent: Lent) -> Call {
    let signed = |u: u64| (u as i64 - if u < 32768 { 0 } else { 65536 }) as i16;
    let kind = KINDS[x[0] as usize];
    let room = if kind.fetches() { x[4] as usize } else { 0 };
    Call { kind, r, lent, v: (signed(x[1]), signed(x[2])), x: x[3] as u16, k: x[3], n: x[3] as usize, room }
}

// What a list is not made for: numbers that are no call's, or too little room.
fn fault(numbers: &[u64], outs: usize, replies: usize) -> Option<Told> {
    let mut room = outs as u64;
    for (k, x) in numbers.chunks(5).enumerate() {
        if x.len() < 5 || x[0] > 7 || x[1] > 65535 || x[2] > 65535 || x[0] == 0 && x[3] > 65535 {
            return Some(told(255, &[5 * k as u64]));
        }
        let own = if x[0] == 3 || x[0] == 4 { x[4] } else { 0 };
        if own > room {
            return Some(told(16, &[0]));
        }
        room -= own;
    }
    (replies / 12 < numbers.len() / 5).then(|| told(16, &[0]))
}

fn row(t: &Told) -> Vec<u64> {
    let mut row = [&[t.number], &t.row[..]].concat();
    row.resize(12, 0);
    row
}

// Elements behind each lent buffer that are lent to no call.
const BEHIND: usize = 8;

/// What a list is lent, and what stands behind it.
#[derive(Clone, Debug, PartialEq)]
pub struct Buffers {
    pub memory: Vec<u16>,
    pub sums: Vec<u64>,
    pub outs: Vec<u16>,
    pub replies: Vec<u64>,
}

// The first place in which the two differ.
fn place<T: PartialEq>(a: &[T], b: &[T]) -> Option<usize> {
    (0..a.len()).find(|&k| a[k] != b[k])
}

impl Buffers {
    // The first place of memory, sums, outputs and replies in which the two differ.
    fn difference(&self, other: &Buffers) -> Option<[Option<usize>; 4]> {
        let words = |a: &Vec<u16>, b: &Vec<u16>| place(a, b);
        let (memory, outs) = (words(&self.memory, &other.memory), words(&self.outs, &other.outs));
        (self != other).then(|| [memory, place(&self.sums, &other.sums), outs, place(&self.replies, &other.replies)])
    }
}

/// A list, with the words of its outputs and the numbers of its replies. Where `content` is 0 the picture's words are 0 at the
/// start, else they and the sums are drawn from it.
#[derive(Clone, Debug)]
pub struct Case<'a> {
    pub record: &'a Record,
    pub r: u32,
    pub lent: Lent,
    pub numbers: &'a [u64],
    pub outs: usize,
    pub replies: usize,
    pub content: u64,
}

impl Case<'_> {
    /// The memory is 0 where the picture's words are, or of any content, and anything elsewhere.
    pub fn start(&self) -> Buffers {
        let (g, mut random) = (self.lent, Random::new(self.content));
        let (mut memory, mut sums) = (guard(g.words + BEHIND), wrong_sums(g.entries + BEHIND));
        if self.content != 0 {
            memory.fill_with(|| random.next() as u16);
            sums.fill_with(|| random.next());
        } else if g.is_held() {
            memory[..g.size()].fill(0);
        }
        let replies = (0..(self.replies + BEHIND) as u64).map(|k| k.wrapping_mul(0x9e37_79b9_7f4a_7c15) | 1).collect();
        Buffers { memory, sums, outs: guard(self.outs + BEHIND), replies }
    }

    fn calls(&self) -> impl Iterator<Item = Call> + '_ {
        self.numbers.chunks(5).map(|x| call_of(x, self.r, self.lent))
    }

    /// By the map of what was stored.
    pub fn wanted(&self) -> (Told, Buffers) {
        let mut left = self.start();
        if let Some(fault) = fault(self.numbers, self.outs, self.replies) {
            return (fault, left);
        }
        let (mut stored, mut at) = (Stored::new(self.lent, &left.memory, &left.sums), 0);
        for (k, c) in self.calls().enumerate() {
            let answer = wanted(&mut stored, self.record, &c, &mut left.outs[at..at + c.room]);
            let told = answer.map_or_else(|refused| refused, |row| told(0, &row));
            left.replies[12 * k..12 * k + 12].copy_from_slice(&row(&told));
            at += c.room;
        }
        stored.put_words(&mut left.memory);
        stored.put_sums(&mut left.sums);
        (told(0, &[]), left)
    }

    // By the library's functions for single calls, of a list that is one.
    fn by_calls(&self) -> Buffers {
        let (mut left, mut at) = (self.start(), 0);
        let Lent { words, entries, .. } = self.lent;
        for (k, c) in self.calls().enumerate() {
            let (mem, sums) = (&mut left.memory[..words], &mut left.sums[..entries]);
            let told = by_library(self.record, &c, mem, sums, &mut left.outs[at..at + c.room]);
            left.replies[12 * k..12 * k + 12].copy_from_slice(&row(&told));
            at += c.room;
        }
        left
    }

    // By the library's function for a list, given the rest of what it is lent.
    fn by(&self, make: impl Fn(&mut [u16], &mut [u64], &mut [u16], &mut [u64]) -> Told) -> (Told, Buffers) {
        let mut b = self.start();
        let (mem, sums) = (&mut b.memory[..self.lent.words], &mut b.sums[..self.lent.entries]);
        (make(mem, sums, &mut b.outs[..self.outs], &mut b.replies[..self.replies]), b)
    }

    fn same(&self, t: &mut Tally, how: &str, got: (Told, Buffers), wanted: (Told, &Buffers)) {
        let what = || format!("{how}: {self:?}");
        t.same(what, got.0, wanted.0);
        t.same(what, got.1.difference(wanted.1), None);
    }

    /// Makes the list and compares; what it gave.
    pub fn ask(&self, t: &mut Tally) -> (Told, Buffers) {
        let (told, left) = self.wanted();
        let Lent { plan, w, h, .. } = self.lent;
        let make = |mem: &mut [u16], sums: &mut [u64], outs: &mut [u16], replies: &mut [u64]| {
            library::run_list(self.record, self.r, plan, w, h, mem, sums, self.numbers, outs, replies)
        };
        self.same(t, "run_list", self.by(make), (told.clone(), &left));
        if told.number == 0 {
            t.same(|| format!("single calls: {self:?}"), self.by_calls().difference(&left), None);
        }
        (told, left)
    }

    /// The same with the finder before it; where it gives no plan nothing changes. What it gave.
    pub fn ask_finder(&self, t: &mut Tally, limit: u32) -> (Told, Buffers) {
        let found = library::find(self.record, self.r, limit);
        let plan = |row: &[u64]| Plan { a: row[0] as u32, b: row[1] as u32, d: row[2] as u32 };
        let under = if found.number == 0 { plan(&found.row) } else { self.lent.plan };
        let own = Case { lent: Lent { plan: under, ..self.lent }, ..self.clone() };
        let (mut wanted, left) = if found.number == 0 { own.wanted() } else { (found.clone(), own.start()) };
        if wanted.number == 0 {
            wanted = found;
        }
        let Lent { w, h, .. } = self.lent;
        let make = |mem: &mut [u16], sums: &mut [u64], outs: &mut [u16], replies: &mut [u64]| {
            library::find_and_run(self.record, self.r, limit, w, h, mem, sums, self.numbers, outs, replies)
        };
        own.same(t, &format!("find_and_run, limit {limit}"), own.by(make), (wanted.clone(), &left));
        (wanted, left)
    }
}
