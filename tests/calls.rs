//! A call on a picture, asked of the library and of the map of what was stored; the memory, the sums and the output lent to it are
//! looked at entry by entry.

use crate::library::{self, Plan, Record, Told};
use crate::memory::{Lent, Stored};
use crate::{oracle, Tally};

#[derive(Clone, Copy, Debug, PartialEq)]
pub enum Kind {
    Store,
    Load,
    Clear,
    Sum,
    Fetch,
    Ring,
    MakeSums,
    ReadSum,
}

pub const KINDS: [Kind; 8] =
    [Kind::Store, Kind::Load, Kind::Clear, Kind::Sum, Kind::Fetch, Kind::Ring, Kind::MakeSums, Kind::ReadSum];

impl Kind {
    /// The numbers that can refuse the call, in the order of its checks.
    pub fn refusals(self) -> &'static [u64] {
        match self {
            Kind::Store | Kind::Load => &[11, 12, 13, 14],
            Kind::Clear | Kind::Sum => &[11, 12, 13, 15],
            Kind::Fetch => &[2, 3, 4, 19, 20, 11, 12, 13, 17, 10, 14, 16],
            Kind::Ring => &[2, 3, 4, 19, 20, 11, 12, 13, 17, 10, 18, 16],
            Kind::MakeSums => &[11, 12, 13],
            Kind::ReadSum => &[11, 13, 15],
        }
    }

    /// Whether the call is lent the sums.
    pub fn takes_sums(self) -> bool {
        matches!(self, Kind::Store | Kind::Clear | Kind::MakeSums | Kind::ReadSum)
    }

    pub fn fetches(self) -> bool {
        matches!(self, Kind::Fetch | Kind::Ring)
    }
}

/// A call with what it is given, a fetch's book record apart: r is a fetch's cycles, v a pixel or a fetch's position, x a store's
/// word, k a bank, n a pattern's number, room the words of an output.
#[derive(Clone, Copy, Debug)]
pub struct Call {
    pub kind: Kind,
    pub r: u32,
    pub lent: Lent,
    pub v: (i16, i16),
    pub x: u16,
    pub k: u64,
    pub n: usize,
    pub room: usize,
}

impl Call {
    /// A call at pixel (0, 0), of bank 0 or pattern 0, for r = 1, with an output of 64 words.
    pub fn new(kind: Kind, lent: Lent) -> Call {
        Call { kind, r: 1, lent, v: (0, 0), x: 1, k: 0, n: 0, room: if kind.fetches() { 64 } else { 0 } }
    }
}

/// How a call is made, on a record, a memory, its sums and an output.
pub type Way = fn(&Record, &Call, &mut [u16], &mut [u64], &mut [u16]) -> Told;

/// By the library's own function.
pub fn by_library(book: &Record, c: &Call, mem: &mut [u16], sums: &mut [u64], out: &mut [u16]) -> Told {
    let Lent { plan: p, w, h, .. } = c.lent;
    match c.kind {
        Kind::Store => library::store(p, w, h, mem, sums, c.v, c.x),
        Kind::Load => library::load(p, w, h, mem, c.v),
        Kind::Clear => library::clear(p, w, h, mem, sums, c.k),
        Kind::Sum => library::sum(p, w, h, mem, c.k),
        Kind::Fetch => library::fetch(book, c.r, p, w, h, mem, c.n, c.v, out),
        Kind::Ring => library::ring_fetch(book, c.r, p, w, h, mem, c.n, c.v, out),
        Kind::MakeSums => library::make_sums(p, w, h, mem, sums),
        Kind::ReadSum => library::read_sum(p, sums, c.k),
    }
}

/// The values that the call must tell, by the map of what was stored; a fetch's words are put at the start of the output.
pub fn wanted(s: &mut Stored, book: &Record, c: &Call, out: &mut [u16]) -> Result<Vec<u64>, Told> {
    match c.kind {
        Kind::Store => s.store(&c.lent, c.v, c.x).map(|()| vec![]),
        Kind::Clear => s.clear(&c.lent, c.k).map(|()| vec![]),
        Kind::Sum => s.sum(&c.lent, c.k).map(|sum| vec![sum]),
        Kind::Load => s.load(&c.lent, c.v).map(|x| vec![x.into()]),
        Kind::MakeSums => s.make_sums(&c.lent).map(|()| vec![]),
        Kind::ReadSum => s.read_sum(&c.lent, c.k).map(|sum| vec![sum]),
        Kind::Fetch | Kind::Ring => {
            let words = s.fetch(book, c.r, &c.lent, c.n, c.v, c.room, c.kind == Kind::Ring)?;
            out[..words.len()].copy_from_slice(&words);
            Ok(vec![words.len() as u64])
        }
    }
}

/// What stands behind the banks of a memory and in an output before a call; no two neighbours are the same.
pub fn guard(n: usize) -> Vec<u16> {
    (0..n).map(|k| 0xc90f ^ (k as u16).wrapping_mul(0x1235)).collect()
}

/// What stands in sums before a call: numbers at both ends of 64 bits, and any; no two neighbours are the same.
pub fn wrong_sums(n: usize) -> Vec<u64> {
    let any = |k: u64| k.wrapping_mul(0x9e37_79b9_7f4a_7c15);
    (0..n as u64).map(|k| [k + 1, u64::MAX - k, any(k), any(k)][(k % 4) as usize]).collect()
}

/// Words behind the banks of each picture's memory, and entries behind its sums; the last 8 of them are lent to no call.
pub const GUARD: usize = 24;

/// The first entry that is not as it should be: its place, what it is, what it should be.
pub fn first_difference<T: Copy + PartialEq>(got: &[T], wanted: &[T]) -> Option<(usize, T, T)> {
    if got == wanted {
        return None;
    }
    (0..wanted.len()).find(|&k| got[k] != wanted[k]).map(|k| (k, got[k], wanted[k]))
}

// A record as its patterns, or whole where it is no book.
fn shown(r: &Record) -> String {
    oracle::patterns_of(r).map_or_else(|_| format!("{r:?}"), |book| format!("{book:?}"))
}

/// A picture: its memory, 0 at the start, its sums, which are wrong at the start, a guard behind each, and the map of what was
/// stored.
pub struct Picture {
    /// The plan and the sides, as many words as the banks have, and as many entries as there are banks.
    pub lent: Lent,
    pub memory: Vec<u16>,
    pub sums: Vec<u64>,
    start: Vec<u16>,
    stored: Stored,
    /// The number of its random list, from 1, or 0; and the calls up to now.
    pub list: usize,
    calls: usize,
    /// How its calls are made.
    pub way: Way,
    /// How many loads and fetches were not refused, and how many of them met a word other than 0.
    pub reads: u64,
    pub met: u64,
}

impl Picture {
    pub fn new(plan: Plan, w: u32, h: u32) -> Picture {
        let lent = Lent::new(plan, w, h);
        let start = [vec![0; lent.words], guard(GUARD)].concat();
        let sums = wrong_sums(lent.entries + GUARD);
        let (memory, stored) = (start.clone(), Stored::new(lent, &start, &sums));
        Picture { lent, memory, sums, start, stored, list: 0, calls: 0, way: by_library, reads: 0, met: 0 }
    }

    /// Asks the library and the map, and compares the answers, the output, and the memory and the sums, of a long memory only now
    /// and then. The number is given back.
    pub fn ask(&mut self, t: &mut Tally, book: &Record, c: &Call) -> u64 {
        self.calls += 1;
        let (list, calls) = (self.list, self.calls);
        let what = || format!("list {list}, call {calls}: {c:?}, book {}", shown(book));
        let mut out = guard(c.room + 8);
        let mut wanted_out = out.clone();
        let (mem, sums) = (&mut self.memory[..c.lent.words], &mut self.sums[..c.lent.entries]);
        let told = (self.way)(book, c, mem, sums, &mut out[..c.room]);
        let number = told.number;
        let wanted = match self.wanted(book, c, &mut wanted_out) {
            Ok(row) => Told { number: 0, row },
            Err(refused) => refused,
        };
        t.same(what, told, wanted);
        if c.kind.fetches() {
            t.same(what, first_difference(&out, &wanted_out), None);
        }
        // a long memory is looked at now and then
        if self.calls % (1 + self.memory.len() / 10_000) == 0 {
            t.same(what, self.wrong_word(), None);
            t.same(what, self.wrong_sum(), None);
        }
        number
    }

    // The same of this picture; it counts the reads.
    fn wanted(&mut self, book: &Record, c: &Call, out: &mut [u16]) -> Result<Vec<u64>, Told> {
        let row = wanted(&mut self.stored, book, c, out)?;
        let met = match c.kind {
            Kind::Load => row[0] != 0,
            Kind::Fetch | Kind::Ring => out[..row[0] as usize].iter().any(|&x| x != 0),
            _ => return Ok(row),
        };
        self.reads += 1;
        self.met += u64::from(met);
        Ok(row)
    }

    /// The memory's first word that is not as the map has it.
    pub fn wrong_word(&self) -> Option<(usize, u16, u16)> {
        let mut image = self.start.clone();
        self.stored.put_words(&mut image);
        first_difference(&self.memory, &image)
    }

    /// The first sum that is not as the words of the map make it.
    pub fn wrong_sum(&self) -> Option<(usize, u64, u64)> {
        let mut image = wrong_sums(self.sums.len());
        self.stored.put_sums(&mut image);
        first_difference(&self.sums, &image)
    }
}
