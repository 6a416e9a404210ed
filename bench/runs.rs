//! Lists of calls: the proved library beside unverified Rust that does the same, with the book, the plan and its clashes
//! tested once.

use std::cell::RefCell;
use std::hint::black_box;

use crate::bankplan::raw::bankplan_run_list;
use crate::bankplan::{Book as Record, Plan, KIND_FETCH, KIND_MAKE_SUMS, KIND_READ_SUM, KIND_RING_FETCH, KIND_STORE};
use crate::pictures::{around, memory, positions, ring_sides, turntable, Picture, BEHIND, TURNTABLES};
use crate::tested::{Refused, Tested};
use crate::{best_of_places, seconds, time, words};

/// What a list of calls is lent.
#[derive(Clone, PartialEq, Debug)]
struct Lent {
    mem: Vec<u16>,
    sums: Vec<u64>,
    outs: Vec<u16>,
    replies: Vec<u64>,
}

struct List<'a> {
    r: &'a Record,
    p: Plan,
    w: u32,
    h: u32,
    numbers: Vec<u64>,
}

impl List<'_> {
    fn proved(&self, l: &mut Lent) -> u64 {
        let (r, p, mut answer) = (self.r, &self.p, [0; 12]);
        unsafe {
            bankplan_run_list(
                &r.columns,
                &r.rows,
                &r.used,
                r.count,
                1,
                p.a,
                p.b,
                p.d,
                self.w,
                self.h,
                l.mem.as_mut_ptr(),
                l.mem.len(),
                l.sums.as_mut_ptr(),
                l.sums.len(),
                self.numbers.as_ptr(),
                self.numbers.len(),
                l.outs.as_mut_ptr(),
                l.outs.len(),
                l.replies.as_mut_ptr(),
                l.replies.len(),
                &mut answer,
            )
        }
    }

    fn unverified(&self, l: &mut Lent) -> u64 {
        let Lent { mem, sums, outs, replies } = l;
        run_list(self.r, 1, &self.p, self.w, self.h, mem, sums, &self.numbers, outs, replies)
    }

    // The sums begin wrong, and what stands behind them is not theirs.
    fn lent(&self) -> Lent {
        Lent {
            mem: memory(&self.p, self.w, self.h),
            sums: (0..u64::from(self.p.a * self.p.d)).map(|k| k << 54).chain(BEHIND).collect(),
            outs: vec![7; self.numbers.chunks(5).map(|c| room(c) as usize).sum()],
            replies: vec![7; self.numbers.len() / 5 * 12],
        }
    }
}

/// The words of outputs that a call takes up: those of a fetch, plain or around the ring.
fn room(c: &[u64]) -> u64 {
    if matches!(c[0], KIND_FETCH | KIND_RING_FETCH) { c[4] } else { 0 }
}

/// 255 for numbers that are no calls', 16 for outputs or replies that are too short.
fn list_fault(numbers: &[u64], mut left: u64, replies: usize) -> u64 {
    for c in numbers.chunks_exact(5) {
        if c[0] > 7 || c[1] > 65535 || c[2] > 65535 || c[0] == 0 && c[3] > 65535 {
            return 255;
        }
        match left.checked_sub(room(c)) {
            Some(rest) => left = rest,
            None => return 16,
        }
    }
    if numbers.len() % 5 != 0 {
        255
    } else if replies / 12 < numbers.len() / 5 {
        16
    } else {
        0
    }
}

/// A reply in its twelve numbers.
fn put_reply(told: Result<u64, Refused>, reply: &mut [u64]) {
    reply.fill(0);
    match told {
        Ok(x) => reply[1] = x,
        Err((number, clash)) => {
            reply[0] = number;
            if let Some(c) = clash {
                reply[2] = c.pattern as u64;
                reply[3..].copy_from_slice(&c.positions);
            }
        }
    }
}

/// A list of calls in Rust as one would write it without proofs.
#[inline(never)]
pub fn run_list(
    book: &Record,
    r: u32,
    p: &Plan,
    w: u32,
    h: u32,
    mem: &mut [u16],
    sums: &mut [u64],
    numbers: &[u64],
    outs: &mut [u16],
    replies: &mut [u64],
) -> u64 {
    let fault = list_fault(numbers, outs.len() as u64, replies.len());
    if fault != 0 {
        return fault;
    }
    let pic = Tested::new(book, r, p, w, h, mem.len(), sums.len());
    let mut outs = outs;
    for (c, reply) in numbers.chunks_exact(5).zip(replies.chunks_exact_mut(12)) {
        let (i, j) = (c[1] as u16 as i16, c[2] as u16 as i16);
        let told = match c[0] {
            0 => pic.store(mem, sums, (i, j), c[3] as u16).map(|()| 0),
            1 => pic.clear(mem, sums, c[3]).map(|()| 0),
            2 => pic.load(mem, (i, j)).map(u64::from),
            5 => pic.make_sums(mem, sums).map(|()| 0),
            6 => pic.sum(mem, c[3]),
            7 => pic.read_sum(sums, c[3]),
            _ => {
                let (own, rest) = outs.split_at_mut(c[4] as usize);
                outs = rest;
                let fetch = if c[0] == KIND_FETCH { Tested::fetch } else { Tested::ring_fetch };
                fetch(&pic, mem, c[3] as usize, (i, j), own).map(|n| n as u64)
            }
        };
        put_reply(told, reply);
    }
    0
}

/// Calls of one kind at these positions, with the patterns, the words or the banks 0 to n - 1 in turn.
fn calls(kind: u64, at: &[(i16, i16)], n: usize, room: u64) -> Vec<u64> {
    let call = |(k, o): (usize, &(i16, i16))| [kind, o.0 as u16 as u64, o.1 as u16 as u64, (k % n) as u64, room];
    at.iter().enumerate().flat_map(call).collect()
}

/// All kinds of calls in turn, some of them refused. Half of them are behind one that makes the sums afresh.
fn mixed(at: &[(i16, i16)]) -> Vec<u64> {
    let call = |(k, o): (usize, &(i16, i16))| {
        let (k, i, j) = (k as u64, o.0 as u16 as u64, o.1 as u16 as u64);
        match k % 13 {
            _ if 2 * k == at.len() as u64 => [KIND_MAKE_SUMS, i, j, k, k],
            0..=2 => [0, i, j, k, 0],
            3 => [2, i, j, 0, 0],
            4 => [1, 0, 0, k % 40, 0],
            5 => [2, j, 65535, 0, 0],
            6 => [3, i, j, k % 5, 64],
            7 => [3, i, j, 0, 8],
            8 => [4, 65535 - i, j, k % 5, 64],
            9 => [4, i, 65535 - j, 0, 8],
            10 => [6, i, j, k % 40, 0],
            _ => [7, i, j, k % 40, 0],
        }
    };
    at.iter().enumerate().flat_map(call).collect()
}

/// The lists of one row: a book under a plan in a picture, the kind of its calls, and their positions.
struct Row<'a> {
    name: String,
    r: &'a Record,
    p: Plan,
    sides: (u32, u32),
    kind: u64,
    at: Vec<(i16, i16)>,
}

impl Row<'_> {
    fn list(&self, numbers: Vec<u64>) -> List<'_> {
        List { r: self.r, p: self.p, w: self.sides.0, h: self.sides.1, numbers }
    }

    // How many patterns, words or banks the calls have in turn.
    fn in_turn(&self) -> usize {
        match self.kind {
            KIND_STORE => 65536,
            KIND_READ_SUM => (self.p.a * self.p.d) as usize,
            _ => self.r.count,
        }
    }

    // The list that is timed.
    fn timed(&self) -> List<'_> {
        self.list(calls(self.kind, &self.at, self.in_turn(), self.r.used[0] as u64))
    }

    fn same(&self) {
        let (l, banks) = (self.timed(), (self.p.a * self.p.d) as usize);
        let mut lent = l.lent();
        l.proved(&mut lent);
        assert!(lent.replies.chunks(12).all(|reply| reply[0] == 0), "{}: not served", self.name);
        let numbers = [
            mixed(&self.at),
            calls(self.kind, &self.at, self.in_turn(), 64),
            calls(self.kind, &self.at, 17, 9),
            vec![0; 7],
            [vec![8; 5], calls(self.kind, &self.at, 1, 9)].concat(),
        ];
        for l in numbers.map(|numbers| self.list(numbers)) {
            for entries in [banks + 2, banks - 1] {
                let mut x = l.lent();
                x.sums.truncate(entries);
                let mut y = x.clone();
                assert_eq!(l.proved(&mut x), l.unverified(&mut y), "{}", self.name);
                assert!(x == y, "{}: other replies, words or sums", self.name);
            }
        }
        self.keeps_sums();
    }

    // Behind a list that makes the sums afresh each is the walk's figure.
    fn keeps_sums(&self) {
        let l = self.list(mixed(&self.at));
        let mut lent = l.lent();
        assert_eq!(l.proved(&mut lent), 0);
        let banks = (self.p.a * self.p.d) as usize;
        let walked: Vec<u64> = lent.mem.chunks_exact(lent.mem.len() / banks).map(words::walk).chain(BEHIND).collect();
        assert_eq!(lent.sums, walked, "{}", self.name);
    }

    fn time(&self) {
        let (Row { r, at, kind, .. }, l, n) = (self, self.timed(), self.in_turn());
        let out = RefCell::new([0; 64]);
        let single = |pic: &Picture, n: usize, o| match *kind {
            KIND_STORE => pic.store(o, n as u16).1,
            KIND_READ_SUM => pic.read_sum(n as u64).1,
            _ => pic.fetch(*kind == KIND_RING_FETCH, r, n, o, &mut *out.borrow_mut()).1,
        };
        let place = || (RefCell::new(l.lent()), Picture::new(self.p, l.w, l.h));
        let seconds_at = |(lent, pic): &(RefCell<Lent>, Picture)| {
            seconds([
                &|| black_box(&l).proved(&mut lent.borrow_mut()),
                &|| black_box(&l).unverified(&mut lent.borrow_mut()),
                &|| at.iter().enumerate().map(|(k, o)| single(pic, k % n, black_box(*o))).fold(0, u64::wrapping_add),
            ])
        };
        let best = if *kind == KIND_STORE { best_of_places(place, seconds_at) } else { seconds_at(&place()) };
        let [proved, unproved, singly] = best.map(|s| s / at.len() as f64);
        let ratio = proved / unproved;
        println!("| {} | {} | {} | {ratio:.2} | {} |", self.name, time(proved), time(unproved), time(singly));
    }
}

/// The answers of both, compared; then rows of the table: a call in a list, and as a single one too.
pub fn lists(books: &[(&str, &Record, Plan)], timed: bool) {
    let (w, h) = (1920, 1080);
    let (block, p) = turntable();
    let mut rows = Vec::new();
    for (said, kind) in [("store", KIND_STORE), ("read the sum of a bank", KIND_READ_SUM)] {
        let (name, r, p) = books[0];
        rows.push(Row { name: format!("{said}, {name}"), r, p, sides: (w, h), kind, at: positions(w, h) });
    }
    for &(name, r, p) in books {
        let (wide, high) = ring_sides(&p, w, h);
        rows.push(Row { name: format!("fetch, {name}"), r, p, sides: (w, h), kind: KIND_FETCH, at: positions(w, h) });
        let (name, at) = (format!("ring fetch, {name}"), around(wide, high));
        rows.push(Row { name, r, p, sides: (wide, high), kind: KIND_RING_FETCH, at });
    }
    for (w, h) in TURNTABLES {
        let name = format!("ring fetch, 6 by 2 block, turntable of {w} by {h}");
        rows.push(Row { name, r: &block, p, sides: (w, h), kind: KIND_RING_FETCH, at: around(w, h) });
    }
    rows.iter().for_each(Row::same);
    if timed {
        println!("\n| in a list of 1,000 | proved | unverified | ratio | proved, as single calls |");
        println!("|---|---|---|---|---|");
        rows.iter().for_each(Row::time);
    }
}
