//! Lists of calls in numbers at their edges. The answers and replies are stated here, and compared with the brute force too. More
//! of ring fetches is in ring_edges.rs, more of the sums in sum_edges.rs.

use crate::library::Record;
use crate::memory::Lent;
use crate::pictures::{cross, record};
use crate::runs::Case;
use crate::search::plan;
use crate::{told, Tally};

pub const MOST: u64 = u64::MAX;

/// The cross, its plan 5, 2, 1, a picture and a memory of just its size.
pub struct Edges {
    pub book: Record,
    pub lent: Lent,
}

impl Edges {
    pub fn new(w: u32, h: u32) -> Edges {
        Edges { book: record(&[cross()]), lent: Lent::new(plan(5, 2, 1), w, h) }
    }

    /// A list with its number and place, as run_list and find_and_run must tell them; it gives the first number of each reply.
    pub fn list(&self, t: &mut Tally, numbers: &[u64], outs: usize, replies: usize, number: u64, place: u64) -> Vec<u64> {
        let case = Case { record: &self.book, r: 1, lent: self.lent, numbers, outs, replies, content: 0 };
        let (got, left) = case.ask(t);
        let wanted = told(number, if number == 0 { &[] } else { std::slice::from_ref(&place) });
        t.same(|| format!("{case:?}"), got, wanted.clone());
        for limit in [5, 1024] {
            let wanted = if number == 0 { told(0, &[5, 2, 1]) } else { wanted.clone() };
            let got = case.ask_finder(t, limit).0;
            t.same(|| format!("limit {limit}: {case:?}"), got, wanted);
        }
        left.replies[..replies].iter().copied().step_by(12).collect()
    }

    /// A list that is made with just the room that it needs; not with a word or a number less.
    pub fn made(&self, t: &mut Tally, calls: &[[u64; 5]], replies: &[u64]) {
        let numbers = calls.concat();
        let outs = calls.iter().map(|c| if c[0] == 3 || c[0] == 4 { c[4] as usize } else { 0 }).sum();
        let room = 12 * calls.len();
        let got = self.list(t, &numbers, outs, room, 0, 0);
        t.same(|| format!("the replies of {calls:?}"), got, replies.to_vec());
        self.list(t, &numbers, outs + 1, room + 1, 0, 0);
        if outs > 0 {
            self.list(t, &numbers, outs - 1, room, 16, 0);
        }
        for less in [1, 11, 12, room].into_iter().filter(|&less| less <= room && less > 0) {
            self.list(t, &numbers, outs, room - less, 16, 0);
        }
    }

    pub fn not_made(&self, t: &mut Tally, calls: &[[u64; 5]], outs: usize, number: u64, place: u64) {
        self.list(t, &calls.concat(), outs, 12 * calls.len(), number, place);
    }
}

// Numbers at both sides of what a call can have.
fn numbers(t: &mut Tally, e: &Edges) {
    e.made(t, &[], &[]);
    // kinds: after three calls, and before another fault
    for kind in [8, 9, 255, 256, 260, 263, 65536, 1 << 32, (1 << 32) + 4, 1 << 63, MOST - 3, MOST] {
        e.not_made(t, &[[kind, 0, 0, 0, 0]], 5, 255, 0);
        e.not_made(t, &[[2, 0, 0, 0, 0], [5, 1, 0, 0, 0], [7, 2, 0, 0, 0], [kind, 0, 0, 0, 0], [9, 0, 0, 0, 0]], 0, 255, 15);
    }
    // columns and rows: 65535 is -1 and 32768 is -32768, outside of the picture
    for (x, number) in [(0, 0), (3, 0), (4, 14), (32767, 14), (32768, 14), (65535, 14)] {
        let column = if x == 4 { 7 } else { x };
        e.made(t, &[[0, column, 0, 1, 0], [0, 0, x, 1, 0], [2, column, 0, 0, 0], [2, 0, x, 0, 0]], &[number; 4]);
        // these have no pixel
        e.made(t, &[[1, column, x, 4, 0], [5, column, x, 4, 0], [6, column, x, 4, 0], [7, column, x, 4, 0]], &[0; 4]);
    }
    for x in [65536, 65537, 131_071, 1 << 32, 1 << 63, MOST] {
        for kind in 0..8 {
            e.not_made(t, &[[2, 0, 0, 0, 0], [kind, x, 0, 0, 0]], 0, 255, 5);
            e.not_made(t, &[[2, 0, 0, 0, 0], [kind, 0, x, 0, 0]], 0, 255, 5);
        }
        // a store's word; that of another call is a bank, a pattern, or not looked at
        e.not_made(t, &[[0, 0, 0, x, 0]], 0, 255, 0);
        e.made(t, &[[1, 0, 0, x, 0], [2, 0, 0, x, x], [3, 3, 2, x, 5], [4, 3, 2, x, 5], [0, 0, 0, 1, x]], &[15, 0, 17, 17, 0]);
    }
    e.made(t, &[[0, 6, 3, 65535, 0], [2, 6, 3, 0, 0], [0, 6, 3, 0, 0], [2, 6, 3, 0, 0]], &[0; 4]);
    // banks and patterns
    for k in 0..5 {
        e.made(t, &[[0, 0, 0, 9, 0], [1, 0, 0, k, 0], [2, 0, 0, 0, 0]], &[0; 3]);
    }
    for x in [5, 6, 16, 17, 64, 65535, 65536, 1 << 32, (1 << 32) + 4, 1 << 63, MOST - 1, MOST] {
        e.made(t, &[[0, 0, 0, 9, 0], [1, 0, 0, x, 0], [2, 0, 0, 0, 0]], &[0, 15, 0]);
        e.made(t, &[[3, 3, 2, x, 5], [3, 3, 2, 0, 5]], &[17, 0]);
    }
    e.made(t, &[[3, 3, 2, 1, 5], [3, 3, 2, 0, 5]], &[17, 0]);
    // positions of a fetch; 5 does not divide 7, whatever the position of a ring fetch is
    for (i, j) in [(0, 1), (6, 1), (1, 0), (1, 3), (65535, 1), (1, 65535), (32767, 32767), (32768, 32768)] {
        e.made(t, &[[3, i, j, 0, 5], [3, 1, 1, 0, 5], [4, i, j, 0, 5], [4, 1, 1, 0, 5]], &[14, 0, 18, 18]);
    }
    // what is left of a call at the end, of a list that is one without it and of one that is not
    for left in 1..5 {
        for calls in [0, 1, 3] {
            let whole = vec![2, 0, 0, 0, 0].repeat(calls);
            e.list(t, &[&whole[..], &[3; 4][..left]].concat(), 9, 96, 255, 5 * calls as u64);
        }
        e.list(t, &[&[2, 0, 0, 0, 0, 8, 0, 0, 0, 0], &[0; 4][..left]].concat(), 9, 96, 255, 5);
    }
}

// Rooms, and which of two faults is told.
fn rooms(t: &mut Tally, e: &Edges) {
    // less room than the pattern has pixels, just as much, more, and none; the room of another call is not looked at
    for (room, number) in [(0, 16), (1, 16), (4, 16), (5, 0), (6, 0), (64, 0), (1000, 0)] {
        e.made(t, &[[0, 3, 2, 8, MOST], [3, 3, 2, 0, room], [2, 3, 2, 0, MOST], [3, 4, 2, 0, 5]], &[0, number, 0, 0]);
        // 14 and 17 before 16
        e.made(t, &[[3, 0, 0, 0, room], [3, 3, 2, 1, room]], &[14, 17]);
    }
    for room in [6, 7, 1 << 16, 1 << 31, 1 << 32, 1 << 63, MOST - 5, MOST - 4, MOST] {
        e.not_made(t, &[[3, 3, 2, 0, room]], 5, 16, 0);
        e.not_made(t, &[[3, 3, 2, 0, 5], [3, 3, 2, 0, room]], 10, 16, 0);
        e.not_made(t, &[[3, 3, 2, 0, room], [3, 3, 2, 0, 5]], 5, 16, 0);
    }
    // two rooms whose sum leaves 64 bits
    e.not_made(t, &[[3, 3, 2, 0, 5], [3, 3, 2, 0, MOST - 4]], 5, 16, 0);
    e.not_made(t, &[[3, 3, 2, 0, 1 << 63], [3, 3, 2, 0, 1 << 63]], 5, 16, 0);
    // the earlier fault tells: 255 in the first call and 16 in the second, and the other way round
    e.not_made(t, &[[8, 0, 0, 0, 0], [3, 0, 0, 0, 9]], 5, 255, 0);
    e.not_made(t, &[[3, 0, 0, 0, 9], [8, 0, 0, 0, 0]], 5, 16, 0);
    // in one call the numbers before the room
    e.not_made(t, &[[3, 65536, 0, 0, 9]], 5, 255, 0);
    e.not_made(t, &[[3, 0, 65536, 0, MOST]], 5, 255, 0);
    // a room before what is left at the end, that before the replies' length
    e.list(t, &[3, 0, 0, 0, 9, 3], 5, 12, 16, 0);
    e.list(t, &[3, 0, 0, 0, 5, 3], 5, 0, 255, 5);
    e.list(t, &[3, 0, 0, 0, 5, 8, 0, 0, 0, 0], 5, 0, 255, 5);
    e.list(t, &[3, 0, 0, 0, 5], 4, 0, 16, 0);
    e.list(t, &[3], 0, 0, 255, 0);
    e.list(t, &[], 0, 0, 0, 0);
}

// A plan that is none, wrong sides, a memory that is too short: every call replies so, a fetch of a wrong book by 2, 3, 4, 19.
fn shared(t: &mut Tally, e: &Edges) {
    let stores = [[0, 3, 2, 7, 0], [1, 0, 0, 0, 0], [2, 3, 2, 0, 0], [1, 0, 0, MOST, 0]];
    let numbers = [&stores[..], &[[3, 3, 2, 0, 5], [3, 3, 2, 9, 0], [4, 3, 2, 0, 0], [4, 3, 2, 9, 0]]].concat().concat();
    let ask = |t: &mut Tally, book: &Record, lent: Lent, wanted: [u64; 8]| {
        let case = Case { record: book, r: 1, lent, numbers: &numbers, outs: 5, replies: 96, content: 0 };
        let (got, left) = case.ask(t);
        t.same(|| format!("{case:?}"), got, told(0, &[]));
        let first: Vec<u64> = left.replies[..96].iter().copied().step_by(12).collect();
        t.same(|| format!("the replies of {case:?}"), first, wanted.to_vec());
    };
    ask(t, &e.book, e.lent, [0, 0, 0, 15, 0, 17, 18, 17]);
    for (a, b, d) in [(0, 0, 1), (5, 2, 0), (5, 5, 1), (5, 2, 205), (1025, 0, 1), (1 << 31, 0, 2), (4_294_967_295, 0, 1)] {
        // the memory is as long as that of the right plan
        ask(t, &e.book, Lent { plan: plan(a, b, d), ..e.lent }, [11; 8]);
        ask(t, &e.book, Lent { plan: plan(a, b, d), w: 0, words: 0, ..e.lent }, [11; 8]);
    }
    for (w, h) in [(0, 4), (4097, 4), (7, 0), (7, 4097), (u32::MAX, 4), (7, u32::MAX)] {
        ask(t, &e.book, Lent { w, h, ..e.lent }, [12; 8]);
        ask(t, &e.book, Lent { w, h, words: 0, ..e.lent }, [12; 8]);
    }
    for words in [0, 1, 39] {
        ask(t, &e.book, Lent { words, ..e.lent }, [13; 8]);
    }
    ask(t, &e.book, Lent { words: 41, ..e.lent }, [0, 0, 0, 15, 0, 17, 18, 17]);
    ask(t, &e.book, Lent { plan: plan(2, 0, 1), words: 64, ..e.lent }, [0, 0, 0, 15, 10, 17, 10, 17]);
    let damages: [(fn(&mut Record), u64); 7] = [
        (|r| r.count = 0, 2),
        (|r| r.used[0] = 65, 2),
        (|r| r.columns[4] = 16, 3),
        (|r| r.columns[1] = 0, 4),
        (|r| r.rows[4] = -1, 4),
        (|r| r.columns[1] = 1, 19),
        (|r| (r.columns[4], r.rows[4]) = (15, -1), 19),
    ];
    for (damage, number) in damages {
        let mut book = e.book.clone();
        damage(&mut book);
        ask(t, &book, e.lent, [0, 0, 0, 15, number, number, number, number]);
        ask(t, &book, Lent { w: 0, ..e.lent }, [12, 12, 12, 12, number, number, number, number]);
        // the finder refuses it whatever the limit, the sides, the list and its room
        let bad: Vec<u64> = vec![9, MOST];
        for (limit, numbers, outs) in [(1024, &numbers, 5), (0, &numbers, 5), (1025, &numbers, 4), (5, &bad, 0)] {
            let case = Case { record: &book, r: 1, lent: e.lent, numbers, outs, replies: 96, content: 0 };
            let got = case.ask_finder(t, limit).0;
            t.same(|| format!("limit {limit}: {case:?}"), got, told(number, &[0]));
        }
    }
    // the finder's 6 and 7 before what is wrong with the list
    let bad: Vec<u64> = vec![9, MOST];
    for (limit, number) in [(0, 6), (1025, 6), (u32::MAX, 6), (1, 7), (4, 7)] {
        for (numbers, outs) in [(&numbers, 5), (&numbers, 4), (&bad, 5)] {
            let case = Case { record: &e.book, r: 1, lent: e.lent, numbers, outs, replies: 96, content: 0 };
            let got = case.ask_finder(t, limit).0;
            t.same(|| format!("limit {limit}: {case:?}"), got, told(number, &[0]));
        }
    }
    for limit in [5, 6, 1023, 1024] {
        for (w, h, words) in [(7, 4, 40), (0, 4, 40), (7, 4, 39), (7, 4, 0)] {
            let lent = Lent { w, h, words, ..e.lent };
            let case = Case { record: &e.book, r: 1, lent, numbers: &numbers, outs: 5, replies: 96, content: 0 };
            let got = case.ask_finder(t, limit).0;
            t.same(|| format!("limit {limit}: {case:?}"), got, told(0, &[5, 2, 1]));
        }
    }
}

// A list with all numbers of its replies, its outputs, its memory and its sums written out.
fn written_out(t: &mut Tally, e: &Edges) {
    let lent = Lent { plan: plan(2, 0, 1), words: 64, ..e.lent };
    let calls = [[0, 3, 2, 8, 0], [2, 3, 2, 0, 0], [3, 3, 2, 1, 3], [3, 3, 2, 0, 5], [2, 65535, 0, 0, 0], [1, 0, 0, 1, 0]];
    let numbers = calls.concat();
    let book = record(&[cross(), vec![(0, 0), (1, 0)]]);
    let case = Case { record: &book, r: 1, lent, numbers: &numbers, outs: 8, replies: 72, content: 0 };
    let (_, left) = case.ask(t);
    let starts: [&[u64]; 6] = [&[0], &[0, 8], &[0, 2], &[10, 0, 0, 0, 2], &[14, 0], &[0]];
    let wanted: Vec<u64> = starts.iter().flat_map(|row| [row, &[0; 12][row.len()..]].concat()).collect();
    t.same(|| "all replies".into(), left.replies[..72].to_vec(), wanted);
    let start = case.start();
    t.same(|| "the outputs".into(), left.outs, [&[8, 0], &start.outs[2..]].concat());
    t.same(|| "the memory".into(), left.memory, start.memory);
    t.same(|| "the sums".into(), left.sums, [&start.sums[..1], &[0], &start.sums[2..]].concat());
}

pub fn run() -> Tally {
    let mut t = Tally::new("lists of calls at their edges");
    let e = Edges::new(7, 4);
    t.same(|| "the memory's words".into(), e.lent.words, 40);
    numbers(&mut t, &e);
    rooms(&mut t, &e);
    shared(&mut t, &e);
    written_out(&mut t, &e);
    t
}
