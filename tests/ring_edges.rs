//! Ring fetches in lists of calls in numbers (Card 5 of document 02), at their edges. The answers and replies are stated here, and
//! compared with the brute force too.

use crate::memory::Lent;
use crate::pictures::{cross, record};
use crate::run_edges::{Edges, MOST};
use crate::runs::Case;
use crate::search::plan;
use crate::{told, Tally};

// Rooms: none, less than the pattern has pixels, just as much, more; and more than the outputs have.
fn rooms(t: &mut Tally, ring: &Edges, other: &Edges) {
    for (room, number) in [(0, 16), (1, 16), (4, 16), (5, 0), (6, 0), (64, 0), (1000, 0)] {
        ring.made(t, &[[4, 3, 2, 0, room]], &[number]);
        ring.made(t, &[[0, 3, 2, 8, MOST], [4, 13, 65533, 0, room], [2, 3, 2, 0, MOST], [4, 4, 2, 0, 5]], &[0, number, 0, 0]);
        // 17 and 18 before 16
        ring.made(t, &[[4, 3, 2, 1, room], [4, 3, 2, MOST, room]], &[17, 17]);
        other.made(t, &[[4, 3, 2, 0, room], [4, 3, 2, 1, room], [3, 3, 2, 0, 5]], &[18, 17, 0]);
    }
    for room in [6, 7, 1 << 16, 1 << 31, 1 << 32, 1 << 63, MOST - 5, MOST - 4, MOST] {
        for e in [ring, other] {
            e.not_made(t, &[[4, 3, 2, 0, room]], 5, 16, 0);
            e.not_made(t, &[[4, 3, 2, 0, 5], [3, 3, 2, 0, room]], 10, 16, 0);
            e.not_made(t, &[[3, 3, 2, 0, 5], [4, 3, 2, 0, room]], 10, 16, 0);
            e.not_made(t, &[[4, 3, 2, 0, room], [4, 3, 2, 0, 5]], 5, 16, 0);
        }
    }
    ring.not_made(t, &[[4, 3, 2, 0, 5], [4, 3, 2, 0, MOST - 4]], 5, 16, 0);
    ring.not_made(t, &[[4, 3, 2, 0, 1 << 63], [4, 3, 2, 0, 1 << 63]], 5, 16, 0);
    // the earlier fault tells; in one call the numbers before the room
    ring.not_made(t, &[[8, 0, 0, 0, 0], [4, 0, 0, 0, 9]], 5, 255, 0);
    ring.not_made(t, &[[4, 0, 0, 0, 9], [8, 0, 0, 0, 0]], 5, 16, 0);
    ring.not_made(t, &[[4, 0, 0, 0, 5], [8, 0, 0, 0, 0]], 5, 255, 5);
    ring.not_made(t, &[[4, 65536, 0, 0, 9]], 5, 255, 0);
    ring.not_made(t, &[[4, 0, 65536, 0, MOST]], 5, 255, 0);
    for left in 1..5 {
        ring.list(t, &[&[4, 0, 0, 0, 5], &[4, 0, 0, 0][..left]].concat(), 9, 96, 255, 5);
    }
}

// A ring fetch has no 14: on a ring every position is served, elsewhere each gets 18. A plain fetch gets 14 there.
fn positions(t: &mut Tally, ring: &Edges, other: &Edges) {
    for (i, j) in [(0, 0), (9, 4), (10, 5), (65535, 65535), (0, 1), (32767, 32767), (32768, 32768), (32767, 32768)] {
        ring.made(t, &[[4, i, j, 0, 5], [3, i, j, 0, 5], [4, i, j, 0, 5]], &[0, 14, 0]);
        other.made(t, &[[4, i, j, 0, 5], [3, i, j, 0, 5], [4, i, j, 0, 5]], &[18, 14, 18]);
    }
}

// Two conditions are broken in each call of a list, and the first of them is told: by each part of the condition for a ring.
fn two_faults(t: &mut Tally) {
    let book = record(&[cross(), vec![(0, 0), (1, 0)]]);
    let rows = [((2, 0, 1), 7, 4), ((2, 0, 2), 6, 5), ((2, 1, 1), 6, 3), ((2, 1, 2), 8, 2), ((1, 0, 3), 3, 1)];
    for ((a, b, d), w, h) in rows {
        let p = plan(a, b, d);
        let lent = Lent::new(p, w, h);
        // the cross clashes under each of these plans, and the pair under the last; no room; no such pattern
        let numbers = [[4, 3, 2, 0, 5], [4, 3, 2, 1, 2], [4, 3, 2, 1, 0], [4, 3, 2, 2, 5], [4, 65535, 4096, 1, 2]].concat();
        let mut ask = |r: u32, lent: Lent, wanted: [u64; 5]| {
            let case = Case { record: &book, r, lent, numbers: &numbers, outs: 14, replies: 60, content: 0 };
            let (got, left) = case.ask(t);
            t.same(|| format!("{case:?}"), got, told(0, &[]));
            let first: Vec<u64> = left.replies[..60].iter().copied().step_by(12).collect();
            t.same(|| format!("the replies of {case:?}"), first, wanted.to_vec());
        };
        let pair = if p.a == 1 { 10 } else { 18 };
        ask(1, lent, [10, pair, pair, 17, pair]);
        ask(8, lent, [18, 18, 18, 17, 18]);
        ask(1, Lent { words: lent.words - 1, ..lent }, [13; 5]);
        ask(1, Lent { w: 0, ..lent }, [12; 5]);
        ask(1, Lent { h: 4097, ..lent }, [12; 5]);
        ask(1, Lent { plan: plan(2, 2, 1), ..lent }, [11; 5]);
        ask(9, Lent { plan: plan(2, 2, 1), ..lent }, [20; 5]);
    }
}

// A list with all numbers of its replies, its outputs, its memory and its sums written out: each ring fetch has an output of its
// own, and gives what was stored last at the wrapped pixels.
fn written_out(t: &mut Tally, ring: &Edges) {
    let stores = [[0, 9, 4, 7, 0], [0, 0, 0, 8, 0], [0, 0, 4, 9, 0]];
    let around = [[4, 65535, 65535, 0, 6], [4, 65535, 65535, 0, 4], [4, 10, 5, 0, 5]];
    let after = [[1, 0, 0, 0, 0], [0, 0, 4, 3, 0], [4, 0, 0, 0, 5], [3, 0, 0, 0, 5], [4, 0, 0, 1, 1]];
    let numbers = [&stores[..], &around, &after].concat().concat();
    let case = Case { record: &ring.book, r: 1, lent: ring.lent, numbers: &numbers, outs: 26, replies: 132, content: 0 };
    let starts: [&[u64]; 11] = [&[0], &[0], &[0], &[0, 5], &[16, 0], &[0, 5], &[0], &[0], &[0, 5], &[14, 0], &[17, 0]];
    let replies: Vec<u64> = starts.iter().flat_map(|row| [row, &[0; 12][row.len()..]].concat()).collect();
    let mut wanted = case.start();
    wanted.replies[..132].copy_from_slice(&replies);
    wanted.outs[..5].copy_from_slice(&[0, 0, 7, 9, 0]);
    wanted.outs[10..20].copy_from_slice(&[9, 0, 8, 0, 0, 3, 0, 0, 0, 0]);
    // (9, 4) is bank 1, address 9, and (0, 4) bank 2, address 8, at depth 10
    (wanted.memory[19], wanted.memory[28]) = (7, 3);
    // bank 0 is cleared, the sum of bank 1 was 2^64 - 2, and 9 went in and out of that of bank 2
    wanted.sums[..2].copy_from_slice(&[0, 5]);
    wanted.sums[2] = wanted.sums[2].wrapping_add(3);
    let (got, found) = (case.ask(t), case.ask_finder(t, 1024));
    t.same(|| "run_list, written out".into(), got, (told(0, &[]), wanted.clone()));
    t.same(|| "find_and_run, written out".into(), found, (told(0, &[5, 2, 1]), wanted));
}

// The turntable of Card 5: W = 12 and H = 6 under 6, 0, 2, which suits the square. Under the plan that is found, 2, 0, 2, it is a
// ring too; with H = 5 it is none under either.
fn turntable(t: &mut Tally) {
    let book = record(&[vec![(0, 0), (1, 0), (0, 1), (1, 1)]]);
    let numbers = [[0, 11, 5, 4, 0], [0, 0, 5, 5, 0], [0, 11, 0, 6, 0], [0, 0, 0, 7, 0], [4, 11, 5, 0, 4]].concat();
    for (h, number, words) in [(6, 0, [4, 5, 6, 7]), (5, 18, [0; 4])] {
        let lent = Lent { words: 72, ..Lent::new(plan(6, 0, 2), 12, h) };
        let case = Case { record: &book, r: 1, lent, numbers: &numbers, outs: 4, replies: 60, content: 0 };
        for (_, left) in [case.ask(t), case.ask_finder(t, 1024)] {
            t.same(|| format!("the turntable, H = {h}"), left.replies[48], number);
            let outs = if number == 0 { words.to_vec() } else { case.start().outs[..4].to_vec() };
            t.same(|| format!("the turntable, H = {h}"), &left.outs[..4], &outs[..]);
        }
    }
}

pub fn run() -> Tally {
    let mut t = Tally::new("ring fetches in lists, at their edges");
    let (ring, other) = (Edges::new(10, 5), Edges::new(7, 5));
    rooms(&mut t, &ring, &other);
    positions(&mut t, &ring, &other);
    two_faults(&mut t);
    written_out(&mut t, &ring);
    turntable(&mut t);
    t
}
