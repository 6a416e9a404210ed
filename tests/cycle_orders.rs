//! Card 4 of document 02: where r stands in the order of the checks, by every set of broken conditions of the calls that take r and
//! no picture, and r at its edges and far off in every call that takes it. Fetches with broken conditions are in pictures.rs.

use crate::calls::{guard, wrong_sums};
use crate::classes::is_cycles;
use crate::cycles::{ask_cycles, written, AROUND};
use crate::library::{self, Plan, Record};
use crate::lists::NO_CYCLES;
use crate::memory::Lent;
use crate::oracle::Pattern;
use crate::pictures::{cross, record};
use crate::runs::Case;
use crate::search::plan;
use crate::{told, Tally};

// 12 pixels, for which 12 banks are needed, or 2 in eight cycles.
fn twelve() -> Pattern {
    (0..12).map(|k| (k % 4, k / 4)).collect()
}

// The conditions of a set that is given by its bits.
fn broken_in(set: usize, refusals: &[u64]) -> Vec<u64> {
    (0..refusals.len()).filter(|k| set >> k & 1 == 1).map(|k| refusals[k]).collect()
}

// A record of two patterns with those of 2, 3, 4 and 19 broken that are in the set.
fn broken_book(broken: &[u64]) -> Record {
    let mut book = record(&[twelve(), twelve()]);
    for number in broken {
        match number {
            2 => book.count = 17,
            // the pixels of 3 and 4 are lower than the one before, too
            3 => book.rows[1] = -17,
            4 => (book.columns[3], book.rows[3]) = (book.columns[1], book.rows[1]),
            19 => (book.columns[4], book.rows[4]) = (15, -1),
            _ => {}
        }
    }
    book
}

// r, or a number beside its range.
fn r_of(r: u32, broken: &[u64]) -> u32 {
    match broken.contains(&20) {
        false => r,
        true if r == 1 => 0,
        true => 9,
    }
}

// The finder and the finder with a list: 7 by one bank less than are needed, 255 and 16 by the list.
fn finds(t: &mut Tally) {
    for (r, needed) in [(1, 12), (8, 2)] {
        let refusals = [2, 3, 4, 19, 6, 20, 7, 255, 16];
        for set in 0..1 << refusals.len() {
            let broken = broken_in(set, &refusals);
            let (book, own) = (broken_book(&broken), r_of(r, &broken));
            let limit = if broken.contains(&6) { 1025 } else { needed - u32::from(broken.contains(&7)) };
            let first = broken.first().copied().unwrap_or(0);
            let what = || format!("{r}: {broken:?}");
            if first != 255 && first != 16 {
                t.same(what, library::find(&book, own, limit).number, first);
            }
            let numbers = [if broken.contains(&255) { 8 } else { 2 }, 0, 0, 0, 0];
            let (mut mem, mut outs, mut replies) = (guard(400), guard(4), [7; 12]);
            let mut sums = wrong_sums(20);
            let places = 12 - usize::from(broken.contains(&16));
            let lent = (&mut mem, &mut sums, &mut outs, &mut replies[..places]);
            let got = library::find_and_run(&book, own, limit, 7, 4, lent.0, lent.1, &numbers, lent.2, lent.3);
            t.same(what, got.number, first);
            // a load changes neither the memory nor the sums nor the outputs
            t.same(what, (mem, sums, outs, replies != [7; 12]), (guard(400), wrong_sums(20), guard(4), first == 0));
        }
    }
}

fn checks(t: &mut Tally) {
    for r in [1, 8] {
        let refusals = [2, 3, 4, 19, 20, 8, 9, 10];
        for set in 0..1 << refusals.len() {
            let broken = broken_in(set, &refusals);
            let vectors = [(8, (2, 1), (4, 2)), (9, (32, 0), (0, 33)), (10, (1, 0), (0, 1)), (0, (32, 0), (0, 32))];
            let (_, x, y) = vectors[vectors.iter().position(|v| v.0 == 0 || broken.contains(&v.0)).unwrap()];
            let got = library::check(&broken_book(&broken), r_of(r, &broken), x, y);
            t.same(|| format!("{r}: {broken:?}"), got.number, broken.first().copied().unwrap_or(0));
        }
    }
}

fn cycles(t: &mut Tally) {
    for r in [1, 8] {
        let refusals = [2, 3, 4, 19, 20, 11, 17, 10, 16];
        for set in 0..1 << refusals.len() {
            let broken = broken_in(set, &refusals);
            let mut p = if broken.contains(&10) { plan(1, 0, 1) } else { plan(4, 0, 3) };
            if broken.contains(&11) {
                p.b = p.a;
            }
            let (n, room) = (1 + usize::from(broken.contains(&17)), 12 - usize::from(broken.contains(&16)));
            let number = ask_cycles(t, &broken_book(&broken), r_of(r, &broken), p, n, room);
            t.same(|| format!("{r}: {broken:?}"), number, broken.first().copied().unwrap_or(0));
        }
    }
}

fn orders() -> Tally {
    let mut t = Tally::new("cycles: every set of broken conditions of find, find_and_run, check and write_cycles");
    finds(&mut t);
    checks(&mut t);
    cycles(&mut t);
    t
}

// The calls that take r, by their numbers: with nothing else wrong, 20 or 0. No output changes where it is 20.
fn edges() -> Tally {
    let mut t = Tally::new("cycles: r at its edges and far off, in every call that takes it");
    let (book, p) = (record(&[cross()]), plan(5, 2, 1));
    for r in AROUND.chain(NO_CYCLES).chain([264, 65537, 1 << 24, u32::MAX - 7]) {
        let number = if is_cycles(r) { 0 } else { 20 };
        let mut same = |call: &str, got: u64, wanted: u64| t.same(|| format!("{call}, {r}"), got, wanted);
        same("find", library::find(&book, r, 1024).number, number);
        same("check", library::check(&book, r, (5, 0), (2, 1)).number, number);
        for call in [library::fetch, library::ring_fetch] {
            let mut out = guard(5);
            same("fetch", call(&book, r, p, 10, 10, &[0; 100], 0, (4, 4), &mut out).number, number);
            same("a fetch's output", u64::from(out == guard(5)), u64::from(number == 20));
        }
        let mut out = [7; 6];
        same("cycles", library::write_cycles(&book, r, p, 0, &mut out).number, number);
        same("the cycles' output", u64::from(out == [7; 6]), u64::from(number == 20));
        ask_cycles(&mut t, &book, r, p, 0, 5);
        list_of(&mut t, &book, r, p, number);
    }
    t
}

// A list whose fetch is refused for its r, and whose other calls are made; the finder refuses the whole list.
fn list_of(t: &mut Tally, book: &Record, r: u32, p: Plan, number: u64) {
    let calls = [[0, 3, 2, 8, 0], [3, 3, 2, 0, 5], [2, 3, 2, 0, 0], [3, 3, 2, 9, 5], [4, 3, 2, 0, 5], [4, 3, 2, 9, 5]];
    let numbers = calls.concat();
    // a memory that is long enough for every plan of the cross
    let lent = Lent { plan: p, w: 7, h: 4, words: 64, entries: 16 };
    let case = Case { record: book, r, lent, numbers: &numbers, outs: 20, replies: 72, content: 0 };
    let (got, left) = case.ask(t);
    t.same(|| format!("a list, {r}"), got, told(0, &[]));
    let first: Vec<u64> = left.replies[..72].iter().copied().step_by(12).collect();
    let or_20 = |other: u64| if number == 20 { 20 } else { other };
    t.same(|| format!("replies, {r}"), first, vec![0, number, 0, or_20(17), or_20(18), or_20(17)]);
    let found = case.ask_finder(t, 1024).0;
    t.same(|| format!("find_and_run, {r}"), found.number, number);
    // before 20 comes what is wrong with the book, behind it what is wrong with the plan, the sides and the memory
    let mut other = book.clone();
    other.columns[1] = 1;
    for (book, lent, fetched, stored) in [
        (&other, lent, 19, 0),
        (book, Lent { plan: plan(5, 5, 1), ..lent }, or_20(11), 11),
        (book, Lent { w: 0, ..lent }, or_20(12), 12),
        (book, Lent { words: 1, ..lent }, or_20(13), 13),
    ] {
        let case = Case { record: book, lent, ..case.clone() };
        let replies = case.ask(t).1.replies;
        t.same(|| format!("replies, {case:?}"), (replies[0], replies[12], replies[48]), (stored, fetched, fetched));
    }
}

// One position after the other: of two classes that exceed r the one with the earlier first pixel is told, of one class with more
// pixels than r + 1 the first of them, and only those from a pixel on that has r behind it.
fn clashes() -> Tally {
    let mut t = Tally::new("cycles: which clash comes first");
    let case = |t: &mut Tally, columns: &[i64], a: i64, r: u32, wanted: &[u64]| {
        let book = record(&[vec![(0, 0)], columns.iter().map(|&i| (i, 0)).collect()]);
        let row = [&[0, 1], wanted].concat();
        let what = || format!("{columns:?} {a} {r}");
        t.same(what, library::check(&book, r, (a as i16, 0), (0, 1)), told(10, &row));
        t.same(what, library::write_cycles(&book, r, plan(a, 0, 1), 1, &mut [0; 64]), told(10, &row));
        t.same(what, library::fetch(&book, r, plan(a, 0, 1), 40, 3, &[0; 200], 1, (16, 1), &mut [0; 64]), told(10, &row));
        t.same(what, written(&book, r, plan(a, 0, 1), 1, 64), Err(told(10, &row)));
    };
    // classes by remainders of 4: 0 0 1 1 1 0; the class of the first pixel has three too
    case(&mut t, &[-16, -12, -11, -7, -3, 0], 4, 2, &[0, 1, 5]);
    case(&mut t, &[0, 4, 5, 9, 13, 14], 4, 2, &[2, 3, 4]);
    case(&mut t, &[0, 1, 4, 5, 8, 9], 4, 2, &[0, 2, 4]);
    case(&mut t, &[0, 1, 5, 9, 10, 12, 14], 4, 1, &[0, 5]);
    case(&mut t, &[0, 1, 5, 8, 9, 12], 4, 2, &[0, 3, 5]);
    case(&mut t, &[1, 5, 8, 9, 12, 13], 4, 3, &[0, 1, 3, 5]);
    // a class of nine, of ten and of all 32 columns
    case(&mut t, &(-16..-7).collect::<Vec<_>>(), 1, 8, &[0, 1, 2, 3, 4, 5, 6, 7, 8]);
    case(&mut t, &(-16..-6).collect::<Vec<_>>(), 1, 8, &[0, 1, 2, 3, 4, 5, 6, 7, 8]);
    case(&mut t, &(-16..16).collect::<Vec<_>>(), 3, 8, &[0, 3, 6, 9, 12, 15, 18, 21, 24]);
    case(&mut t, &(-16..16).collect::<Vec<_>>(), 3, 7, &[0, 3, 6, 9, 12, 15, 18, 21]);
    t
}

pub fn run() -> Vec<Tally> {
    vec![orders(), edges(), clashes()]
}
