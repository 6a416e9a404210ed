//! The order of a pattern's pixels, by row, then column: 19 where a pixel is lower than the one before it. The edges, and what
//! comes before and after 19, are asked of every call that takes a book: its place in bytes is the pixel's, in a record 0. Many
//! orders of the same pixels are in shuffles.rs.

use crate::books::{expect, fill_unused};
use crate::calls::{by_library, guard, Call, Kind, Way};
use crate::library::{self, Record};
use crate::memory::Lent;
use crate::oracle::{self, Pattern};
use crate::pictures::cross;
use crate::runs::by_list;
use crate::search::plan;
use crate::wrapper::by_wrapper;
use crate::{program, told, Random, Tally};

// A fetch that nothing refuses: the plan suits every pattern, and the sides are those of a ring.
fn fetch(kind: Kind) -> Call {
    let lent = Lent::new(plan(32, 0, 32), 64, 32);
    Call { v: (16, 16), ..Call::new(kind, lent) }
}

// What is wrong with a fetch beside its book: 20, 11, 12, 13, 17, 10, 14 or 18, 16, by itself, all of them but 10, nothing.
fn break_fetch(c: &mut Call, which: usize) {
    let wrong = match which {
        0..8 => which..which + 1,
        8 => 0..8,
        _ => 0..0,
    };
    for k in wrong.rev() {
        match k {
            0 => c.r = 9,
            1 => c.lent.plan.b = c.lent.plan.a,
            2 => c.lent.w = 0,
            3 => c.lent.words = 1,
            4 => c.n = 16,
            5 => c.lent.plan = plan(1, 0, 1),
            6 if c.kind == Kind::Ring => c.lent.h = 31,
            6 => c.v = (-100, 0),
            _ => c.room = 0,
        }
    }
}

// Every call that takes a record refuses it by this number at place 0, whatever else is wrong with what it is given.
fn record_refused(t: &mut Tally, r: &Record, number: u64) {
    let what = |call: &str| format!("{call} of {:?} {:?} {:?}", &r.columns[..4], &r.rows[..4], r.used);
    let refused = told(number, &[0]);
    t.same(|| what("test"), library::test_record(r), refused.clone());
    for room in [0, 2065] {
        let mut out = vec![0xc9; room];
        t.same(|| what("writer"), library::write_book(r, &mut out), refused.clone());
        t.same(|| what("writer's output"), out, vec![0xc9; room]);
    }
    for limit in [1024, 1, 0, 1025] {
        for cycles in [1, 2, 0, 9] {
            t.same(|| what("find"), library::find(r, cycles, limit), refused.clone());
        }
        let (mut mem, mut sums, mut outs, mut replies) = ([5; 64], [4; 64], [6; 8], [7; 12]);
        // lists that are one, and numbers that are none
        for numbers in [[3, 0, 0, 0, 8], [4, 0, 0, 0, 8], [5, 0, 0, 0, 8], [8, 0, 0, 0, 8]] {
            let got = library::find_and_run(r, 1, limit, 8, 8, &mut mem, &mut sums, &numbers, &mut outs, &mut replies);
            t.same(|| what("find_and_run"), got, refused.clone());
        }
        let lent = (mem, sums, outs, replies);
        t.same(|| what("what find_and_run was lent"), lent, ([5; 64], [4; 64], [6; 8], [7; 12]));
    }
    for (x, y) in [((32, 0), (0, 32)), ((2, 1), (4, 2)), ((32, 0), (0, 33)), ((1, 0), (0, 1))] {
        for cycles in [1, 2, 0, 9] {
            t.same(|| what("check"), library::check(r, cycles, x, y), refused.clone());
        }
    }
    for (cycles, p, n, room) in [(1, plan(32, 0, 32), 0, 64), (0, plan(0, 0, 1), 16, 0), (9, plan(1, 0, 1), 1, 0)] {
        let mut out = vec![0xc9; room];
        t.same(|| what("cycles"), library::write_cycles(r, cycles, p, n, &mut out), refused.clone());
        t.same(|| what("the cycles' output"), out, vec![0xc9; room]);
    }
    fetches_refused(t, r, number);
}

// The same of each fetch.
fn fetches_refused(t: &mut Tally, r: &Record, number: u64) {
    let what = |call: &str| format!("{call} of {:?} {:?} {:?}", &r.columns[..4], &r.rows[..4], r.used);
    let refused = told(number, &[0]);
    let ways: [(Kind, Way); 6] = [
        (Kind::Fetch, by_library),
        (Kind::Ring, by_library),
        (Kind::Fetch, by_wrapper),
        (Kind::Ring, by_wrapper),
        (Kind::Fetch, by_list),
        (Kind::Ring, by_list),
    ];
    for (kind, way) in ways {
        for which in 0..10 {
            let mut c = fetch(kind);
            break_fetch(&mut c, which);
            let (mut mem, mut sums, mut out) = (vec![0; c.lent.words], vec![5; c.lent.entries], guard(c.room));
            t.same(|| what(&format!("{c:?}")), way(r, &c, &mut mem, &mut sums, &mut out), refused.clone());
            t.same(|| what("a fetch's output"), out, guard(c.room));
        }
    }
}

// Every call that takes a record takes it, and what else is wrong with a fetch refuses it; one pixel suits every plan.
fn record_taken(t: &mut Tally, r: &Record, bytes: &[u8]) {
    let what = |call: &str| format!("{call} of {bytes:02x?}");
    t.same(|| what("test"), library::test_record(r), told(0, &[]));
    let mut out = vec![0xc9; bytes.len()];
    t.same(|| what("writer"), library::write_book(r, &mut out), told(0, &[bytes.len() as u64]));
    t.same(|| what("writer's output"), out, bytes.to_vec());
    t.same(|| what("find"), library::find(r, 1, 1024).number, 0);
    t.same(|| what("check"), library::check(r, 1, (32, 0), (0, 32)).number, 0);
    t.same(|| what("program"), program::run([bytes.to_vec()]).0.starts_with("banks "), true);
    t.same(|| what("cycles"), library::write_cycles(r, 1, plan(32, 0, 32), 0, &mut [0; 64]).number, 0);
    for kind in [Kind::Fetch, Kind::Ring] {
        let clash = if r.used[0] == 1 { 0 } else { 10 };
        let numbers = [20, 11, 12, 13, 17, clash, if kind == Kind::Ring { 18 } else { 14 }, 16, 20, 0];
        for (which, number) in numbers.into_iter().enumerate() {
            let mut c = fetch(kind);
            break_fetch(&mut c, which);
            let told = by_library(r, &c, &mut vec![0; c.lent.words], &mut [], &mut vec![0; c.room]);
            t.same(|| what(&format!("{c:?}")), told.number, number);
        }
    }
}

// Patterns with the number and the place, or the count, that the reader tells: by bytes, by the program and as a record.
fn everywhere(t: &mut Tally, patterns: &[Pattern], number: u64, value: u64) {
    let bytes = oracle::bytes_of(patterns);
    expect(t, &bytes, number, value);
    let mut record = oracle::record_of(patterns);
    fill_unused(&mut record, &mut Random::new(31));
    if number == 0 {
        return record_taken(t, &record, &bytes);
    }
    parts_refused(t, &bytes, number, value);
    record_refused(t, &record, number);
    t.same(|| format!("the program, {bytes:02x?}"), program::run([bytes.clone()]), (format!("refused {number}\n"), true));
}

// A part is refused before its number is looked at.
fn parts_refused(t: &mut Tally, bytes: &[u8], number: u64, place: u64) {
    for n in [0, 1, 15, 16, usize::MAX] {
        t.same(|| format!("part {n} of {bytes:02x?}"), library::pattern_part(bytes, n), told(number, &[place]));
    }
}

fn edges() -> Tally {
    let mut t = Tally::new("order of pixels: edges, by every call that takes a book");
    let mut one = |pixels: &[(i64, i64)], number, value| everywhere(&mut t, &[pixels.to_vec()], number, value);
    // the figure, and as it was before
    one(&cross(), 0, 1);
    one(&[(0, 0), (-1, 0), (1, 0), (0, -1), (0, 1)], 19, 4);
    // the same row: the next column, the same pixel, the column before
    one(&[(3, 2), (4, 2)], 0, 1);
    one(&[(3, 2), (3, 2)], 4, 4);
    one(&[(3, 2), (2, 2)], 19, 4);
    one(&[(-1, 0), (0, 0)], 0, 1);
    one(&[(0, 0), (-1, 0)], 19, 4);
    // the next row and the row before, whatever the column
    for column in [-16, 2, 3, 4, 15] {
        one(&[(3, 2), (column, 3)], 0, 1);
        one(&[(3, 2), (column, 1)], 19, 4);
        one(&[(3, -1), (column, 0)], 0, 1);
        one(&[(3, 0), (column, -1)], 19, 4);
    }
    // the window's corners; the first pixel is never lower
    one(&[(-16, -16), (15, -16), (-16, -15), (15, 15)], 0, 1);
    for pair in [[(-16, -16), (15, -16)], [(15, -16), (-16, -15)], [(-16, -15), (15, 15)], [(-16, -16), (15, 15)]] {
        one(&pair[..1], 0, 1);
        one(&pair, 0, 1);
        one(&[pair[1], pair[0]], 19, 4);
    }
    // only the one just before counts: lower than it and higher than the first
    one(&[(0, 0), (2, 0), (1, 0)], 19, 6);
    one(&[(0, 0), (0, 2), (5, 1)], 19, 6);
    one(&[(0, 0), (2, 0), (3, 0), (1, 0)], 19, 8);
    // 4 before 19, for any earlier pixel
    one(&[(0, 0), (1, 0), (0, 0)], 4, 6);
    one(&[(0, 0), (1, 0), (2, 0), (1, 0)], 4, 8);
    one(&[(0, -1), (0, 0), (0, -1)], 4, 6);
    // 3 before both, the column's before the row's
    one(&[(0, 0), (-17, 0)], 3, 4);
    one(&[(0, 0), (16, -1)], 3, 4);
    one(&[(0, 0), (-1, -17)], 3, 5);
    one(&[(0, 0), (-17, -17)], 3, 4);
    one(&[(0, 0), (0, -128)], 3, 5);
    // the earlier pixel tells
    one(&[(1, 0), (0, 0), (16, 0)], 19, 4);
    one(&[(1, 0), (0, 0), (1, 0)], 19, 4);
    one(&[(1, 0), (1, 0), (0, 0)], 4, 4);
    one(&[(1, 0), (16, 0), (0, 0)], 3, 4);
    one(&[(-17, 0), (0, 0), (-1, 0)], 3, 2);
    // each pattern begins anew, and the earlier one tells
    let mut two = |first: &[(i64, i64)], second: &[(i64, i64)], number, value| {
        everywhere(&mut t, &[first.to_vec(), second.to_vec()], number, value);
    };
    two(&[(5, 5)], &[(5, 5)], 0, 2);
    two(&[(4, 5), (5, 5)], &[(5, 4), (4, 5)], 0, 2);
    two(&[(15, 15)], &[(-16, -16)], 0, 2);
    two(&[(0, 0), (1, 0)], &[(1, 0), (0, 0)], 19, 9);
    two(&[(0, 0)], &[(0, 0), (1, 0), (0, -1)], 19, 9);
    two(&[(1, 0), (0, 0)], &[(1, 0), (0, 0)], 19, 4);
    two(&[(1, 0), (0, 0)], &[(0, 0), (0, 0)], 19, 4);
    two(&[(1, 0), (0, 0)], &[(16, 0)], 19, 4);
    two(&[(1, 0), (1, 0)], &[(1, 0), (0, 0)], 4, 4);
    two(&[(0, 16)], &[(1, 0), (0, 0)], 3, 3);
    // an empty pattern, and one too long
    let long: Pattern = (0..65).map(|k| (k % 16, k / 16)).collect();
    for wrong in [&[], &long[..]] {
        two(&[(1, 0), (0, 0)], wrong, 19, 4);
        two(wrong, &[(1, 0), (0, 0)], 2, 1);
    }
    t
}

// Bytes that are no patterns: the end of the book, and what comes behind it.
fn ends() -> Tally {
    let mut t = Tally::new("order of pixels: before and after what is wrong in the bytes");
    let mut case = |bytes: &[u8], number, place| {
        expect(&mut t, bytes, number, place);
        parts_refused(&mut t, bytes, number, place);
        t.same(|| format!("{bytes:02x?}"), program::run([bytes.to_vec()]), (format!("refused {number}\n"), true));
    };
    // no third pixel, no second pattern, no row
    case(&[1, 3, 1, 0, 0, 0], 19, 4);
    case(&[1, 3, 0, 0, 1, 0], 1, 6);
    case(&[1, 3, 1, 0, 0, 0, 0], 19, 4);
    case(&[2, 2, 1, 0, 0, 0], 19, 4);
    case(&[1, 2, 1, 0, 0], 1, 5);
    case(&[1, 3, 0, 0, 1, 0, 0xff], 1, 7);
    // bytes behind, wrong counts behind and before
    case(&[1, 2, 1, 0, 0, 0, 9], 19, 4);
    case(&[2, 2, 1, 0, 0, 0, 0], 19, 4);
    case(&[2, 2, 1, 0, 0, 0, 65], 19, 4);
    case(&[2, 2, 0, 0, 1, 0, 65, 1, 0, 0, 0], 2, 6);
    case(&[2, 65, 1, 0, 0, 0], 2, 1);
    case(&[17, 2, 1, 0, 0, 0], 2, 0);
    // in the second pattern
    case(&[2, 1, 0, 0, 2, 1, 0, 0, 0], 19, 7);
    case(&[2, 1, 0, 0, 2, 1, 0, 0, 0, 0], 19, 7);
    case(&[3, 1, 0, 0, 2, 1, 0, 0, 0], 19, 7);
    case(&[2, 1, 0, 0, 2, 1, 0, 0], 1, 8);
    t
}

pub fn run() -> Vec<Tally> {
    vec![edges(), ends()]
}
