//! The static library's functions, each behind a safe function that lends it slices and arrays and gives back what it told, as
//! it stands in the answer. They are declared in bindings/bankplan.rs, whose own safe functions are tested in wrapper.rs.

#[path = "../bindings/bankplan.rs"]
pub mod bankplan;

use bankplan::raw::*;
pub use bankplan::{Book as Record, PixelRecord, Plan};

/// What a call said: the number, 0 where it was not refused, and the row of numbers that it put.
#[derive(Clone, Debug, PartialEq)]
pub struct Told {
    pub number: u64,
    pub row: Vec<u64>,
}

// What stands in the answer before a call; no call gives it.
const UNTOUCHED: u64 = 0xabad_1dea_abad_1dea;

// Calls with a fresh answer and takes off what the call left untouched.
fn told(call: impl FnOnce(&mut [u64; 12]) -> u64) -> Told {
    let mut answer = [UNTOUCHED; 12];
    let number = call(&mut answer);
    let mut row = answer.to_vec();
    while row.last() == Some(&UNTOUCHED) {
        row.pop();
    }
    Told { number, row }
}

pub fn normal_form(x: (i16, i16), y: (i16, i16)) -> Told {
    told(|t| unsafe { bankplan_normal_form(x.0, x.1, y.0, y.1, t) })
}

pub fn bank(p: Plan, v: (i16, i16)) -> Told {
    told(|t| unsafe { bankplan_bank(p.a, p.b, p.d, v.0, v.1, t) })
}

pub fn depth(p: Plan, w: u32, h: u32) -> Told {
    told(|t| unsafe { bankplan_depth(p.a, p.b, p.d, w, h, t) })
}

pub fn address(p: Plan, w: u32, h: u32, v: (i16, i16)) -> Told {
    told(|t| unsafe { bankplan_address(p.a, p.b, p.d, w, h, v.0, v.1, t) })
}

pub fn locate(p: Plan, w: u32, h: u32, bank: u64, address: u64) -> Told {
    told(|t| unsafe { bankplan_locate(p.a, p.b, p.d, w, h, bank, address, t) })
}

/// Reads a book into the record given, whose arrays are as they were where the call is refused. The count is told.
pub fn read_book(bytes: &[u8], into: &mut Record) -> Told {
    let Record { columns, rows, used, .. } = into;
    told(|t| unsafe { bankplan_read_book(bytes.as_ptr(), bytes.len(), columns, rows, used, t) })
}

/// The place and the length of a pattern's part.
pub fn pattern_part(bytes: &[u8], n: usize) -> Told {
    told(|t| unsafe { bankplan_pattern_part(bytes.as_ptr(), bytes.len(), n, t) })
}

pub fn write_book(r: &Record, out: &mut [u8]) -> Told {
    told(|t| unsafe { bankplan_write_book(&r.columns, &r.rows, &r.used, r.count, out.as_mut_ptr(), out.len(), t) })
}

pub fn test_record(r: &Record) -> Told {
    told(|t| unsafe { bankplan_test_record(&r.columns, &r.rows, &r.used, r.count, t) })
}

pub fn find(book: &Record, r: u32, limit: u32) -> Told {
    let Record { columns, rows, used, count } = book;
    told(|t| unsafe { bankplan_find(columns, rows, used, *count, r, limit, t) })
}

pub fn check(book: &Record, r: u32, x: (i16, i16), y: (i16, i16)) -> Told {
    let Record { columns, rows, used, count } = book;
    told(|t| unsafe { bankplan_check(columns, rows, used, *count, r, x.0, x.1, y.0, y.1, t) })
}

/// Writes the cycles of pattern n of a record; their count is told.
pub fn write_cycles(book: &Record, r: u32, p: Plan, n: usize, out: &mut [u8]) -> Told {
    let Record { columns, rows, used, count } = book;
    let (out, room) = (out.as_mut_ptr(), out.len());
    told(|t| unsafe { bankplan_write_cycles(columns, rows, used, *count, r, p.a, p.b, p.d, n, out, room, t) })
}

pub fn store(p: Plan, w: u32, h: u32, mem: &mut [u16], sums: &mut [u64], v: (i16, i16), x: u16) -> Told {
    let (mem, words, sums, entries) = (mem.as_mut_ptr(), mem.len(), sums.as_mut_ptr(), sums.len());
    told(|t| unsafe { bankplan_store(p.a, p.b, p.d, w, h, mem, words, sums, entries, v.0, v.1, x, t) })
}

pub fn load(p: Plan, w: u32, h: u32, mem: &[u16], v: (i16, i16)) -> Told {
    told(|t| unsafe { bankplan_load(p.a, p.b, p.d, w, h, mem.as_ptr(), mem.len(), v.0, v.1, t) })
}

pub fn clear(p: Plan, w: u32, h: u32, mem: &mut [u16], sums: &mut [u64], bank: u64) -> Told {
    let (mem, words, sums, entries) = (mem.as_mut_ptr(), mem.len(), sums.as_mut_ptr(), sums.len());
    told(|t| unsafe { bankplan_clear(p.a, p.b, p.d, w, h, mem, words, sums, entries, bank, t) })
}

pub fn sum(p: Plan, w: u32, h: u32, mem: &[u16], bank: u64) -> Told {
    told(|t| unsafe { bankplan_sum(p.a, p.b, p.d, w, h, mem.as_ptr(), mem.len(), bank, t) })
}

pub fn make_sums(p: Plan, w: u32, h: u32, mem: &[u16], sums: &mut [u64]) -> Told {
    let (mem, words, sums, entries) = (mem.as_ptr(), mem.len(), sums.as_mut_ptr(), sums.len());
    told(|t| unsafe { bankplan_make_sums(p.a, p.b, p.d, w, h, mem, words, sums, entries, t) })
}

pub fn read_sum(p: Plan, sums: &[u64], bank: u64) -> Told {
    told(|t| unsafe { bankplan_read_sum(p.a, p.b, p.d, sums.as_ptr(), sums.len(), bank, t) })
}

/// Fetches pattern n of a record, moved to o; the count of words is told.
#[rustfmt::skip]
pub fn fetch(
    book: &Record, r: u32, p: Plan, w: u32, h: u32, mem: &[u16], n: usize, o: (i16, i16), out: &mut [u16],
) -> Told {
    let Record { columns, rows, used, count } = book;
    let (words, room) = (mem.len(), out.len());
    let (mem, out) = (mem.as_ptr(), out.as_mut_ptr());
    told(|t| unsafe {
        bankplan_fetch(columns, rows, used, *count, r, p.a, p.b, p.d, w, h, mem, words, n, o.0, o.1, out, room, t)
    })
}

/// The same with columns modulo W and rows modulo H.
#[rustfmt::skip]
pub fn ring_fetch(
    book: &Record, r: u32, p: Plan, w: u32, h: u32, mem: &[u16], n: usize, o: (i16, i16), out: &mut [u16],
) -> Told {
    let Record { columns, rows, used, count } = book;
    let (words, room) = (mem.len(), out.len());
    let (mem, out) = (mem.as_ptr(), out.as_mut_ptr());
    told(|t| unsafe {
        bankplan_ring_fetch(columns, rows, used, *count, r, p.a, p.b, p.d, w, h, mem, words, n, o.0, o.1, out, room, t)
    })
}

/// Makes a list of calls in numbers under a plan.
#[rustfmt::skip]
pub fn run_list(
    book: &Record, r: u32, p: Plan, w: u32, h: u32, mem: &mut [u16], sums: &mut [u64],
    numbers: &[u64], outs: &mut [u16], replies: &mut [u64],
) -> Told {
    let Record { columns, rows, used, count } = book;
    told(|t| unsafe {
        bankplan_run_list(
            columns, rows, used, *count, r, p.a, p.b, p.d, w, h, mem.as_mut_ptr(), mem.len(), sums.as_mut_ptr(), sums.len(),
            numbers.as_ptr(), numbers.len(), outs.as_mut_ptr(), outs.len(), replies.as_mut_ptr(), replies.len(), t,
        )
    })
}

/// Finds a plan within the limit and makes a list of calls under it; the plan is told.
#[rustfmt::skip]
pub fn find_and_run(
    book: &Record, r: u32, limit: u32, w: u32, h: u32, mem: &mut [u16], sums: &mut [u64],
    numbers: &[u64], outs: &mut [u16], replies: &mut [u64],
) -> Told {
    let Record { columns, rows, used, count } = book;
    told(|t| unsafe {
        bankplan_find_and_run(
            columns, rows, used, *count, r, limit, w, h, mem.as_mut_ptr(), mem.len(), sums.as_mut_ptr(), sums.len(),
            numbers.as_ptr(), numbers.len(), outs.as_mut_ptr(), outs.len(), replies.as_mut_ptr(), replies.len(), t,
        )
    })
}

/// Fills in a record list.
pub fn fill_records(p: Plan, w: u32, h: u32, list: &mut [PixelRecord]) -> Told {
    told(|t| unsafe { bankplan_fill_records(p.a, p.b, p.d, w, h, list.as_mut_ptr(), list.len(), t) })
}
