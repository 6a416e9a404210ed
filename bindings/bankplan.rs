//! Bank plans for image buffers: safe functions over the static library `capi`. Its functions themselves are declared in `raw`;
//! `include/bankplan.h` says what each is given and tells, and by which numbers it refuses, and in which order.
//!
//! Any numbers, bytes and records can be handed in: each call tests them itself, answers by `Refused` where document 01 or a
//! request of document 02 turns it down, and then leaves what it was lent as it was. No function here panics.

use std::fmt;
use std::mem::{offset_of, size_of};

/// The version of this file, and of the library that is built from the same tree.
pub const VERSION: &str = "0.7.0";

/// The banks of a plan, the finder's limit and a determinant's size, at most.
pub const MAX_BANKS: u32 = 1024;
/// The pixels of a pattern, so the words of a fetch, at most.
pub const MAX_PIXELS: usize = 64;
/// The patterns of a book, at most.
pub const MAX_PATTERNS: usize = 16;
/// The bytes of the longest book.
pub const MAX_BOOK_BYTES: usize = 2065;
/// The width or height of a picture, at most.
pub const MAX_SIDE: u32 = 4096;
/// The cycles of a pattern, r, at most.
pub const MAX_CYCLES: u32 = 8;
/// The least and the greatest column or row of a pattern's pixel.
pub const LEAST_COORDINATE: i8 = -16;
pub const GREATEST_COORDINATE: i8 = 15;
/// The entries of a book record's columns, and of its rows.
pub const ENTRIES: usize = 1024;
/// The numbers of an answer.
pub const ANSWER_NUMBERS: usize = 12;

// How they hang together: the window of all coordinates has as many pixels as a plan may have banks, and a picture's pixels
// have 16-bit coordinates. A clash has one position more than there are cycles; place and pattern stand before it in an answer.
const _: () = assert!(ENTRIES == MAX_PATTERNS * MAX_PIXELS && MAX_BOOK_BYTES == 1 + MAX_PATTERNS * (1 + 2 * MAX_PIXELS));
const _: () = assert!(MAX_BANKS == (GREATEST_COORDINATE as i32 - LEAST_COORDINATE as i32 + 1).pow(2) as u32);
const _: () = assert!(MAX_SIDE <= i16::MAX as u32 && 2 + CLASH_PIXELS <= ANSWER_NUMBERS && 3 + CLASH_PIXELS <= REPLY_NUMBERS);

// A count, a place or a length passes as 64 bits, a pixel record as 12 bytes.
const _: () = assert!(usize::BITS == 64 && size_of::<PixelRecord>() == 12);
const _: () = assert!(offset_of!(PixelRecord, column) == 0 && offset_of!(PixelRecord, row) == 2);
const _: () = assert!(offset_of!(PixelRecord, bank) == 4 && offset_of!(PixelRecord, address) == 8);

/// The library's functions. A slice passes as a pointer and then its length, an array as a pointer.
#[rustfmt::skip]
pub mod raw {
    use super::PixelRecord;

    unsafe extern "C" {
        pub fn bankplan_normal_form(x1: i16, x2: i16, y1: i16, y2: i16, answer: &mut [u64; 12]) -> u64;
        pub fn bankplan_bank(a: u32, b: u32, d: u32, i: i16, j: i16, answer: &mut [u64; 12]) -> u64;
        pub fn bankplan_depth(a: u32, b: u32, d: u32, w: u32, h: u32, answer: &mut [u64; 12]) -> u64;
        pub fn bankplan_address(a: u32, b: u32, d: u32, w: u32, h: u32, i: i16, j: i16, answer: &mut [u64; 12]) -> u64;
        pub fn bankplan_locate(a: u32, b: u32, d: u32, w: u32, h: u32, k: u64, i: u64, answer: &mut [u64; 12]) -> u64;
        pub fn bankplan_read_book(
            s: *const u8, s_length: usize,
            columns: &mut [i8; 1024], rows: &mut [i8; 1024], used: &mut [usize; 16], answer: &mut [u64; 12],
        ) -> u64;
        pub fn bankplan_pattern_part(s: *const u8, s_length: usize, n: usize, answer: &mut [u64; 12]) -> u64;
        pub fn bankplan_write_book(
            columns: &[i8; 1024], rows: &[i8; 1024], used: &[usize; 16], count: usize,
            out: *mut u8, out_length: usize, answer: &mut [u64; 12],
        ) -> u64;
        pub fn bankplan_test_record(
            columns: &[i8; 1024], rows: &[i8; 1024], used: &[usize; 16], count: usize, answer: &mut [u64; 12],
        ) -> u64;
        pub fn bankplan_find(
            columns: &[i8; 1024], rows: &[i8; 1024], used: &[usize; 16], count: usize,
            r: u32, limit: u32, answer: &mut [u64; 12],
        ) -> u64;
        pub fn bankplan_check(
            columns: &[i8; 1024], rows: &[i8; 1024], used: &[usize; 16], count: usize,
            r: u32, x1: i16, x2: i16, y1: i16, y2: i16, answer: &mut [u64; 12],
        ) -> u64;
        pub fn bankplan_write_cycles(
            columns: &[i8; 1024], rows: &[i8; 1024], used: &[usize; 16], count: usize,
            r: u32, a: u32, b: u32, d: u32, n: usize, out: *mut u8, out_length: usize, answer: &mut [u64; 12],
        ) -> u64;
        pub fn bankplan_store(
            a: u32, b: u32, d: u32, w: u32, h: u32, mem: *mut u16, mem_length: usize, sums: *mut u64, sums_length: usize,
            i: i16, j: i16, x: u16, answer: &mut [u64; 12],
        ) -> u64;
        pub fn bankplan_load(
            a: u32, b: u32, d: u32, w: u32, h: u32, mem: *const u16, mem_length: usize,
            i: i16, j: i16, answer: &mut [u64; 12],
        ) -> u64;
        pub fn bankplan_clear(
            a: u32, b: u32, d: u32, w: u32, h: u32, mem: *mut u16, mem_length: usize, sums: *mut u64, sums_length: usize,
            k: u64, answer: &mut [u64; 12],
        ) -> u64;
        pub fn bankplan_sum(
            a: u32, b: u32, d: u32, w: u32, h: u32, mem: *const u16, mem_length: usize, k: u64, answer: &mut [u64; 12],
        ) -> u64;
        pub fn bankplan_make_sums(
            a: u32, b: u32, d: u32, w: u32, h: u32, mem: *const u16, mem_length: usize, sums: *mut u64, sums_length: usize,
            answer: &mut [u64; 12],
        ) -> u64;
        pub fn bankplan_read_sum(
            a: u32, b: u32, d: u32, sums: *const u64, sums_length: usize, k: u64, answer: &mut [u64; 12],
        ) -> u64;
        pub fn bankplan_fetch(
            columns: &[i8; 1024], rows: &[i8; 1024], used: &[usize; 16], count: usize,
            r: u32, a: u32, b: u32, d: u32, w: u32, h: u32, mem: *const u16, mem_length: usize,
            n: usize, i: i16, j: i16, out: *mut u16, out_length: usize, answer: &mut [u64; 12],
        ) -> u64;
        pub fn bankplan_ring_fetch(
            columns: &[i8; 1024], rows: &[i8; 1024], used: &[usize; 16], count: usize,
            r: u32, a: u32, b: u32, d: u32, w: u32, h: u32, mem: *const u16, mem_length: usize,
            n: usize, i: i16, j: i16, out: *mut u16, out_length: usize, answer: &mut [u64; 12],
        ) -> u64;
        pub fn bankplan_run_list(
            columns: &[i8; 1024], rows: &[i8; 1024], used: &[usize; 16], count: usize,
            r: u32, a: u32, b: u32, d: u32, w: u32, h: u32,
            mem: *mut u16, mem_length: usize, sums: *mut u64, sums_length: usize,
            numbers: *const u64, numbers_length: usize, outs: *mut u16, outs_length: usize,
            replies: *mut u64, replies_length: usize, answer: &mut [u64; 12],
        ) -> u64;
        pub fn bankplan_find_and_run(
            columns: &[i8; 1024], rows: &[i8; 1024], used: &[usize; 16], count: usize,
            r: u32, limit: u32, w: u32, h: u32, mem: *mut u16, mem_length: usize, sums: *mut u64, sums_length: usize,
            numbers: *const u64, numbers_length: usize, outs: *mut u16, outs_length: usize,
            replies: *mut u64, replies_length: usize, answer: &mut [u64; 12],
        ) -> u64;
        pub fn bankplan_fill_records(
            a: u32, b: u32, d: u32, w: u32, h: u32, list: *mut PixelRecord, list_length: usize, answer: &mut [u64; 12],
        ) -> u64;
    }
}

/// A plan. Any three numbers can stand here; a call refuses by 11 those that are no plan.
#[derive(Clone, Copy, Debug, PartialEq, Eq)]
pub struct Plan {
    pub a: u32,
    pub b: u32,
    pub d: u32,
}

/// A plan and how many banks it has above the least count for its r.
#[derive(Clone, Copy, Debug, PartialEq, Eq)]
pub struct Checked {
    pub plan: Plan,
    pub surplus: u32,
}

/// The positions of a clash, at most.
const CLASH_PIXELS: usize = MAX_CYCLES as usize + 1;

/// More than r pixels of one pattern in one bank: the pattern's number, and the positions of r + 1 of them, ascending. All are
/// counted from 0.
#[derive(Clone, Copy, PartialEq, Eq)]
pub struct Clash {
    pub pattern: usize,
    // the first `count`; the others are 0
    positions: [usize; CLASH_PIXELS],
    count: usize,
}

impl Clash {
    /// The clash of a pattern at these positions; those past the ninth do not count.
    pub fn new(pattern: usize, positions: &[usize]) -> Clash {
        let mut clash = Clash { pattern, positions: [0; CLASH_PIXELS], count: positions.len().min(CLASH_PIXELS) };
        clash.positions.iter_mut().zip(positions).for_each(|(to, from)| *to = *from);
        clash
    }

    /// The positions, r + 1 of them.
    pub fn positions(&self) -> &[usize] {
        self.positions.get(..self.count).unwrap_or_default()
    }

    // The clash in a row, behind the place. Positions ascend, so what is not above the one before it is none.
    fn of(row: &[u64]) -> Clash {
        let at = |k: usize| row.get(k).map_or(0, |&x| x as usize);
        let mut clash = Clash::new(at(1), &[at(2)]);
        while clash.count < CLASH_PIXELS && at(2 + clash.count) > at(1 + clash.count) {
            clash.positions[clash.count] = at(2 + clash.count);
            clash.count += 1;
        }
        clash
    }
}

impl fmt::Debug for Clash {
    fn fmt(&self, f: &mut fmt::Formatter) -> fmt::Result {
        f.debug_struct("Clash").field("pattern", &self.pattern).field("positions", &self.positions()).finish()
    }
}

/// A book record. Pattern n has the entries 64 × n to 64 × n + 63 of columns and rows, of which the first used[n] count; of the
/// patterns the first `count` count. The pixels of a pattern ascend by row, then by column. Any numbers can stand here; a call
/// refuses by 2, 3, 4, 19 those that are no book.
#[derive(Clone, Debug, PartialEq, Eq)]
pub struct Book {
    pub columns: [i8; ENTRIES],
    pub rows: [i8; ENTRIES],
    pub used: [usize; MAX_PATTERNS],
    pub count: usize,
}

/// A picture's plan and sides; its memory, and the sums of its banks where a call changes or reads them, are lent to each call.
/// Sides that are not 1 to 4096 are refused by 12.
///
/// Entry k of the sums is that of bank k, and entries past N are never touched. From a `make_sums` that was not refused on, each
/// is the figure that `sum` walks for, as long as the memory and the sums change only through these calls, all under one plan and
/// one size of picture.
#[derive(Clone, Copy, Debug, PartialEq, Eq)]
pub struct Picture {
    pub plan: Plan,
    pub width: u32,
    pub height: u32,
}

/// A row of a record list: a pixel, and the bank and address that a call fills in.
#[repr(C)]
#[derive(Clone, Copy, Debug, PartialEq, Eq)]
pub struct PixelRecord {
    pub column: i16,
    pub row: i16,
    pub bank: u32,
    pub address: u32,
}

/// A call of a list. Any numbers can stand here; a call that they do not suit is refused, and the list goes on.
#[derive(Clone, Copy, Debug, PartialEq, Eq)]
pub enum Call {
    /// Stores a word at a pixel and keeps its bank's sum.
    Store { pixel: (i16, i16), word: u16 },
    /// Puts 0 in every word of a bank and in its sum.
    Clear { bank: u64 },
    /// The word at a pixel.
    Load { pixel: (i16, i16) },
    /// The words of a pattern moved to a position, for an output of so many words.
    Fetch { pattern: usize, at: (i16, i16), room: usize },
    /// The same with columns modulo the width and rows modulo the height.
    RingFetch { pattern: usize, at: (i16, i16), room: usize },
    /// Makes the sums of all banks afresh from the memory.
    MakeSums,
    /// The sum of a bank's words, by a walk through them.
    Sum { bank: u64 },
    /// The sum that is kept of a bank, by a look-up.
    ReadSum { bank: u64 },
}

/// What a call of a list gave.
#[derive(Clone, Debug, PartialEq, Eq)]
pub enum Reply {
    /// A store or a clear was done, or the sums were made afresh.
    Done,
    /// The word that a load gave.
    Word(u16),
    /// The words that a fetch or a ring fetch gave, in the book's pixel order.
    Words(Vec<u16>),
    /// The sum of a bank, walked for or read.
    Sum(u64),
    /// The call was turned down, and changed nothing.
    Refused(Refused),
}

/// Why a list was not made. Then nothing was changed, and no call of it was made.
#[derive(Clone, Copy, Debug, PartialEq, Eq)]
pub enum NotMade {
    /// There is no plan: the finder's refusal, 2, 3, 4, 19, 6, 20 or 7.
    Refused(Refused),
    /// The five numbers from this place on are no call's, or fewer than five stand there. (255: document 01 has no number)
    NotCalls { place: usize },
    /// The outputs have not the room of all fetches, or the replies not twelve numbers to a call. (16)
    Short,
}

/// How many numbers a call and a reply have in a list, and the number for a list that is none.
pub const CALL_NUMBERS: usize = 5;
pub const REPLY_NUMBERS: usize = 12;
pub const NOT_CALLS: u64 = 255;

/// The first number of a call in a list.
pub const KIND_STORE: u64 = 0;
pub const KIND_CLEAR: u64 = 1;
pub const KIND_LOAD: u64 = 2;
pub const KIND_FETCH: u64 = 3;
pub const KIND_RING_FETCH: u64 = 4;
pub const KIND_MAKE_SUMS: u64 = 5;
pub const KIND_SUM: u64 = 6;
pub const KIND_READ_SUM: u64 = 7;

/// A call turned down: document 01's number, 1 to 18, or 19 or 20 of document 02; the place, a byte offset for 1 to 5 and 19 where
/// the call was given bytes, else 0; and the clash of 10.
#[derive(Clone, Copy, Debug, PartialEq, Eq)]
pub struct Refused {
    pub number: u64,
    pub place: usize,
    pub clash: Option<Clash>,
}

/// The conditions from 1 to 20: document 01's, and the last three of Cards 5, 3 and 4 in document 02. Card 6 adds the sums to 13.
pub const CONDITIONS: [&str; 20] = [
    "book ends early",
    "pattern count not 1-16 or pixel count not 1-64",
    "coordinate not -16..15",
    "pixel already in this pattern",
    "bytes after the last pattern",
    "limit not 1-1024",
    "no suiting plan within limit",
    "determinant 0",
    "determinant's size above 1024",
    "plan doesn't suit",
    "not a plan as defined",
    "W or H not 1-4096",
    "memory shorter than N × depth, or sums shorter than N",
    "pixel outside the picture",
    "bank ≥ N, address ≥ depth, or their pixel outside",
    "output too short",
    "pattern number not in the book",
    "(W, 0) or (0, H) not in the lattice",
    "pixel lower than the one before it, by row, then column",
    "r outside 1 to 8",
];

impl Refused {
    /// The condition that turned the call down.
    pub fn condition(&self) -> &'static str {
        let known = (self.number as usize).checked_sub(1).and_then(|k| CONDITIONS.get(k));
        let other = if self.number == NOT_CALLS { "not a list of calls" } else { "no such number" };
        known.copied().unwrap_or(other)
    }
}

impl fmt::Display for Refused {
    fn fmt(&self, f: &mut fmt::Formatter) -> fmt::Result {
        write!(f, "refused {}: {}", self.number, self.condition())?;
        match self.clash {
            Some(c) => write!(f, ", {c}"),
            None if self.place > 0 => write!(f, ", place {}", self.place),
            None => Ok(()),
        }
    }
}

// It reads like "pattern 0, positions 1, 4 and 7".
impl fmt::Display for Clash {
    fn fmt(&self, f: &mut fmt::Formatter) -> fmt::Result {
        let positions = self.positions();
        write!(f, "pattern {}, positions", self.pattern)?;
        for (k, position) in positions.iter().enumerate() {
            let before = match k {
                0 => " ",
                _ if k + 1 < positions.len() => ", ",
                _ => " and ",
            };
            write!(f, "{before}{position}")?;
        }
        Ok(())
    }
}

impl std::error::Error for Refused {}

impl fmt::Display for NotMade {
    fn fmt(&self, f: &mut fmt::Formatter) -> fmt::Result {
        match self {
            NotMade::Refused(refused) => write!(f, "list not made: {refused}"),
            NotMade::NotCalls { place } => write!(f, "list not made: the numbers from place {place} on are no call's"),
            NotMade::Short => write!(f, "list not made: outputs or replies too short"),
        }
    }
}

impl std::error::Error for NotMade {}

// What a function that makes a list refused by.
impl From<Refused> for NotMade {
    fn from(refused: Refused) -> NotMade {
        match refused.number {
            NOT_CALLS => NotMade::NotCalls { place: refused.place },
            16 => NotMade::Short,
            _ => NotMade::Refused(refused),
        }
    }
}

// Why each call below is sound: the function takes every value. References and slices are not null, aligned, and as long as
// they say, and what is lent for writing overlaps nothing else that is lent.

// Calls, and gives the values told or the refusal.
fn told(call: impl FnOnce(&mut [u64; ANSWER_NUMBERS]) -> u64) -> Result<[u64; ANSWER_NUMBERS], Refused> {
    let mut answer = [0; ANSWER_NUMBERS];
    let number = call(&mut answer);
    if number == 0 { Ok(answer) } else { Err(refused(number, &answer)) }
}

// The refusal of this number, with its place and its clash in a row.
fn refused(number: u64, row: &[u64]) -> Refused {
    let place = row.first().map_or(0, |&x| x as usize);
    Refused { number, place, clash: (number == 10).then(|| Clash::of(row)) }
}

fn plan_of(answer: [u64; ANSWER_NUMBERS]) -> Plan {
    let [a, b, d, ..] = answer.map(|x| x as u32);
    Plan { a, b, d }
}

/// The book of these bytes; unused entries are 0. Refused by 1 to 5 and 19.
pub fn read_book(bytes: &[u8]) -> Result<Book, Refused> {
    let mut book = Book { columns: [0; ENTRIES], rows: [0; ENTRIES], used: [0; MAX_PATTERNS], count: 0 };
    let Book { columns, rows, used, .. } = &mut book;
    let answer = told(|t| unsafe { raw::bankplan_read_book(bytes.as_ptr(), bytes.len(), columns, rows, used, t) })?;
    book.count = answer[0] as usize;
    Ok(book)
}

/// The pixel bytes of pattern n, where they stand in the bytes of a book. Refused by 1 to 5, 19 and 17.
pub fn pattern_part(bytes: &[u8], n: usize) -> Result<&[u8], Refused> {
    let [place, length, ..] = told(|t| unsafe { raw::bankplan_pattern_part(bytes.as_ptr(), bytes.len(), n, t) })?;
    let part = bytes.get(place as usize..).and_then(|rest| rest.get(..length as usize));
    Ok(part.unwrap_or_default())
}

/// The plan of the lattice of two vectors. Refused by 8 and 9.
pub fn normal_form(x: (i16, i16), y: (i16, i16)) -> Result<Plan, Refused> {
    told(|t| unsafe { raw::bankplan_normal_form(x.0, x.1, y.0, y.1, t) }).map(plan_of)
}

impl Plan {
    /// The bank count N = a × d.
    pub fn banks(self) -> u64 {
        u64::from(self.a) * u64::from(self.d)
    }

    /// The bank of a pixel, inside a picture or not. Refused by 11.
    pub fn bank(self, (i, j): (i16, i16)) -> Result<u64, Refused> {
        told(|t| unsafe { raw::bankplan_bank(self.a, self.b, self.d, i, j, t) }).map(|r| r[0])
    }

    /// The sum that is kept of a bank, by a look-up; `Picture::sum` walks. Refused by 11, 13, 15. It goes by no sides, so 12 is
    /// never told.
    pub fn read_sum(self, sums: &[u64], bank: u64) -> Result<u64, Refused> {
        let Plan { a, b, d } = self;
        told(|t| unsafe { raw::bankplan_read_sum(a, b, d, sums.as_ptr(), sums.len(), bank, t) }).map(|r| r[0])
    }
}

impl Book {
    /// The book of patterns given by their pixels, column and row. Refused by 2, 3, 4, 19. They are put as they are given: sort a
    /// pattern's pixels first, by `pixels.sort_by_key(|&(column, row)| (row, column))`, or 19 turns down one that is out of order.
    pub fn new<P: AsRef<[(i8, i8)]>>(patterns: &[P]) -> Result<Book, Refused> {
        let mut book = Book { columns: [0; ENTRIES], rows: [0; ENTRIES], used: [0; MAX_PATTERNS], count: patterns.len() };
        for (n, pattern) in patterns.iter().take(MAX_PATTERNS).enumerate() {
            let pixels = pattern.as_ref();
            book.used[n] = pixels.len();
            for (e, &(column, row)) in pixels.iter().take(MAX_PIXELS).enumerate() {
                book.columns[MAX_PIXELS * n + e] = column;
                book.rows[MAX_PIXELS * n + e] = row;
            }
        }
        // what does not fit is refused by its count
        book.test().map(|()| book)
    }

    /// The pixels of pattern n. None where n is not below the pattern count and 16, or its count is above 64.
    pub fn pattern(&self, n: usize) -> Option<impl Iterator<Item = (i8, i8)> + '_> {
        let used = self.used.get(n).copied().filter(|&used| n < self.count && used <= MAX_PIXELS)?;
        let entries = MAX_PIXELS * n..MAX_PIXELS * n + used;
        Some(entries.map(|e| (self.columns[e], self.rows[e])))
    }

    /// Whether the record is a book. Refused by 2, 3, 4, 19.
    pub fn test(&self) -> Result<(), Refused> {
        told(|t| unsafe { raw::bankplan_test_record(&self.columns, &self.rows, &self.used, self.count, t) }).map(|_| ())
    }

    /// Puts the book's bytes at the start of the output, and gives their count. Refused by 2, 3, 4, 19, 16.
    pub fn write(&self, out: &mut [u8]) -> Result<usize, Refused> {
        let Book { columns, rows, used, count } = self;
        let (out, length) = (out.as_mut_ptr(), out.len());
        told(|t| unsafe { raw::bankplan_write_book(columns, rows, used, *count, out, length, t) }).map(|r| r[0] as usize)
    }

    /// The plan with the fewest banks within the limit that suits for r; of several the one with the least b, then the least d.
    /// Refused by 2, 3, 4, 19, 6, 20, 7.
    pub fn find(&self, r: u32, limit: u32) -> Result<Plan, Refused> {
        told(|t| unsafe { raw::bankplan_find(&self.columns, &self.rows, &self.used, self.count, r, limit, t) }).map(plan_of)
    }

    /// The verdict for r on a supplier's two vectors: their plan and its surplus. Refused by 2, 3, 4, 19, 20, 8, 9, and by 10 with
    /// a clash.
    pub fn check(&self, r: u32, x: (i16, i16), y: (i16, i16)) -> Result<Checked, Refused> {
        let Book { columns, rows, used, count } = self;
        let answer = told(|t| unsafe { raw::bankplan_check(columns, rows, used, *count, r, x.0, x.1, y.0, y.1, t) })?;
        Ok(Checked { plan: plan_of(answer), surplus: answer[3] as u32 })
    }

    /// Puts the cycle of each pixel of pattern n under a plan at the start of the output, a byte each in the book's pixel order,
    /// and gives their count. Refused by 2, 3, 4, 19, 20, 11, 17, 10, 16.
    pub fn write_cycles(&self, r: u32, plan: Plan, n: usize, out: &mut [u8]) -> Result<usize, Refused> {
        let (Book { columns, rows, used, count }, Plan { a, b, d }) = (self, plan);
        let (out, length) = (out.as_mut_ptr(), out.len());
        let call = |t: &mut _| unsafe { raw::bankplan_write_cycles(columns, rows, used, *count, r, a, b, d, n, out, length, t) };
        told(call).map(|r| r[0] as usize)
    }
}

impl Picture {
    /// The words of one bank; the memory needs N × depth. Refused by 11, 12.
    pub fn depth(self) -> Result<u64, Refused> {
        let Picture { plan: p, width: w, height: h } = self;
        told(|t| unsafe { raw::bankplan_depth(p.a, p.b, p.d, w, h, t) }).map(|r| r[0])
    }

    /// The address of a pixel in its bank. Refused by 11, 12, 14.
    pub fn address(self, (i, j): (i16, i16)) -> Result<u64, Refused> {
        let Picture { plan: p, width: w, height: h } = self;
        told(|t| unsafe { raw::bankplan_address(p.a, p.b, p.d, w, h, i, j, t) }).map(|r| r[0])
    }

    /// The pixel of a bank and an address. Refused by 11, 12, 15.
    pub fn locate(self, bank: u64, address: u64) -> Result<(i16, i16), Refused> {
        let Picture { plan: p, width: w, height: h } = self;
        told(|t| unsafe { raw::bankplan_locate(p.a, p.b, p.d, w, h, bank, address, t) }).map(|r| (r[0] as i16, r[1] as i16))
    }

    /// Stores a word at a pixel; takes the old word off its bank's sum and adds the new one, modulo 2^64. Refused by 11, 12, 13
    /// (also where the sums are too short), 14.
    pub fn store(self, mem: &mut [u16], sums: &mut [u64], (i, j): (i16, i16), word: u16) -> Result<(), Refused> {
        let Picture { plan: p, width: w, height: h } = self;
        let (mem, words, sums, entries) = (mem.as_mut_ptr(), mem.len(), sums.as_mut_ptr(), sums.len());
        told(|t| unsafe { raw::bankplan_store(p.a, p.b, p.d, w, h, mem, words, sums, entries, i, j, word, t) }).map(|_| ())
    }

    /// The word at a pixel. Refused by 11, 12, 13, 14.
    pub fn load(self, mem: &[u16], (i, j): (i16, i16)) -> Result<u16, Refused> {
        let Picture { plan: p, width: w, height: h } = self;
        told(|t| unsafe { raw::bankplan_load(p.a, p.b, p.d, w, h, mem.as_ptr(), mem.len(), i, j, t) }).map(|r| r[0] as u16)
    }

    /// Puts 0 in every word of a bank and in its sum. Refused by 11, 12, 13 (also where the sums are too short), 15.
    pub fn clear(self, mem: &mut [u16], sums: &mut [u64], bank: u64) -> Result<(), Refused> {
        let Picture { plan: p, width: w, height: h } = self;
        let (mem, words, sums, entries) = (mem.as_mut_ptr(), mem.len(), sums.as_mut_ptr(), sums.len());
        told(|t| unsafe { raw::bankplan_clear(p.a, p.b, p.d, w, h, mem, words, sums, entries, bank, t) }).map(|_| ())
    }

    /// The sum of a bank's words, by a walk through them; `Plan::read_sum` looks up the one that is kept. Refused by 11, 12, 13, 15.
    pub fn sum(self, mem: &[u16], bank: u64) -> Result<u64, Refused> {
        let Picture { plan: p, width: w, height: h } = self;
        told(|t| unsafe { raw::bankplan_sum(p.a, p.b, p.d, w, h, mem.as_ptr(), mem.len(), bank, t) }).map(|r| r[0])
    }

    /// Makes the sums of all banks afresh from the memory, whatever they were. Refused by 11, 12, 13 (also where the sums are too
    /// short).
    pub fn make_sums(self, mem: &[u16], sums: &mut [u64]) -> Result<(), Refused> {
        let Picture { plan: p, width: w, height: h } = self;
        let (mem, words, sums, entries) = (mem.as_ptr(), mem.len(), sums.as_mut_ptr(), sums.len());
        told(|t| unsafe { raw::bankplan_make_sums(p.a, p.b, p.d, w, h, mem, words, sums, entries, t) }).map(|_| ())
    }

    /// Puts the words of pattern n, moved to (i, j), at the start of the output in the book's pixel order, and gives their
    /// count. Refused by 2, 3, 4, 19, 20, 11, 12, 13, 17, 10, 14, 16.
    pub fn fetch(self, book: &Book, r: u32, mem: &[u16], n: usize, (i, j): (i16, i16), out: &mut [u16]) -> Result<usize, Refused> {
        let Picture { plan: Plan { a, b, d }, width: w, height: h } = self;
        let Book { columns, rows, used, count } = book;
        let (words, mem, room, out) = (mem.len(), mem.as_ptr(), out.len(), out.as_mut_ptr());
        let call = |t: &mut _| unsafe {
            raw::bankplan_fetch(columns, rows, used, *count, r, a, b, d, w, h, mem, words, n, i, j, out, room, t)
        };
        told(call).map(|r| r[0] as usize)
    }

    /// The same with columns modulo the width and rows modulo the height. Refused by 2, 3, 4, 19, 20, 11, 12, 13, 17, 10, 18, 16. It
    /// is allowed, and not refused by 18, exactly if a divides the width, d divides the height, and a divides b × (height/d).
    pub fn ring_fetch(
        self,
        book: &Book,
        r: u32,
        mem: &[u16],
        n: usize,
        (i, j): (i16, i16),
        out: &mut [u16],
    ) -> Result<usize, Refused> {
        let Picture { plan: Plan { a, b, d }, width: w, height: h } = self;
        let Book { columns, rows, used, count } = book;
        let (words, mem, room, out) = (mem.len(), mem.as_ptr(), out.len(), out.as_mut_ptr());
        let call = |t: &mut _| unsafe {
            raw::bankplan_ring_fetch(columns, rows, used, *count, r, a, b, d, w, h, mem, words, n, i, j, out, room, t)
        };
        told(call).map(|r| r[0] as usize)
    }

    /// Fills in every record's bank and address. Refused by 11, 12, and by 14 where any pixel is outside.
    pub fn fill_records(self, list: &mut [PixelRecord]) -> Result<(), Refused> {
        let Picture { plan: p, width: w, height: h } = self;
        let (list, length) = (list.as_mut_ptr(), list.len());
        told(|t| unsafe { raw::bankplan_fill_records(p.a, p.b, p.d, w, h, list, length, t) }).map(|_| ())
    }
}

// ---- lists of calls

impl Call {
    /// The call's five numbers.
    pub fn numbers(self) -> [u64; CALL_NUMBERS] {
        let bits = |z: i16| u64::from(z as u16);
        match self {
            Call::Store { pixel: (i, j), word } => [KIND_STORE, bits(i), bits(j), word.into(), 0],
            Call::Clear { bank } => [KIND_CLEAR, 0, 0, bank, 0],
            Call::Load { pixel: (i, j) } => [KIND_LOAD, bits(i), bits(j), 0, 0],
            Call::Fetch { pattern, at: (i, j), room } => [KIND_FETCH, bits(i), bits(j), pattern as u64, room as u64],
            Call::RingFetch { pattern, at: (i, j), room } => [KIND_RING_FETCH, bits(i), bits(j), pattern as u64, room as u64],
            Call::MakeSums => [KIND_MAKE_SUMS, 0, 0, 0, 0],
            Call::Sum { bank } => [KIND_SUM, 0, 0, bank, 0],
            Call::ReadSum { bank } => [KIND_READ_SUM, 0, 0, bank, 0],
        }
    }

    /// The words of outputs that the call takes up.
    pub fn room(self) -> usize {
        if let Call::Fetch { room, .. } | Call::RingFetch { room, .. } = self { room } else { 0 }
    }

    // The same call with no more room than a fetch can use, a word to each pixel: every reply is the same.
    fn within_reach(mut self) -> Call {
        if let Call::Fetch { room, .. } | Call::RingFetch { room, .. } = &mut self {
            *room = MAX_PIXELS.min(*room);
        }
        self
    }
}

/// The numbers of a list of calls.
pub fn numbers_of(calls: &[Call]) -> Vec<u64> {
    calls.iter().flat_map(|call| call.numbers()).collect()
}

impl Reply {
    /// The reply of a call from its twelve numbers and its output. What is missing in them is taken as 0.
    pub fn of(call: Call, numbers: &[u64], out: &[u16]) -> Reply {
        let at = |k: usize| numbers.get(k).copied().unwrap_or(0);
        match call {
            _ if at(0) != 0 => Reply::Refused(refused(at(0), numbers.get(1..).unwrap_or_default())),
            Call::Store { .. } | Call::Clear { .. } | Call::MakeSums => Reply::Done,
            Call::Load { .. } => Reply::Word(at(1) as u16),
            Call::Fetch { .. } | Call::RingFetch { .. } => Reply::Words(out.iter().copied().take(at(1) as usize).collect()),
            Call::Sum { .. } | Call::ReadSum { .. } => Reply::Sum(at(1)),
        }
    }
}

/// The replies of a list of calls from their numbers and the outputs of all fetches.
pub fn replies_of(calls: &[Call], numbers: &[u64], outs: &[u16]) -> Vec<Reply> {
    let mut rest = outs;
    let mut reply = |(call, numbers): (&Call, &[u64])| {
        let (out, behind) = rest.split_at(rest.len().min(call.room()));
        rest = behind;
        Reply::of(*call, numbers, out)
    };
    calls.iter().zip(numbers.chunks(REPLY_NUMBERS)).map(&mut reply).collect()
}

// Makes a list of calls, given how its numbers are made, with outputs and replies that are long enough.
fn made<T>(
    calls: &[Call],
    make: impl FnOnce(&[u64], &mut [u16], &mut [u64]) -> Result<T, NotMade>,
) -> Result<(T, Vec<Reply>), NotMade> {
    let calls: Vec<Call> = calls.iter().map(|call| call.within_reach()).collect();
    let mut outs = vec![0; calls.iter().map(|call| call.room()).sum()];
    let mut replies = vec![0; REPLY_NUMBERS * calls.len()];
    let told = make(&numbers_of(&calls), &mut outs, &mut replies)?;
    Ok((told, replies_of(&calls, &replies, &outs)))
}

impl Picture {
    /// Makes the calls one after the other, fetches for r, each on the memory and the sums as the one before left them, and gives
    /// their replies. A call that is refused is a reply too, and those behind it are made.
    pub fn run_list(self, book: &Book, r: u32, mem: &mut [u16], sums: &mut [u64], calls: &[Call]) -> Result<Vec<Reply>, NotMade> {
        let make =
            |numbers: &[u64], outs: &mut [u16], replies: &mut [u64]| self.run_numbers(book, r, mem, sums, numbers, outs, replies);
        made(calls, make).map(|((), replies)| replies)
    }

    /// The same of a list in numbers, five to a call. Each fetch has the next `room` words of the outputs, each call the next
    /// twelve numbers of the replies; `include/bankplan.h` has the layout.
    pub fn run_numbers(
        self,
        book: &Book,
        r: u32,
        mem: &mut [u16],
        sums: &mut [u64],
        numbers: &[u64],
        outs: &mut [u16],
        replies: &mut [u64],
    ) -> Result<(), NotMade> {
        let Picture { plan: Plan { a, b, d }, width: w, height: h } = self;
        let Book { columns, rows, used, count } = book;
        let (mem, words, sums, entries) = (mem.as_mut_ptr(), mem.len(), sums.as_mut_ptr(), sums.len());
        let (list, length) = (numbers.as_ptr(), numbers.len());
        let (outs, room, replies, places) = (outs.as_mut_ptr(), outs.len(), replies.as_mut_ptr(), replies.len());
        let call = |t: &mut _| unsafe {
            raw::bankplan_run_list(
                columns, rows, used, *count, r, a, b, d, w, h, mem, words, sums, entries, list, length, outs, room, replies,
                places, t,
            )
        };
        told(call)?;
        Ok(())
    }
}

impl Book {
    /// Finds the plan with the fewest banks within the limit for r and makes the calls under it, as `Picture::run_list` does. Gives
    /// the plan and the replies. The memory needs N × depth words under that plan and the sums N entries, or calls are refused by
    /// 13. Always enough are (width + limit) × (height + limit) words and limit entries.
    pub fn find_and_run(
        &self,
        r: u32,
        limit: u32,
        sides: (u32, u32),
        mem: &mut [u16],
        sums: &mut [u64],
        calls: &[Call],
    ) -> Result<(Plan, Vec<Reply>), NotMade> {
        made(calls, |numbers, outs, replies| self.find_and_run_numbers(r, limit, sides, mem, sums, numbers, outs, replies))
    }

    /// The same of a list in numbers, as for `Picture::run_numbers`. Gives the plan.
    pub fn find_and_run_numbers(
        &self,
        r: u32,
        limit: u32,
        (w, h): (u32, u32),
        mem: &mut [u16],
        sums: &mut [u64],
        numbers: &[u64],
        outs: &mut [u16],
        replies: &mut [u64],
    ) -> Result<Plan, NotMade> {
        let Book { columns, rows, used, count } = self;
        let (mem, words, sums, entries) = (mem.as_mut_ptr(), mem.len(), sums.as_mut_ptr(), sums.len());
        let (list, length) = (numbers.as_ptr(), numbers.len());
        let (outs, room, replies, places) = (outs.as_mut_ptr(), outs.len(), replies.as_mut_ptr(), replies.len());
        let call = |t: &mut _| unsafe {
            raw::bankplan_find_and_run(
                columns, rows, used, *count, r, limit, w, h, mem, words, sums, entries, list, length, outs, room, replies, places,
                t,
            )
        };
        Ok(plan_of(told(call)?))
    }
}
