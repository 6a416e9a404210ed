//! Book bytes and records: the reader, a pattern's part, the writer, and the validity of a record. The edges of the order of pixels
//! are in orders.rs.

use crate::library::{self, Record, Told};
use crate::{as_told, oracle, Random, Tally};

// Counts near the edges, and far from them.
pub const COUNTS: [usize; 8] = [0, 1, 2, 16, 17, 64, 65, usize::MAX];

// What stands in a record before a call; a legal book has none of it.
pub fn untouched() -> Record {
    Record { columns: [77; 1024], rows: [-77; 1024], used: [777; 16], count: 0 }
}

// A random legal book, small or large.
pub fn legal_book(random: &mut Random) -> Vec<oracle::Pattern> {
    let (patterns, pixels) = random.one_of(&[(1, 3), (3, 5), (16, 64), (2, 64), (16, 1)]);
    let reach = random.one_of(&[2, 5, 16]);
    (0..random.from_to(1, patterns))
        .map(|_| {
            let mut t = oracle::Pattern::new();
            for _ in 0..random.from_to(1, pixels) {
                let v = (random.from_to(-reach, reach - 1), random.from_to(-reach, reach - 1));
                if !t.contains(&v) {
                    t.push(v);
                }
            }
            oracle::ordered(t)
        })
        .collect()
}

pub fn bytes_of(book: &[oracle::Pattern]) -> Vec<u8> {
    oracle::write(&oracle::record_of(book), usize::MAX).unwrap()
}

// A byte changed, put in or added, or the end cut off; or two pairs of bytes exchanged, or a pair repeated farther on: every other
// time these are pixels.
pub fn damage(bytes: &mut Vec<u8>, random: &mut Random) {
    let at = random.from_to(0, bytes.len() as i64 - 1) as usize;
    let behind = bytes.len() - at;
    match random.from_to(0, 8) {
        0 => bytes[at] = random.one_of(&[0, 1, 15, 16, 17, 64, 65, 127, 128, 239, 240, 255]),
        1 => bytes.truncate(at),
        2 => bytes.push(random.next() as u8),
        3 => bytes.insert(at, random.next() as u8),
        4 => {
            let from = random.from_to(0, bytes.len() as i64 - 1) as usize;
            bytes[at] = bytes[from];
        }
        5 | 6 if behind >= 4 => bytes[at..at + 4].rotate_left(2),
        7 if behind >= 4 => {
            let later = at + 2 * random.from_to(1, behind as i64 / 2 - 1) as usize;
            bytes.copy_within(at..at + 2, later);
        }
        _ => bytes[at] = random.next() as u8,
    }
}

// Each of these numbers was given so often at least.
pub fn reached(t: &mut Tally, gave: &[u64; 21], numbers: &[usize], least: u64) {
    for &number in numbers {
        t.same(|| format!("{number} was given {} times", gave[number]), gave[number] >= least, true);
    }
}

// Everything that is asked of some bytes: reader, parts, and if they are a book the way back. The reader's number is given back.
fn ask_bytes(t: &mut Tally, bytes: &[u8]) -> u64 {
    let what = || format!("{bytes:02x?}");
    let mut record = untouched();
    let got = library::read_book(bytes, &mut record);
    let number = got.number;
    let answer = oracle::read(bytes);
    t.same(what, got, as_told(answer.clone(), |book| vec![book.len() as u64]));
    // the arrays are filled, or as they were; the count is told
    let wanted = answer.as_ref().map_or_else(|_| untouched(), |book| Record { count: 0, ..oracle::record_of(book) });
    t.same(what, record, wanted);
    let count = answer.as_ref().map_or(0, Vec::len);
    for n in [0, count.saturating_sub(1), count, 16, usize::MAX] {
        let wanted = as_told(oracle::part(bytes, n), |(place, len)| vec![place as u64, len as u64]);
        t.same(|| format!("part {n} of {bytes:02x?}"), library::pattern_part(bytes, n), wanted);
    }
    if let Ok(book) = &answer {
        ask_record(t, &oracle::record_of(book));
    }
    number
}

// Everything that is asked of a record: its validity, and the writer with room to spare, just enough and too little. The number
// of the validity is given back.
fn ask_record(t: &mut Tally, r: &Record) -> u64 {
    let what = || format!("{r:?}");
    let tested = library::test_record(r);
    let number = tested.number;
    t.same(what, tested, as_told(oracle::patterns_of(r), |_| vec![]));
    let size = oracle::write(r, usize::MAX).map_or(9, |bytes| bytes.len());
    for room in [size + 3, size, size - 1, 0] {
        let mut out = vec![0xc9; room];
        let mut wanted = out.clone();
        let answer = oracle::write(r, room);
        if let Ok(bytes) = &answer {
            wanted[..bytes.len()].copy_from_slice(bytes);
        }
        let told = library::write_book(r, &mut out);
        t.same(what, told, as_told(answer, |bytes| vec![bytes.len() as u64]));
        t.same(what, out, wanted);
    }
    number
}

// The number, and the count or place, that the reader tells of some bytes; then all that is asked of them.
pub fn expect(t: &mut Tally, bytes: &[u8], number: u64, value: u64) {
    let got = library::read_book(bytes, &mut untouched());
    t.same(|| format!("{bytes:02x?}"), got, Told { number, row: vec![value] });
    ask_bytes(t, bytes);
}

// n patterns of one pixel, and one pattern of n pixels.
fn patterns(n: u8) -> Vec<u8> {
    [vec![n], [1, 0, 0].repeat(n.into())].concat()
}

pub fn pixels(n: u8) -> Vec<u8> {
    [vec![1, n], (0..n).flat_map(|k| [k % 16, k / 16]).collect()].concat()
}

fn figures() -> Tally {
    let mut t = Tally::new("book figures and edges");
    // the table's examples
    expect(&mut t, &[], 1, 0);
    expect(&mut t, &[0], 2, 0);
    expect(&mut t, &[1, 1, 0x10, 0], 3, 2);
    expect(&mut t, &[1, 2, 0, 0, 0, 0], 4, 4);
    expect(&mut t, &[1, 1, 0, 0, 0], 5, 4);
    expect(&mut t, &[1, 5, 0, 0xff, 0xff, 0, 0, 0, 1, 0, 0, 1], 0, 1);
    t.same(|| "table, 17".into(), library::pattern_part(&[1, 1, 0, 0], 1), Told { number: 17, row: vec![0] });
    let one = oracle::record_of(&[vec![(0, 0)]]);
    t.same(|| "table, 16".into(), library::write_book(&one, &mut []), Told { number: 16, row: vec![0] });
    // column and row both wrong, and the second byte missing
    expect(&mut t, &[1, 1, 0x10, 0x10], 3, 2);
    expect(&mut t, &[1, 1, 0x10], 1, 3);
    // both edges of a coordinate: -17, -16, 15, 16
    for (byte, taken) in [(0xef, false), (0xf0, true), (0x0f, true), (0x10, false)] {
        expect(&mut t, &[1, 1, byte, 0], if taken { 0 } else { 3 }, if taken { 1 } else { 2 });
        expect(&mut t, &[1, 1, 0, byte], if taken { 0 } else { 3 }, if taken { 1 } else { 3 });
    }
    // 0, 1, 16 and 17 patterns; 0, 1, 64 and 65 pixels
    for (n, number, value) in [(0, 2, 0), (1, 0, 1), (16, 0, 16), (17, 2, 0)] {
        expect(&mut t, &patterns(n), number, value);
    }
    for (n, number, value) in [(0, 2, 1), (1, 0, 1), (64, 0, 1), (65, 2, 1)] {
        expect(&mut t, &pixels(n), number, value);
    }
    // in the second pattern
    expect(&mut t, &[2, 1, 0, 0], 1, 4);
    expect(&mut t, &[2, 1, 0, 0, 65], 2, 4);
    expect(&mut t, &[2, 1, 0, 0, 1, 0], 1, 6);
    expect(&mut t, &[2, 1, 0, 0, 1, 0x10], 1, 6);
    expect(&mut t, &[2, 1, 0, 0, 1, 0, 0x80], 3, 6);
    expect(&mut t, &[2, 1, 0, 0, 2, 0, 0, 0, 0], 4, 7);
    expect(&mut t, &[2, 1, 0, 0, 1, 0, 0, 9], 5, 7);
    t
}

fn every_byte() -> Tally {
    let mut t = Tally::new("every byte, every length");
    // every byte as a count and as a coordinate, of a second pixel too
    for b in 0..=255 {
        for bytes in [vec![b], vec![b, 1, 0, 0], vec![1, b], vec![1, b, 0, 0], vec![1, 1, b, 3], vec![1, 1, 3, b]] {
            ask_bytes(&mut t, &bytes);
        }
        for row in [0xfd, 2, 3, 4, 16] {
            ask_bytes(&mut t, &[1, 2, 3, 3, b, row]);
            ask_bytes(&mut t, &[1, 2, 3, 3, row, b]);
        }
    }
    // the longest book, cut at every place
    let longest = [vec![16], pixels(64)[1..].repeat(16)].concat();
    assert_eq!(longest.len(), 2065);
    for end in 0..=longest.len() {
        let got = library::read_book(&longest[..end], &mut untouched());
        let wanted = as_told(oracle::read(&longest[..end]), |book| vec![book.len() as u64]);
        t.same(|| format!("the longest book, {end} bytes"), got, wanted);
    }
    t
}

fn random_books() -> Tally {
    let mut t = Tally::new("random books, legal and damaged");
    let mut random = Random::new(6);
    let mut gave = [0; 21];
    for _ in 0..10_000 {
        let mut bytes = bytes_of(&legal_book(&mut random));
        ask_bytes(&mut t, &bytes);
        for _ in 0..random.from_to(1, 2) {
            damage(&mut bytes, &mut random);
            if bytes.is_empty() {
                break;
            }
        }
        gave[ask_bytes(&mut t, &bytes).min(20) as usize] += 1;
    }
    reached(&mut t, &gave, &[0, 1, 2, 3, 4, 5, 19], 250);
    t
}

// Puts any numbers into a record's unused entries, which do not count.
pub fn fill_unused(r: &mut Record, random: &mut Random) {
    for n in 0..16 {
        for e in r.used[n]..64 {
            r.columns[64 * n + e] = random.next() as i8;
            r.rows[64 * n + e] = random.next() as i8;
        }
        if n >= r.count {
            r.used[n] = random.one_of(&COUNTS);
        }
    }
}

// The record of a random legal book, its unused entries filled.
pub fn legal_record(random: &mut Random) -> Record {
    let mut r = oracle::record_of(&legal_book(random));
    fill_unused(&mut r, random);
    r
}

// A pixel of a legal record, if a pattern has two, put lower than the one before it: exchanged with an earlier one, a column to
// the left, or a row lower at the right edge. It may be a repeat or out of range too.
pub fn put_lower(r: &mut Record, random: &mut Random) {
    let from = random.from_to(0, r.count as i64 - 1) as usize;
    let Some(n) = (0..r.count).map(|k| (from + k) % r.count).find(|&n| r.used[n] > 1) else { return };
    let e = 64 * n + random.from_to(1, r.used[n] as i64 - 1) as usize;
    match random.from_to(0, 2) {
        0 => {
            let earlier = random.from_to(64 * n as i64, e as i64 - 1) as usize;
            r.columns.swap(e, earlier);
            r.rows.swap(e, earlier);
        }
        1 => (r.columns[e], r.rows[e]) = (r.columns[e - 1] - 1, r.rows[e - 1]),
        _ => (r.columns[e], r.rows[e]) = (15, r.rows[e - 1] - 1),
    }
}

// A count, a coordinate or a pixel of a legal record changed; it may still be a book.
pub fn damage_record(r: &mut Record, random: &mut Random) {
    let n = random.from_to(0, r.count as i64 - 1) as usize;
    let e = 64 * n + random.from_to(0, r.used[n] as i64 - 1) as usize;
    match random.from_to(0, 7) {
        0 => r.count = random.one_of(&COUNTS),
        1 => r.used[n] = random.one_of(&COUNTS),
        2 => r.columns[e] = random.one_of(&[-128, -17, -16, 15, 16, 127]),
        3 => r.rows[e] = random.one_of(&[-128, -17, -16, 15, 16, 127]),
        4 => (r.columns[e], r.rows[e]) = (r.columns[64 * n], r.rows[64 * n]),
        5 => r.used[n] = 64,
        _ => put_lower(r, random),
    }
}

pub fn damaged_record(random: &mut Random) -> Record {
    let mut r = legal_record(random);
    damage_record(&mut r, random);
    r
}

fn records() -> Tally {
    let mut t = Tally::new("records, legal and damaged");
    let mut random = Random::new(7);
    let mut gave = [0; 21];
    for _ in 0..20_000 {
        ask_record(&mut t, &legal_record(&mut random));
        gave[ask_record(&mut t, &damaged_record(&mut random)).min(20) as usize] += 1;
    }
    reached(&mut t, &gave, &[0, 2, 3, 4, 19], 1_000);
    t
}

pub fn run() -> Vec<Tally> {
    vec![figures(), every_byte(), random_books(), records()]
}
