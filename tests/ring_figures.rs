//! Figures of ring fetches: those of Card 5 of document 02, and rows worked out from its sentence: "a divides W, d divides H, and a
//! divides b × (H/d)".

use crate::calls::{guard, Kind, Picture};
use crate::fetches::{block, fetched, filled};
use crate::library::{self, Record, Told};
use crate::memory::Lent;
use crate::pictures::{cross, record};
use crate::search::plan;
use crate::{told, Tally};

// A ring fetch of pattern 0 for r, with a word more than it needs, which stays.
fn fetched_for(t: &mut Tally, picture: &Picture, book: &Record, r: u32, v: (i16, i16), words: &[u16]) {
    let Lent { plan: p, w, h, .. } = picture.lent;
    let mut out = guard(words.len() + 1);
    let got = library::ring_fetch(book, r, p, w, h, &picture.memory, 0, v, &mut out);
    let left = [words, &guard(words.len() + 1)[words.len()..]].concat();
    t.same(|| format!("{p:?} {w} {h} {r} {v:?}"), (got, out), (told(0, &[words.len() as u64]), left));
}

// The card's own figures, with the word 1000 * j + i + 1 at (i, j).
fn turntable(t: &mut Tally) {
    let square = record(&[block(0..2, 0..2)]);
    let mut picture = filled(t, plan(6, 0, 2), 12, 6);
    for (v, words) in [
        ((11, 5), [5012, 5001, 12, 1]),
        ((-1, -1), [5012, 5001, 12, 1]),
        ((0, 0), [1, 2, 1001, 1002]),
        ((23, 3), [3012, 3001, 4012, 4001]),
        ((4, -7), [5005, 5006, 5, 6]),
        ((32767, -32768), [4008, 4009, 5008, 5009]),
    ] {
        fetched(t, &mut picture, &square, Kind::Ring, 0, v, &words);
    }
    // two pixels of the cross are in one bank, so that it comes in two cycles
    fetched_for(t, &picture, &record(&[cross()]), 2, (0, 0), &[5001, 12, 1, 2, 1001]);
    fetched_for(t, &picture, &record(&[cross()]), 8, (11, 5), &[4012, 5011, 5012, 5001, 12]);
    // sides far below N = 1,024: the square at a corner, and the window's 32 columns
    let mut picture = filled(t, plan(32, 0, 32), 32, 32);
    fetched(t, &mut picture, &square, Kind::Ring, 0, (31, 31), &[31032, 31001, 32, 1]);
    let row: Vec<u16> = (0..32).map(|k| 5001 + (k + 21) % 32).collect();
    fetched(t, &mut picture, &record(&[block(-16..16, 0..1)]), Kind::Ring, 0, (37, -27), &row);
    // a ring that is smaller than the pattern: pixels meet, and the word comes twice
    let picture = filled(t, plan(1, 0, 1), 1, 2);
    fetched_for(t, &picture, &record(&[cross()]), 5, (0, 0), &[1001, 1, 1, 1, 1001]);
    let picture = filled(t, plan(2, 0, 1), 2, 1);
    fetched_for(t, &picture, &record(&[cross()]), 3, (0, 0), &[1, 2, 1, 2, 1]);
}

// Rows with the number that they get: a plan, W and H.
const ROWS: [((i64, i64, i64), u32, u32, u64); 46] = [
    // the card's
    ((6, 0, 2), 12, 6, 0),
    ((5, 2, 1), 7, 5, 18),
    // a does not divide W; d does not divide H; a does not divide b * (H/d); each alone
    ((4, 2, 2), 8, 4, 0),
    ((4, 2, 2), 6, 4, 18),
    ((4, 2, 2), 8, 5, 18),
    ((4, 2, 2), 8, 6, 18),
    ((6, 0, 2), 11, 6, 18),
    ((6, 0, 2), 13, 6, 18),
    ((6, 0, 2), 12, 5, 18),
    ((6, 0, 2), 12, 7, 18),
    ((9, 3, 2), 9, 4, 18),
    ((9, 3, 2), 9, 6, 0),
    ((9, 6, 2), 9, 6, 0),
    // two of them, and all
    ((4, 2, 2), 6, 5, 18),
    ((4, 2, 2), 6, 6, 18),
    ((4, 2, 2), 8, 7, 18),
    ((4, 2, 2), 6, 7, 18),
    // W and H exchanged, and d beside W
    ((6, 0, 2), 6, 2, 0),
    ((6, 0, 2), 2, 6, 18),
    ((2, 0, 3), 2, 3, 0),
    ((2, 0, 3), 3, 2, 18),
    // b * H is a multiple of a, b * (H/d) is none
    ((4, 1, 2), 4, 4, 18),
    ((4, 1, 2), 4, 8, 0),
    ((6, 2, 3), 6, 3, 18),
    ((6, 2, 3), 6, 9, 0),
    // both sides are multiples of N
    ((5, 2, 1), 10, 5, 0),
    ((6, 4, 2), 12, 12, 0),
    // far below N
    ((32, 0, 32), 32, 32, 0),
    ((32, 0, 32), 31, 32, 18),
    ((32, 0, 32), 32, 31, 18),
    ((8, 4, 8), 8, 16, 0),
    ((8, 4, 8), 8, 8, 18),
    ((1024, 512, 1), 1024, 2, 0),
    ((1024, 512, 1), 1024, 1, 18),
    ((1024, 512, 1), 1024, 3, 18),
    // sides 1 and 4096
    ((1, 0, 1), 1, 1, 0),
    ((1, 0, 1), 4096, 4096, 0),
    ((1, 0, 2), 1, 1, 18),
    ((2, 0, 1), 1, 1, 18),
    ((1024, 0, 1), 4096, 1, 0),
    ((1024, 1023, 1), 4096, 4096, 0),
    ((1024, 1023, 1), 4096, 4095, 18),
    ((1023, 1022, 1), 4092, 4092, 0),
    ((1023, 1022, 1), 4092, 4096, 18),
    ((1, 0, 1024), 1, 4096, 0),
    ((1, 0, 1024), 1, 4095, 18),
];

pub fn run() -> Tally {
    let mut t = Tally::new("rings: figures");
    turntable(&mut t);
    let book = record(&[vec![(0, 0)]]);
    for ((a, b, d), w, h, number) in ROWS {
        let lent = Lent::new(plan(a, b, d), w, h);
        t.same(|| format!("brute force, {lent:?}"), lent.is_ring(), number == 0);
        let memory = vec![7; lent.words];
        let ask = |room: usize, n: usize, words: usize| -> Told {
            library::ring_fetch(&book, 1, lent.plan, w, h, &memory[..words], n, (-9, 4096), &mut vec![0; room])
        };
        let wanted = |number: u64| told(number, &[u64::from(number == 0)]);
        t.same(|| format!("{lent:?}"), ask(1, 0, lent.words), wanted(number));
        // 18 before 16; 13 and 17 before 18
        t.same(|| format!("{lent:?}, no room"), ask(0, 0, lent.words), wanted(if number == 0 { 16 } else { 18 }));
        t.same(|| format!("{lent:?}, a word less"), ask(1, 0, lent.words - 1), wanted(13));
        t.same(|| format!("{lent:?}, no such pattern"), ask(1, 1, lent.words), wanted(17));
    }
    t
}
