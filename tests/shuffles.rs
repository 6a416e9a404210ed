//! Orders of the same pixels: just one of them is taken, by row, then column, so that two books with the same patterns under the
//! same numbers are the same bytes. The words of a fetch come in this order.

use crate::books::{legal_book, pixels, untouched};
use crate::finds::random_book;
use crate::library::{self, Told};
use crate::oracle::{self, Pattern};
use crate::pictures::{cross, record};
use crate::search::plan;
use crate::{told, Random, Tally};
use std::cmp::Ordering;
use std::collections::{BTreeSet, HashSet};

// What the reader tells of patterns.
fn read(patterns: &[Pattern]) -> Told {
    library::read_book(&oracle::bytes_of(patterns), &mut untouched())
}

// The bytes that the writer puts, or what it tells.
fn written(patterns: &[Pattern]) -> Result<Vec<u8>, Told> {
    let mut out = vec![0; 2065];
    let told = library::write_book(&oracle::record_of(patterns), &mut out);
    if told.number > 0 {
        return Err(told);
    }
    out.truncate(told.row[0] as usize);
    Ok(out)
}

// A pixel's place in the window, counted row by row.
fn place((column, row): (i64, i64)) -> i64 {
    32 * (row + 16) + column + 16
}

// Every pair of pixels of the window: the second is farther on, the same, or farther back.
fn pairs() -> Tally {
    let mut t = Tally::new("order of pixels: every pair");
    let window: Pattern = (-16..16).flat_map(|row| (-16..16).map(move |column| (column, row))).collect();
    for (k, &v) in window.iter().enumerate() {
        t.same(|| format!("{v:?}"), place(v), k as i64);
        for (l, &w) in window.iter().enumerate() {
            let number = match l.cmp(&k) {
                Ordering::Greater => 0,
                Ordering::Equal => 4,
                Ordering::Less => 19,
            };
            let pair = [vec![v, w]];
            let (bytes, record) = if number == 0 { (vec![1], vec![]) } else { (vec![4], vec![0]) };
            t.same(|| format!("{pair:?}"), read(&pair), told(number, &bytes));
            t.same(|| format!("{pair:?}"), library::test_record(&oracle::record_of(&pair)), told(number, &record));
        }
    }
    t
}

// Two neighbours exchanged, at each place of the longest book.
fn places() -> Tally {
    let mut t = Tally::new("order of pixels: each place of the longest book");
    let longest = [vec![16], pixels(64)[1..].repeat(16)].concat();
    let book = oracle::read(&longest).unwrap();
    for (n, e) in (0..16).flat_map(|n| (1..64).map(move |e| (n, e))) {
        let at = 1 + 129 * n + 1 + 2 * e;
        let mut bytes = longest.clone();
        bytes[at - 2..at + 2].rotate_left(2);
        let got = library::read_book(&bytes, &mut untouched());
        t.same(|| format!("pattern {n}, pixel {e}"), got, told(19, &[at as u64]));
        let mut exchanged = book.clone();
        exchanged[n].swap(e - 1, e);
        t.same(|| format!("pattern {n}, pixel {e}"), written(&exchanged), Err(told(19, &[0])));
    }
    t
}

// Each order of some pixels.
fn orders_of(t: &Pattern) -> Vec<Pattern> {
    let mut all = vec![Pattern::new()];
    for &v in t {
        let put = |order: &Pattern, at: usize| [&order[..at], &[v], &order[at..]].concat();
        all = all.iter().flat_map(|order| (0..=order.len()).map(move |at| put(order, at))).collect();
    }
    all
}

fn shuffled(t: &Pattern, random: &mut Random) -> Pattern {
    let mut left = t.clone();
    (0..t.len()).map(|_| left.remove(random.from_to(0, left.len() as i64 - 1) as usize)).collect()
}

// Every order of a few pixels, and many orders of more: one is taken. Each other is refused where a pixel is first farther back
// than the one before it.
fn orders() -> Tally {
    let mut t = Tally::new("order of pixels: shuffled patterns");
    let mut random = Random::new(32);
    for round in 0..1_000 {
        let (most, width, height) = random.one_of(&[(5, 3, 3), (5, 32, 32), (5, 1, 9), (5, 9, 1), (64, 8, 8), (64, 32, 32)]);
        let set = random_book(&mut random, 1, most, width, height).remove(0);
        let every = set.len() <= 5 || round % 100 == 0 && set.len() <= 7;
        let mut all = if every { orders_of(&set) } else { (0..50).map(|_| shuffled(&set, &mut random)).collect() };
        if !every {
            all.push(set.clone());
        }
        let mut taken = HashSet::new();
        for pixels in all {
            let back = (1..pixels.len()).find(|&k| place(pixels[k]) < place(pixels[k - 1]));
            let wanted = back.map_or(told(0, &[1]), |k| told(19, &[2 + 2 * k as u64]));
            let book = [pixels];
            t.same(|| format!("{book:?}"), read(&book), wanted);
            let wanted = if back.is_none() { Ok(oracle::bytes_of(&book)) } else { Err(told(19, &[0])) };
            let got = written(&book);
            t.same(|| format!("{book:?}"), got.clone(), wanted);
            taken.extend(got);
        }
        t.same(|| format!("orders taken of {set:?}"), taken.into_iter().collect(), vec![oracle::bytes_of(&[set.clone()])]);
    }
    t
}

// Every list of up to four pixels of a 3 by 3 block, repeats too: each set of pixels is taken once.
fn lists() -> Tally {
    let mut t = Tally::new("order of pixels: every list of up to four in a block");
    let block: Pattern = (0..9).map(|k| (k % 3 - 1, k / 3 - 1)).collect();
    let mut lists = vec![Pattern::new()];
    let mut sets = HashSet::new();
    for _ in 0..4 {
        lists = lists.iter().flat_map(|list| block.iter().map(|&v| [&list[..], &[v]].concat())).collect();
        for list in &lists {
            let wrong = |&k: &usize| k > 0 && place(list[k]) < place(list[k - 1]) || list[..k].contains(&list[k]);
            let wanted = match (0..list.len()).find(wrong) {
                None => told(0, &[1]),
                Some(k) => told(if list[..k].contains(&list[k]) { 4 } else { 19 }, &[2 + 2 * k as u64]),
            };
            let got = read(&[list.clone()]);
            if got.number == 0 {
                let new = sets.insert(list.iter().copied().collect::<BTreeSet<_>>());
                t.same(|| format!("{list:?} is the first order of its pixels"), new, true);
            }
            t.same(|| format!("{list:?}"), got, wanted);
        }
    }
    // 9 sets of one pixel, 36 of two, 84 of three, 126 of four
    t.same(|| "sets".into(), sets.len(), 255);
    t
}

// Two books with the same patterns under the same numbers, each in any order: where both are taken they are the same bytes.
// The order of the patterns is free.
fn same_patterns() -> Tally {
    let mut t = Tally::new("order of pixels: two books with the same patterns");
    let mut random = Random::new(33);
    let (mut both, mut turned) = (0, 0);
    for _ in 0..20_000 {
        let book = random_book(&mut random, 3, 3, 3, 3);
        let mut any = || -> Vec<Pattern> { book.iter().map(|pattern| shuffled(pattern, &mut random)).collect() };
        let (one, other) = (any(), any());
        if let (Ok(x), Ok(y)) = (written(&one), written(&other)) {
            both += 1;
            t.same(|| format!("{one:?} {other:?}"), x, y);
        }
        let back: Vec<Pattern> = book.iter().rev().cloned().collect();
        if back != book {
            turned += 1;
            t.same(|| format!("{back:?}"), written(&back), Ok(oracle::bytes_of(&back)));
        }
    }
    t.same(|| format!("{both} pairs of books, {turned} with their patterns turned round"), both > 2_000 && turned > 2_000, true);
    t
}

// The words of a fetch ascend where those of the picture do, row by row.
fn words() -> Tally {
    let mut t = Tally::new("order of pixels: fetched words");
    let (mut memory, mut sums) = (vec![0; 1024], [0; 1024]);
    let p = plan(32, 0, 32);
    let word = |i: i16, j: i16| (32 * j + i + 1) as u16;
    for (i, j) in (0..32).flat_map(|j| (0..32).map(move |i| (i, j))) {
        let stored = library::store(p, 32, 32, &mut memory, &mut sums, (i, j), word(i, j));
        t.same(|| format!("{i} {j}"), stored, told(0, &[]));
    }
    let mut fetch = |book: &[Pattern], n: usize, wanted: Vec<u16>| {
        let mut out = vec![0; wanted.len()];
        let got = library::fetch(&record(book), 1, p, 32, 32, &memory, n, (16, 16), &mut out);
        t.same(|| format!("{n} of {book:?}"), (got, &out), (told(0, &[wanted.len() as u64]), &wanted));
        t.same(|| format!("{n} of {book:?}"), out.windows(2).all(|pair| pair[0] < pair[1]), true);
    };
    fetch(&[cross()], 0, vec![497, 528, 529, 530, 561]);
    let mut random = Random::new(34);
    for _ in 0..1_000 {
        let book = legal_book(&mut random);
        for (n, pattern) in book.iter().enumerate() {
            let mut wanted: Vec<u16> = pattern.iter().map(|v| word(v.0 as i16 + 16, v.1 as i16 + 16)).collect();
            wanted.sort();
            fetch(&book, n, wanted);
        }
    }
    t
}

pub fn run() -> Vec<Tally> {
    vec![pairs(), places(), orders(), lists(), same_patterns(), words()]
}
