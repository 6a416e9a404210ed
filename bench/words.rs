//! The calls on a picture in Rust as one would write them without proofs: the same checks, the same memory, the same sums.

use crate::bankplan::{Book as Record, Plan};
use crate::unverified::{clash_of, test_book};

/// Words in a bank, and words from one strip of rows to the next.
pub struct Layout {
    pub depth: usize,
    across: usize,
}

pub fn is_plan(p: &Plan) -> bool {
    p.d > 0 && p.b < p.a && u64::from(p.a) * u64::from(p.d) <= 1024
}

/// 11, 12, 13.
pub fn layout(p: &Plan, w: u32, h: u32, words: usize) -> Result<Layout, u64> {
    if !is_plan(p) {
        return Err(11);
    }
    if !(1..=4096).contains(&w) || !(1..=4096).contains(&h) {
        return Err(12);
    }
    let across = w.div_ceil(p.a);
    let depth = across * h.div_ceil(p.d);
    if words < (p.a * p.d * depth) as usize {
        return Err(13);
    }
    Ok(Layout { depth: depth as usize, across: across as usize })
}

/// The same where so many entries for the sums are lent too.
fn lent_layout(p: &Plan, w: u32, h: u32, words: usize, entries: usize) -> Result<Layout, u64> {
    let l = layout(p, w, h, words)?;
    if has_sums(p, entries) { Ok(l) } else { Err(13) }
}

/// Whether so many entries are one to each bank, or more.
pub fn has_sums(p: &Plan, entries: usize) -> bool {
    entries >= (p.a * p.d) as usize
}

pub fn inside(w: u32, h: u32, i: i32, j: i32) -> bool {
    (0..w as i32).contains(&i) && (0..h as i32).contains(&j)
}

/// The bank of a pixel that is inside, and the place of its word.
pub fn cell(p: &Plan, l: &Layout, i: i32, j: i32) -> (usize, usize) {
    let (q, r) = (j as u32 / p.d, j as u32 % p.d);
    let bank = r * p.a + (i - (p.b * q) as i32).rem_euclid(p.a as i32) as u32;
    (bank as usize, bank as usize * l.depth + q as usize * l.across + (i as u32 / p.a) as usize)
}

/// The place alone.
pub fn place(p: &Plan, l: &Layout, i: i32, j: i32) -> usize {
    cell(p, l, i, j).1
}

/// Puts a word into its place, and takes the old one off its bank's sum and adds it.
pub fn put(mem: &mut [u16], sums: &mut [u64], (bank, place): (usize, usize), x: u16) {
    let old = std::mem::replace(&mut mem[place], x);
    sums[bank] = sums[bank].wrapping_sub(old.into()).wrapping_add(x.into());
}

/// The sum of some words.
pub fn walk(words: &[u16]) -> u64 {
    words.iter().map(|x| u64::from(*x)).sum()
}

/// Puts the sum of each bank of so many words.
pub fn put_sums(mem: &[u16], depth: usize, sums: &mut [u64]) {
    for (sum, bank) in sums.iter_mut().zip(mem.chunks_exact(depth)) {
        *sum = walk(bank);
    }
}

#[inline(never)]
pub fn bank(p: &Plan, (i, j): (i16, i16)) -> Result<u32, u64> {
    if !is_plan(p) {
        return Err(11);
    }
    let (a, b, d, i, j) = (p.a as i32, p.b as i32, p.d as i32, i32::from(i), i32::from(j));
    Ok((j.rem_euclid(d) * a + (i - b * j.div_euclid(d)).rem_euclid(a)) as u32)
}

#[inline(never)]
pub fn store(p: &Plan, w: u32, h: u32, mem: &mut [u16], sums: &mut [u64], (i, j): (i16, i16), x: u16) -> Result<(), u64> {
    let l = lent_layout(p, w, h, mem.len(), sums.len())?;
    if !inside(w, h, i.into(), j.into()) {
        return Err(14);
    }
    put(mem, sums, cell(p, &l, i.into(), j.into()), x);
    Ok(())
}

#[inline(never)]
pub fn load(p: &Plan, w: u32, h: u32, mem: &[u16], (i, j): (i16, i16)) -> Result<u16, u64> {
    let l = layout(p, w, h, mem.len())?;
    if !inside(w, h, i.into(), j.into()) {
        return Err(14);
    }
    Ok(mem[place(p, &l, i.into(), j.into())])
}

#[inline(never)]
pub fn clear(p: &Plan, w: u32, h: u32, mem: &mut [u16], sums: &mut [u64], k: u64) -> Result<(), u64> {
    let l = lent_layout(p, w, h, mem.len(), sums.len())?;
    if k >= u64::from(p.a * p.d) {
        return Err(15);
    }
    mem[k as usize * l.depth..][..l.depth].fill(0);
    sums[k as usize] = 0;
    Ok(())
}

#[inline(never)]
pub fn sum(p: &Plan, w: u32, h: u32, mem: &[u16], k: u64) -> Result<u64, u64> {
    let l = layout(p, w, h, mem.len())?;
    if k >= u64::from(p.a * p.d) {
        return Err(15);
    }
    Ok(walk(&mem[k as usize * l.depth..][..l.depth]))
}

#[inline(never)]
pub fn make_sums(p: &Plan, w: u32, h: u32, mem: &[u16], sums: &mut [u64]) -> Result<(), u64> {
    let l = lent_layout(p, w, h, mem.len(), sums.len())?;
    put_sums(mem, l.depth, &mut sums[..(p.a * p.d) as usize]);
    Ok(())
}

#[inline(never)]
pub fn read_sum(p: &Plan, sums: &[u64], k: u64) -> Result<u64, u64> {
    if !is_plan(p) {
        return Err(11);
    }
    if !has_sums(p, sums.len()) {
        return Err(13);
    }
    if k >= u64::from(p.a * p.d) {
        return Err(15);
    }
    Ok(sums[k as usize])
}

/// 2, 3, 4, 19, 20, 11, 12, 13, 17, 10.
fn start(book: &Record, r: u32, p: &Plan, w: u32, h: u32, words: usize, n: usize) -> Result<Layout, u64> {
    test_book(book, r)?;
    let l = layout(p, w, h, words)?;
    if n >= book.count {
        return Err(17);
    }
    match clash_of(book, r, p, n) {
        None => Ok(l),
        Some(_) => Err(10),
    }
}

/// The pixels of pattern n, moved.
pub fn moved(r: &Record, n: usize, (i, j): (i16, i16)) -> impl Iterator<Item = (i32, i32)> + '_ {
    let (first, end) = (64 * n, 64 * n + r.used[n]);
    let pixels = r.columns[first..end].iter().zip(&r.rows[first..end]);
    pixels.map(move |(x, y)| (i32::from(i) + i32::from(*x), i32::from(j) + i32::from(*y)))
}

#[rustfmt::skip]
#[inline(never)]
pub fn fetch(
    book: &Record, r: u32, p: &Plan, w: u32, h: u32, mem: &[u16], n: usize, o: (i16, i16), out: &mut [u16],
) -> Result<usize, u64> {
    let l = start(book, r, p, w, h, mem.len(), n)?;
    if !moved(book, n, o).all(|(i, j)| inside(w, h, i, j)) {
        return Err(14);
    }
    if out.len() < book.used[n] {
        return Err(16);
    }
    for (x, (i, j)) in out.iter_mut().zip(moved(book, n, o)) {
        *x = mem[place(p, &l, i, j)];
    }
    Ok(book.used[n])
}

/// Whether a ring fetch is allowed under a plan.
pub fn is_ring(p: &Plan, w: u32, h: u32) -> bool {
    w % p.a == 0 && h % p.d == 0 && p.b * (h / p.d) % p.a == 0
}

#[rustfmt::skip]
#[inline(never)]
pub fn ring_fetch(
    book: &Record, r: u32, p: &Plan, w: u32, h: u32, mem: &[u16], n: usize, o: (i16, i16), out: &mut [u16],
) -> Result<usize, u64> {
    let l = start(book, r, p, w, h, mem.len(), n)?;
    if !is_ring(p, w, h) {
        return Err(18);
    }
    if out.len() < book.used[n] {
        return Err(16);
    }
    for (x, (i, j)) in out.iter_mut().zip(moved(book, n, o)) {
        *x = mem[place(p, &l, i.rem_euclid(w as i32), j.rem_euclid(h as i32))];
    }
    Ok(book.used[n])
}
