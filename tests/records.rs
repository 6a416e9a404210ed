//! The record list: every record's bank and address, by the library's own function and by the wrapper's.

use crate::library::bankplan::Picture;
use crate::library::{self, PixelRecord, Plan, Told};
use crate::plans::{any_coordinate, any_plan, legal_plan, SIDES};
use crate::search::plan;
use crate::{oracle, told, wide, wrapper, Random, Tally};

fn by_wrapper(plan: Plan, width: u32, height: u32, list: &mut [PixelRecord]) -> Told {
    wrapper::told(Picture { plan, width, height }.fill_records(list), |()| vec![])
}

// Records of pixels, with any bank and address.
fn records(pixels: &[(i16, i16)]) -> Vec<PixelRecord> {
    let all = pixels.iter().enumerate();
    all.map(|(k, v)| PixelRecord { column: v.0, row: v.1, bank: 0xc90f_0000 + k as u32, address: !(k as u32) }).collect()
}

// What must be told, and the records filled in; none where the call is refused.
fn filled(p: Plan, w: u32, h: u32, list: &[PixelRecord]) -> Result<Vec<PixelRecord>, oracle::Refused> {
    oracle::depth(p, w, h)?;
    let fill = |r: &PixelRecord| {
        let v = wide((r.column, r.row));
        let (bank, address) = (oracle::bank(p, v)? as u32, oracle::address(p, w, h, v)? as u32);
        Ok(PixelRecord { bank, address, ..*r })
    };
    list.iter().map(fill).collect()
}

// The cases, and how often each number was given.
struct Asked {
    tally: Tally,
    gave: [u64; 21],
}

impl Asked {
    // Both functions on a list that has two records before and behind it that are not lent.
    fn ask(&mut self, p: Plan, w: u32, h: u32, pixels: &[(i16, i16)]) -> u64 {
        let list = records(&[&[(0, 0); 2], pixels, &[(0, 0); 2]].concat());
        let lent = 2..list.len() - 2;
        let what = || format!("{p:?} {w} {h} {} {:?}", pixels.len(), &pixels[..pixels.len().min(40)]);
        let mut wanted = list.clone();
        let answer = match filled(p, w, h, &list[lent.clone()]) {
            Ok(filled) => {
                wanted[lent.clone()].copy_from_slice(&filled);
                told(0, &[])
            }
            Err((number, place)) => told(number, &[place]),
        };
        for way in [library::fill_records, by_wrapper] {
            let mut got = list.clone();
            let said = way(p, w, h, &mut got[lent.clone()]);
            self.gave[said.number.min(20) as usize] += 1;
            self.tally.same(what, said, answer.clone());
            let other = (0..got.len()).find(|&k| got[k] != wanted[k]);
            self.tally.same(what, other.map(|k| (k, got[k])), other.map(|k| (k, wanted[k])));
        }
        answer.number
    }

    fn expect(&mut self, p: Plan, w: u32, h: u32, pixels: &[(i16, i16)], number: u64) {
        let given = self.ask(p, w, h, pixels);
        self.tally.same(|| format!("{p:?} {w} {h} {pixels:?}"), given, number);
    }
}

fn figures(a: &mut Asked) {
    let p = plan(5, 2, 1);
    let mut list = records(&[(6, 3), (0, 0)]);
    let said = library::fill_records(p, 7, 4, &mut list);
    let record = |column, row, bank, address| PixelRecord { column, row, bank, address };
    a.tally.same(|| "figure".into(), (said, list), (told(0, &[]), vec![record(6, 3, 0, 7), record(0, 0, 0, 0)]));
    // the table's examples, and the order of the checks; an empty list is tested too
    let (no_plan, outside) = (plan(0, 0, 1), [(7, 0)]);
    for pixels in [&[][..], &[(0, 0)], &outside] {
        a.expect(no_plan, 0, 4, pixels, 11);
        a.expect(no_plan, 7, 4, pixels, 11);
        a.expect(p, 0, 4, pixels, 12);
        a.expect(p, 7, 4097, pixels, 12);
        a.expect(p, 7, 4, pixels, if pixels == &outside[..] { 14 } else { 0 });
    }
    // one pixel outside, at each place of a list and past each edge
    for v in [(-1, 0), (0, -1), (7, 3), (6, 4), (-32768, 0), (0, 32767)] {
        for at in 0..5 {
            let mut pixels = [(0, 0), (6, 3), (6, 3), (3, 2), (1, 1)];
            a.expect(p, 7, 4, &pixels, 0);
            pixels[at] = v;
            a.expect(p, 7, 4, &pixels, 14);
        }
    }
    // every pixel of a picture, and the corners of the largest one
    let all: Vec<(i16, i16)> = (0..200).flat_map(|j| (0..300).map(move |i| (i, j))).collect();
    a.expect(p, 300, 200, &all, 0);
    a.expect(plan(6, 4, 5), 300, 200, &all, 0);
    a.expect(p, 300, 199, &all, 14);
    for p in [plan(1, 0, 1), plan(32, 31, 32), plan(1024, 3, 1), plan(1, 0, 1024)] {
        a.expect(p, 4096, 4096, &[(0, 0), (4095, 4095), (4095, 0), (0, 4095)], 0);
        a.expect(p, 4096, 4096, &[(4096, 0)], 14);
    }
}

fn random_lists(a: &mut Asked) {
    let mut random = Random::new(25);
    for round in 0..3_000 {
        let p = if round % 6 == 0 { any_plan(&mut random) } else { legal_plan(&mut random) };
        let mut side = || if random.from_to(0, 9) == 0 { random.one_of(&SIDES) } else { random.from_to(1, 60) as u32 };
        let (w, h) = (side(), side());
        let inside = |random: &mut Random, side: u32| random.from_to(0, i64::from(side.clamp(1, 4096)) - 1) as i16;
        let length = random.from_to(0, 40);
        let mut pixels: Vec<_> = (0..length).map(|_| (inside(&mut random, w), inside(&mut random, h))).collect();
        if length > 0 && random.from_to(0, 2) == 0 {
            let at = random.from_to(0, length - 1) as usize;
            pixels[at] = (any_coordinate(&mut random), any_coordinate(&mut random));
        }
        a.ask(p, w, h, &pixels);
    }
}

pub fn run() -> Tally {
    let mut a = Asked { tally: Tally::new("record lists, by the library and by the wrapper"), gave: [0; 21] };
    figures(&mut a);
    random_lists(&mut a);
    let numbers: Vec<usize> = (0..21).filter(|&n| a.gave[n] > 0).collect();
    a.tally.same(|| "the numbers that were given".into(), numbers, vec![0, 11, 12, 14]);
    a.tally
}
