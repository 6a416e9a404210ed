//! The record list: the proved library beside unverified Rust.

use std::cell::RefCell;
use std::hint::black_box;

use crate::bankplan::raw::bankplan_fill_records;
use crate::bankplan::{PixelRecord, Plan};
use crate::pictures::{positions, row};

/// The same in Rust as one would write it without proofs: 11, 12, 14, then every record.
#[inline(never)]
fn unverified(p: &Plan, w: u32, h: u32, list: &mut [PixelRecord]) -> u64 {
    if p.d == 0 || p.b >= p.a || u64::from(p.a) * u64::from(p.d) > 1024 {
        return 11;
    }
    if !(1..=4096).contains(&w) || !(1..=4096).contains(&h) {
        return 12;
    }
    let inside = |r: &PixelRecord| (0..w as i32).contains(&r.column.into()) && (0..h as i32).contains(&r.row.into());
    if !list.iter().all(inside) {
        return 14;
    }
    let across = w.div_ceil(p.a);
    for r in list {
        let (i, j) = (r.column as u32, r.row as u32);
        let (q, s) = (j / p.d, j % p.d);
        r.bank = s * p.a + (i as i32 - (p.b * q) as i32).rem_euclid(p.a as i32) as u32;
        r.address = q * across + i / p.a;
    }
    0
}

fn proved(p: &Plan, w: u32, h: u32, list: &mut [PixelRecord]) -> u64 {
    let mut answer = [0; 12];
    unsafe { bankplan_fill_records(p.a, p.b, p.d, w, h, list.as_mut_ptr(), list.len(), &mut answer) }
}

// Records of pixels all over the picture.
fn records(w: u32, h: u32) -> Vec<PixelRecord> {
    let at = positions(w, h);
    at.into_iter().map(|(column, row)| PixelRecord { column, row, bank: 7, address: 7 }).collect()
}

/// The answers of both, compared; then a row to a plan.
pub fn lists(plans: &[Plan], timed: bool) {
    let (w, h) = (1920, 1080);
    for p in plans {
        let (mut x, mut y) = (records(w, h), records(w, h));
        assert_eq!(proved(p, w, h, &mut x), unverified(p, w, h, &mut y));
        assert_eq!(x, y);
        x[999].row = 1080;
        let before = x.clone();
        assert_eq!((proved(p, w, h, &mut x), unverified(p, w, h, &mut before.clone())), (14, 14));
        assert_eq!(x, before);
        if timed {
            let list = RefCell::new(records(w, h));
            row(
                &format!("fill a record, in a list of 1,000, plan {}, {}, {}", p.a, p.b, p.d),
                1000,
                &|| proved(black_box(p), w, h, &mut list.borrow_mut()),
                &|| unverified(black_box(p), w, h, &mut list.borrow_mut()),
            );
        }
    }
}
