//! The calls that keep the sums of the banks, and the walk: the proved library beside unverified Rust.

use std::hint::black_box;

use crate::bankplan::raw::{bankplan_clear, bankplan_make_sums, bankplan_read_sum, bankplan_store, bankplan_sum};
use crate::bankplan::Plan;
use crate::pictures::{all, row, show_row, told, Picture, Told, BEHIND};
use crate::{best_of_places, seconds, words};

impl Picture {
    /// The same words and the same sums, with what stands behind them.
    pub fn is_like(&self, other: &Picture) {
        assert!(self.mem == other.mem, "other words");
        assert_eq!(self.sums, other.sums);
    }

    pub fn store(&self, (i, j): (i16, i16), x: u16) -> Told {
        let (p, mut mem, mut sums, mut answer) = (&self.p, self.mem.borrow_mut(), self.sums.borrow_mut(), [0; 12]);
        let (words, m, entries, s) = (mem.len(), mem.as_mut_ptr(), sums.len(), sums.as_mut_ptr());
        let n = unsafe { bankplan_store(p.a, p.b, p.d, self.w, self.h, m, words, s, entries, i, j, x, &mut answer) };
        (n, answer[0])
    }

    pub fn clear(&self, k: u64) -> Told {
        let (p, mut mem, mut sums, mut answer) = (&self.p, self.mem.borrow_mut(), self.sums.borrow_mut(), [0; 12]);
        let (words, m, entries, s) = (mem.len(), mem.as_mut_ptr(), sums.len(), sums.as_mut_ptr());
        let n = unsafe { bankplan_clear(p.a, p.b, p.d, self.w, self.h, m, words, s, entries, k, &mut answer) };
        (n, answer[0])
    }

    pub fn sum(&self, k: u64) -> Told {
        let (p, mem, mut answer) = (&self.p, self.mem.borrow(), [0; 12]);
        let n = unsafe { bankplan_sum(p.a, p.b, p.d, self.w, self.h, mem.as_ptr(), mem.len(), k, &mut answer) };
        (n, answer[0])
    }

    pub fn make_sums(&self) -> Told {
        let (p, mem, mut sums, mut answer) = (&self.p, self.mem.borrow(), self.sums.borrow_mut(), [0; 12]);
        let (words, m, entries, s) = (mem.len(), mem.as_ptr(), sums.len(), sums.as_mut_ptr());
        let n = unsafe { bankplan_make_sums(p.a, p.b, p.d, self.w, self.h, m, words, s, entries, &mut answer) };
        (n, answer[0])
    }

    pub fn read_sum(&self, k: u64) -> Told {
        let (p, sums, mut answer) = (&self.p, self.sums.borrow(), [0; 12]);
        let n = unsafe { bankplan_read_sum(p.a, p.b, p.d, sums.as_ptr(), sums.len(), k, &mut answer) };
        (n, answer[0])
    }

    pub fn unverified_store(&self, o: (i16, i16), x: u16) -> Told {
        let (p, mut mem, mut sums) = (black_box(&self.p), self.mem.borrow_mut(), self.sums.borrow_mut());
        told(words::store(p, self.w, self.h, &mut mem, &mut sums, o, x).map(|()| 0u64))
    }

    pub fn unverified_clear(&self, k: u64) -> Told {
        let (p, mut mem, mut sums) = (black_box(&self.p), self.mem.borrow_mut(), self.sums.borrow_mut());
        told(words::clear(p, self.w, self.h, &mut mem, &mut sums, k).map(|()| 0u64))
    }

    fn unverified_sum(&self, k: u64) -> Told {
        told(words::sum(black_box(&self.p), self.w, self.h, &self.mem.borrow(), k))
    }

    fn unverified_make_sums(&self) -> Told {
        let (p, mem, mut sums) = (black_box(&self.p), self.mem.borrow(), self.sums.borrow_mut());
        told(words::make_sums(p, self.w, self.h, &mem, &mut sums).map(|()| 0u64))
    }

    fn unverified_read_sum(&self, k: u64) -> Told {
        told(words::read_sum(black_box(&self.p), &self.sums.borrow(), k))
    }

    fn with_sums(&self, sums: Vec<u64>) {
        *self.sums.borrow_mut() = sums;
    }
}

/// Both make the same sums of wrong ones, and leave what stands behind them; each is then the walk's figure. Both refuse by the same
/// number where an entry is missing, or the bank is none.
pub fn same(pic: &Picture) {
    let (banks, twin) = (u64::from(pic.p.a * pic.p.d), Picture::new(pic.p, pic.w, pic.h));
    let (made, mem) = (pic.sums.borrow().clone(), pic.mem.borrow().clone());
    *twin.mem.borrow_mut() = mem;
    for entries in [banks + 2, banks, banks - 1] {
        let wrong: Vec<u64> = (0..banks).map(|k| k << 54).chain(BEHIND).take(entries as usize).collect();
        pic.with_sums(wrong.clone());
        twin.with_sums(wrong);
        assert_eq!(pic.make_sums(), twin.unverified_make_sums());
        assert_eq!(pic.store((0, 0), 5), twin.unverified_store((0, 0), 5));
        assert_eq!(pic.clear(1), twin.unverified_clear(1));
        pic.is_like(&twin);
        for k in [0, 1, banks - 1, banks] {
            assert_eq!(pic.read_sum(k), twin.unverified_read_sum(k));
            assert_eq!(pic.sum(k), twin.unverified_sum(k));
            assert!(entries < banks || pic.read_sum(k) == pic.sum(k));
        }
    }
    pic.with_sums(made);
    assert_eq!(pic.make_sums(), (0, 0));
}

/// The rows of a picture's words and banks.
pub fn words_table(pic: &Picture, at: &[(i16, i16)]) {
    let (p, w, h) = (&pic.p, pic.w, pic.h);
    let stores = |pic: &Picture| seconds([&|| all(at, |o| pic.store(o, 9).0), &|| all(at, |o| pic.unverified_store(o, 9).0)]);
    show_row("store a word", at.len(), best_of_places(|| Picture::new(*p, w, h), stores));
    row(
        "load a word",
        at.len(),
        &|| all(at, |o| pic.load(o).1),
        &|| all(at, |o| words::load(black_box(p), w, h, &pic.mem.borrow(), o).map_or(0, u64::from)),
    );
    row("clear a bank", 1, &|| pic.clear(black_box(0)).0, &|| pic.unverified_clear(black_box(0)).0);
    row("make the sums of all banks", 1, &|| pic.make_sums().0, &|| pic.unverified_make_sums().0);
}

/// The sum of a bank by the walk and by a look-up, in a small picture, one of 1920 by 1080 and the largest: the walk grows with the
/// picture, the look-up does not. The banks of the look-up are those of all 1,000 numbers, in turn.
pub fn sizes(timed: bool) {
    let p = Plan { a: 3, b: 0, d: 3 };
    for (w, h) in [(12, 6), (1920, 1080), (4096, 4096)] {
        let pic = Picture::new(p, w, h);
        let banks: Vec<u64> = (0..1000).map(|k| k * 7919 % u64::from(p.a * p.d)).collect();
        same(&pic);
        if timed {
            let name = format!("picture of {w} by {h}");
            row(&format!("sum of a bank, {name}"), 1, &|| pic.sum(black_box(0)).1, &|| pic.unverified_sum(black_box(0)).1);
            row(
                &format!("read the sum of a bank, {name}"),
                banks.len(),
                &|| all(&banks, |k| pic.read_sum(k).1),
                &|| all(&banks, |k| pic.unverified_read_sum(k).1),
            );
        }
    }
}
