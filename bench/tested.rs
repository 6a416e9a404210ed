//! What a list of calls in Rust need find out only once, and its calls by that.

use crate::bankplan::{Book as Record, Plan};
use crate::unverified::{clash_of, test_book, Clash};
use crate::words::{cell, has_sums, inside, is_plan, is_ring, layout, moved, place, put, put_sums, walk, Layout};

/// A refusal: its number, and of 10 the clash.
pub type Refused = (u64, Option<Clash>);

/// A book under a plan in a picture, with what a list of calls need find out only once.
pub struct Tested<'a> {
    r: &'a Record,
    p: &'a Plan,
    w: u32,
    h: u32,
    layout: Result<Layout, u64>,
    has_sums: bool,
    ring: bool,
    starts: [Result<(), Refused>; 16],
}

impl<'a> Tested<'a> {
    pub fn new(r: &'a Record, cycles: u32, p: &'a Plan, w: u32, h: u32, words: usize, entries: usize) -> Self {
        let (book, layout) = (test_book(r, cycles), layout(p, w, h, words));
        let start = |n| match (book, &layout) {
            (Ok(()), Ok(_)) if n >= r.count => Err((17, None)),
            (Ok(()), Ok(_)) => clash_of(r, cycles, p, n).map_or(Ok(()), |clash| Err((10, Some(clash)))),
            (Ok(()), Err(number)) => Err((*number, None)),
            (Err(number), _) => Err((number, None)),
        };
        let starts = std::array::from_fn(start);
        let ring = layout.is_ok() && is_ring(p, w, h);
        let has_sums = is_plan(p) && has_sums(p, entries);
        Tested { r, p, w, h, layout, has_sums, ring, starts }
    }

    fn layout(&self) -> Result<&Layout, Refused> {
        self.layout.as_ref().map_err(|number| (*number, None))
    }

    fn lent_layout(&self) -> Result<&Layout, Refused> {
        let l = self.layout()?;
        if self.has_sums { Ok(l) } else { Err((13, None)) }
    }

    // Whether a condition of this number does not hold.
    fn unless(number: u64, holds: bool) -> Result<(), Refused> {
        if holds { Err((number, None)) } else { Ok(()) }
    }

    fn is_no_bank(&self, k: u64) -> bool {
        k >= u64::from(self.p.a * self.p.d)
    }

    pub fn store(&self, mem: &mut [u16], sums: &mut [u64], (i, j): (i16, i16), x: u16) -> Result<(), Refused> {
        let l = self.lent_layout()?;
        Self::unless(14, !inside(self.w, self.h, i.into(), j.into()))?;
        put(mem, sums, cell(self.p, l, i.into(), j.into()), x);
        Ok(())
    }

    pub fn load(&self, mem: &[u16], (i, j): (i16, i16)) -> Result<u16, Refused> {
        let l = self.layout()?;
        Self::unless(14, !inside(self.w, self.h, i.into(), j.into()))?;
        Ok(mem[place(self.p, l, i.into(), j.into())])
    }

    pub fn clear(&self, mem: &mut [u16], sums: &mut [u64], k: u64) -> Result<(), Refused> {
        let l = self.lent_layout()?;
        Self::unless(15, self.is_no_bank(k))?;
        mem[k as usize * l.depth..][..l.depth].fill(0);
        sums[k as usize] = 0;
        Ok(())
    }

    pub fn make_sums(&self, mem: &[u16], sums: &mut [u64]) -> Result<(), Refused> {
        let l = self.lent_layout()?;
        put_sums(mem, l.depth, &mut sums[..(self.p.a * self.p.d) as usize]);
        Ok(())
    }

    pub fn sum(&self, mem: &[u16], k: u64) -> Result<u64, Refused> {
        let l = self.layout()?;
        Self::unless(15, self.is_no_bank(k))?;
        Ok(walk(&mem[k as usize * l.depth..][..l.depth]))
    }

    pub fn read_sum(&self, sums: &[u64], k: u64) -> Result<u64, Refused> {
        Self::unless(11, !is_plan(self.p))?;
        Self::unless(13, !self.has_sums)?;
        Self::unless(15, self.is_no_bank(k))?;
        Ok(sums[k as usize])
    }

    fn start(&self, n: usize) -> Result<&Layout, Refused> {
        // past the record's entries a number is not in the book, whatever the entry's tests found
        self.starts[n.min(15)].or_else(|r| if n < 16 || r.0 != 10 { Err(r) } else { Ok(()) })?;
        if n >= self.r.count {
            return Err((17, None));
        }
        self.layout()
    }

    pub fn fetch(&self, mem: &[u16], n: usize, o: (i16, i16), out: &mut [u16]) -> Result<usize, Refused> {
        let l = self.start(n)?;
        if !moved(self.r, n, o).all(|(i, j)| inside(self.w, self.h, i, j)) {
            return Err((14, None));
        }
        if out.len() < self.r.used[n] {
            return Err((16, None));
        }
        for (x, (i, j)) in out.iter_mut().zip(moved(self.r, n, o)) {
            *x = mem[place(self.p, l, i, j)];
        }
        Ok(self.r.used[n])
    }

    pub fn ring_fetch(&self, mem: &[u16], n: usize, o: (i16, i16), out: &mut [u16]) -> Result<usize, Refused> {
        let l = self.start(n)?;
        if !self.ring {
            return Err((18, None));
        }
        if out.len() < self.r.used[n] {
            return Err((16, None));
        }
        let (w, h) = (self.w as i32, self.h as i32);
        for (x, (i, j)) in out.iter_mut().zip(moved(self.r, n, o)) {
            *x = mem[place(self.p, l, i.rem_euclid(w), j.rem_euclid(h))];
        }
        Ok(self.r.used[n])
    }
}
