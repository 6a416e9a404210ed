//! Random lists of calls on one picture, legal and refused ones mixed, against the map of what was stored.

use crate::books::{damage_record, fill_unused, put_lower};
use crate::calls::{Call, Kind, Picture, Way, GUARD, KINDS};
use crate::classes::{clash_under, suits_for};
use crate::fetches::{found, inside};
use crate::library::{Plan, Record};
use crate::oracle::{self, Pattern};
use crate::random_pictures::{any_book, sides, suppliers};
use crate::search::bank_of;
use crate::{wide, Random, Tally};

const CALLS: usize = 200;

/// What is no r.
pub const NO_CYCLES: [u32; 8] = [0, 9, 10, 256, 257, 1 << 16, (1 << 31) + 1, u32::MAX];

// A list's book, its r and its picture, the pixels at which it stored, one about which it stores most, whether ring fetches are
// allowed, and what is counted of it: whose plan it has, whether a side is no multiple of a or d, and whether ring fetches are
// allowed though a side is no multiple of N.
pub struct List {
    book: Vec<Pattern>,
    pub record: Record,
    pub r: u32,
    picture: Picture,
    pub stored: Vec<(i16, i16)>,
    home: (i64, i64),
    rings: bool,
    counted: [bool; 5],
}

// A list whose r is one of these.
pub fn new_list(t: &mut Tally, random: &mut Random, cycles: &[u32]) -> List {
    let r = random.one_of(cycles);
    let book = any_book(random, r);
    let mut record = oracle::record_of(&book);
    fill_unused(&mut record, random);
    let least = found(t, &record, r, &book);
    let p = match random.from_to(0, 9) {
        0..=4 => least,
        5..=7 => suppliers(random, &book, r, least, false).unwrap_or(least),
        _ => suppliers(random, &book, r, least, true).unwrap_or(least),
    };
    let (w, h) = sides(random, p);
    let mut along = |side: u32| if random.from_to(0, 1) == 0 { 0 } else { random.from_to(0, i64::from(side) - 1) };
    let home = (along(w), along(h));
    let (n, picture) = (p.a * p.d, Picture::new(p, w, h));
    let rings = picture.lent.is_ring();
    let finders = (p.a, p.b, p.d) == (least.a, least.b, least.d);
    let suiting = book.iter().all(|t| suits_for(r, p, t));
    let odd = w % p.a != 0 || h % p.d != 0;
    let counted = [finders, !finders && suiting, !suiting, odd, rings && (w % n != 0 || h % n != 0)];
    List { book, record, r, picture, stored: Vec::new(), home, rings, counted }
}

fn narrow(v: (i64, i64)) -> (i16, i16) {
    (v.0.clamp(-32768, 32767) as i16, v.1.clamp(-32768, 32767) as i16)
}

impl List {
    fn sides(&self) -> (i64, i64) {
        (self.picture.lent.w.into(), self.picture.lent.h.into())
    }

    pub fn kind(&self, step: usize, random: &mut Random) -> Kind {
        let first = step < CALLS / 4;
        match random.from_to(0, 43) {
            0..=9 => Kind::Store,
            10..=29 if first => Kind::Store,
            // not often, since it takes the words away
            10 => Kind::Clear,
            11..=17 => Kind::Load,
            18..=21 => Kind::Sum,
            22..=31 if self.rings => Kind::Ring,
            22 => Kind::Ring,
            // not often, so that sums that began wrong stay so for some time
            40 => Kind::MakeSums,
            41..=43 => Kind::ReadSum,
            _ => Kind::Fetch,
        }
    }

    // A pixel of the picture: a stored one, one about home, a corner, or any.
    fn pixel(&self, random: &mut Random) -> (i16, i16) {
        let (w, h) = self.sides();
        let mut near = |v: i64, side: i64| (v + random.from_to(-2, 2)).rem_euclid(side);
        let near = (near(self.home.0, w), near(self.home.1, h));
        match random.from_to(0, 11) {
            0..=3 if !self.stored.is_empty() => random.one_of(&self.stored),
            4..=9 => narrow(near),
            10 => narrow((random.one_of(&[0, w - 1]), random.one_of(&[0, h - 1]))),
            _ => narrow((random.from_to(0, w - 1), random.from_to(0, h - 1))),
        }
    }

    // A position of a plain fetch: at a corner or anywhere inside, some stored pixel covered, or one step past an edge.
    fn position(&self, t: &Pattern, random: &mut Random) -> (i16, i16) {
        let ((left, low), (right, high)) = inside(&self.picture.lent, t);
        if left > right || low > high {
            return narrow((random.from_to(left - 2, left + 2), random.from_to(low - 2, low + 2)));
        }
        let corner = (random.one_of(&[left, right]), random.one_of(&[low, high]));
        narrow(match random.from_to(0, 15) {
            0..=8 => {
                let (v, q) = (self.pixel(random), random.one_of(t));
                ((i64::from(v.0) - q.0).clamp(left, right), (i64::from(v.1) - q.1).clamp(low, high))
            }
            9 => (corner.0, random.from_to(low, high)),
            10 => (random.from_to(left, right), corner.1),
            11 | 12 => corner,
            13 => random.one_of(&[(left - 1, corner.1), (right + 1, corner.1), (corner.0, low - 1), (corner.0, high + 1)]),
            _ => (random.from_to(left, right), random.from_to(low, high)),
        })
    }

    // A position that may be anywhere: far off, at an end of 16 bits, or a stored pixel covered some turns away.
    fn far(&self, t: &Pattern, random: &mut Random) -> (i16, i16) {
        let (w, h) = self.sides();
        let (v, q) = (self.pixel(random), random.one_of(t));
        let mut along = |side: i64, v: i16, q: i64| match random.from_to(0, 15) {
            0 => random.one_of(&[-32768, -32767, 32766, 32767]),
            1 => random.from_to(-32768, 32767),
            2 => random.from_to(-20, 20),
            3 => side + random.from_to(-20, 20),
            _ => i64::from(v) - q + side * random.from_to(-2, 2),
        };
        narrow((along(w, v.0, q.0), along(h, v.1, q.1)))
    }

    // The number of a pattern, most often of one that suits and for a plain fetch has room in the picture.
    fn pattern(&self, kind: Kind, random: &mut Random) -> usize {
        let any = random.from_to(0, self.book.len() as i64 - 1) as usize;
        let fits = |t: &Pattern| {
            let (low, high) = inside(&self.picture.lent, t);
            kind == Kind::Ring || low.0 <= high.0 && low.1 <= high.1
        };
        let fine = |n: &usize| suits_for(self.r, self.picture.lent.plan, &self.book[*n]) && fits(&self.book[*n]);
        let next = (0..self.book.len()).map(|k| (any + k) % self.book.len()).find(fine);
        if random.from_to(0, 9) == 0 { any } else { next.unwrap_or(any) }
    }

    // Entries of the sums that are enough.
    pub fn entries(&self, random: &mut Random) -> usize {
        self.picture.lent.entries + random.one_of(&[0, 0, 1, 5, GUARD - 8])
    }

    // A call that is legal, as far as the picture and the plan allow it.
    pub fn legal(&self, kind: Kind, random: &mut Random) -> Call {
        let mut c = Call::new(kind, self.picture.lent);
        c.lent.words += random.one_of(&[0, 0, 1, 5, GUARD - 8]);
        c.lent.entries = self.entries(random);
        if !kind.takes_sums() && random.from_to(0, 3) == 0 {
            c.lent.entries = random.one_of(&[0, self.picture.lent.entries - 1]);
        }
        c.v = self.pixel(random);
        c.x = if random.from_to(0, 5) == 0 { random.one_of(&[0, 1, 65535]) } else { random.next() as u16 };
        c.k = bank_of(c.lent.plan, wide(c.v)) as u64;
        if random.from_to(0, 2) == 0 {
            c.k = random.from_to(0, c.lent.banks() - 1) as u64;
        }
        if kind.fetches() {
            c.r = self.r;
            c.n = self.pattern(kind, random);
            let t = &self.book[c.n];
            c.v = if kind == Kind::Ring { self.far(t, random) } else { self.position(t, random) };
            c.room = t.len() + random.one_of(&[0, 0, 1, 7]);
        }
        c
    }

    // The memory, or the sums where the call is lent them, are too short.
    fn shorten(&self, c: &mut Call, random: &mut Random) {
        let too_few = |most: usize, random: &mut Random| random.one_of(&[0, most / 2, most - 1, most - 1]);
        if c.kind == Kind::ReadSum || c.kind.takes_sums() && random.from_to(0, 1) == 0 {
            c.lent.entries = too_few(self.picture.lent.entries, random);
        } else {
            c.lent.words = too_few(self.picture.lent.words, random);
        }
    }

    // One of the call's refusals is brought about, if the picture and the plan allow it.
    pub fn break_one(&self, c: &mut Call, record: &mut Record, random: &mut Random) {
        let any = [0, 1, 2, 33, 1024, 1025, 65536, u32::MAX];
        match random.one_of(c.kind.refusals()) {
            2 | 3 | 4 if *record == self.record => damage_record(record, random),
            19 if *record == self.record => put_lower(record, random),
            20 => c.r = random.one_of(&NO_CYCLES),
            11 => {
                let Plan { a, b, d } = self.picture.lent.plan;
                let wrong = [(0, b, d), (a, b, 0), (a, a, d), (a, b, 1024 / a + 1), (1024 / d + 1, b, d)];
                let (a, b, d) = random.one_of(&wrong);
                let drawn = Plan { a: random.one_of(&any), b: random.one_of(&any), d: random.one_of(&any) };
                c.lent.plan = if random.from_to(0, 1) == 0 || oracle::is_plan(drawn) { Plan { a, b, d } } else { drawn };
            }
            12 => match random.from_to(0, 1) {
                0 => c.lent.w = random.one_of(&[0, 4097, u32::MAX]),
                _ => c.lent.h = random.one_of(&[0, 4097, u32::MAX]),
            },
            13 => self.shorten(c, random),
            17 => c.n = random.one_of(&[self.book.len(), self.book.len() + 1, 16, 65536, usize::MAX]),
            10 => {
                let p = self.picture.lent.plan;
                c.n = (0..self.book.len()).find(|&n| clash_under(self.r, p, &self.book[n]).is_some()).unwrap_or(c.n);
            }
            14 if c.kind == Kind::Fetch => c.v = self.far(&self.book[c.n.min(self.book.len() - 1)], random),
            14 => {
                let (w, h) = (self.picture.lent.w as i16, self.picture.lent.h as i16);
                let (i, j) = (random.one_of(&[-32768, -1, w, w + 1, 32767]), random.one_of(&[-32768, -1, h, h + 1, 32767]));
                c.v = random.one_of(&[(i, c.v.1), (c.v.0, j), (i, j)]);
            }
            15 => c.k = random.one_of(&[0, 1, 7, 1 << 32, 1 << 63]) + self.picture.lent.banks() as u64,
            16 => c.room = random.one_of(&[0, c.room / 2, self.book[c.n.min(self.book.len() - 1)].len() - 1]),
            _ => {}
        }
    }
}

// Each number that a call can give was given by it, and about a third of the calls were refused.
fn reached(t: &mut Tally, numbers: &[[u64; 21]; 8], lists: usize) {
    for kind in KINDS {
        for &number in [0].iter().chain(kind.refusals()) {
            t.same(|| format!("{kind:?} never gave {number}"), numbers[kind as usize][number as usize] > 0, true);
        }
    }
    let refused: u64 = numbers.iter().map(|of| of[1..].iter().sum::<u64>()).sum();
    let share = refused * 100 / (lists * CALLS) as u64;
    t.same(|| format!("{share} of 100 calls were refused"), (25..=42).contains(&share), true);
}

// The finder's plans, suppliers' that suit, suppliers' that suit some patterns only, odd sides, and rings with a side that is no
// multiple of N: each in many lists.
fn drawn(t: &mut Tally, counts: [usize; 5], lists: usize) {
    let least = [2, 5, 20, 4, 10].map(|part| lists / part);
    t.same(|| format!("plans and sides drawn: {counts:?}"), counts.iter().zip(least).all(|(n, m)| *n >= m), true);
}

/// So many lists of 200 calls, made in this way, each for one of these r.
pub fn lists(subject: &'static str, seed: u64, lists: usize, way: Way, cycles: &[u32]) -> Tally {
    let mut t = Tally::new(subject);
    let mut random = Random::new(seed);
    let mut numbers = [[0; 21]; 8];
    let (mut reads, mut met) = (0, 0);
    let mut counts = [0; 5];
    for number in 1..=lists {
        let mut list = new_list(&mut t, &mut random, cycles);
        list.picture.list = number;
        list.picture.way = way;
        for step in 0..CALLS {
            let kind = list.kind(step, &mut random);
            let mut c = list.legal(kind, &mut random);
            let mut record = list.record.clone();
            // one refusal brought about, or several, so that the order of the checks tells
            while random.from_to(0, 3) == 0 {
                list.break_one(&mut c, &mut record, &mut random);
            }
            let number = list.picture.ask(&mut t, &record, &c);
            numbers[kind as usize][number.min(20) as usize] += 1;
            if kind == Kind::Store && number == 0 {
                list.stored.push(c.v);
            }
        }
        t.same(|| format!("memory after list {number}, {:?}", list.picture.lent), list.picture.wrong_word(), None);
        t.same(|| format!("sums after list {number}, {:?}", list.picture.lent), list.picture.wrong_sum(), None);
        counts.iter_mut().zip(list.counted).for_each(|(n, is)| *n += usize::from(is));
        reads += list.picture.reads;
        met += list.picture.met;
    }
    reached(&mut t, &numbers, lists);
    drawn(&mut t, counts, lists);
    t.same(|| format!("{met} of {reads} loads and fetches met a word other than 0"), met * 2 > reads, true);
    t
}
