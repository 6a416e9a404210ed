//! The reduction of a signed number, by itself and in the bank. It is exported for the tests alone (crate `reduction`), which so
//! reach all of 32 bits; a bank reaches 1024 × 2^15 either way.

use crate::library::{self, Plan};
use crate::{as_told, oracle, wide, Random, Tally};

extern "C" {
    fn reduction_remainder(z: i32, top: u16) -> u32;
    fn reduction_quotient(z: i32, top: u16) -> i32;
}

fn divided(z: i32, a: i64) -> (i64, i64) {
    let top = (a - 1) as u16;
    unsafe { (reduction_quotient(z, top).into(), reduction_remainder(z, top).into()) }
}

// z = q × a + r with 0 ≤ r < a has one q and one r. So it is the property that is looked at, and no quotient is worked out here.
fn is_division(t: &mut Tally, z: i32, a: i64) {
    let (q, r) = divided(z, a);
    t.same(|| format!("{z} by {a}: {q}, {r}"), ((0..a).contains(&r), q * a + r), (true, z.into()));
}

// Numbers next to multiples of a, near 0 and as far as 32 bits go, and the edges of 32 bits.
fn edges(a: i64) -> impl Iterator<Item = i32> {
    let far = (1 << 31) / a;
    let times = [0, 1, 2, 3, 1023, 1024, 1025, far / 2, far - 1, far];
    let near = times.into_iter().flat_map(move |k| [k * a, -k * a]).flat_map(|z| (-2..=2).map(move |e| z + e));
    let ends = (0..4).flat_map(|e| [i64::from(i32::MIN) + e, i64::from(i32::MAX) - e]);
    near.chain(ends).filter_map(|z| i32::try_from(z).ok())
}

fn by_itself() -> Tally {
    let mut t = Tally::new("reduction by itself");
    for (z, a, wanted) in [
        (-1, 6, (-1, 5)),
        (-6, 6, (-1, 0)),
        (-7, 6, (-2, 5)),
        (7, 3, (2, 1)),
        (i32::MIN, 1, (-(1 << 31), 0)),
        (i32::MIN, 1024, (-(1 << 21), 0)),
        (i32::MIN, 1023, (-2_099_203, 1021)),
        (i32::MAX, 1024, ((1 << 21) - 1, 1023)),
        (i32::MIN, 65536, (-32768, 0)),
        (-1, 65536, (-1, 65535)),
    ] {
        t.same(|| format!("{z} by {a}"), divided(z, a), wanted);
    }
    // every a of a plan, and the largest divisors that there are
    for a in (1..=1024).chain([1025, 4095, 4096, 32767, 32768, 32769, 65535, 65536]) {
        edges(a).for_each(|z| is_division(&mut t, z, a));
    }
    let mut random = Random::new(70);
    for _ in 0..300_000 {
        let most = random.one_of(&[40, 1024, 65536]);
        let a = random.from_to(1, most);
        let z = random.next() as i32 >> random.from_to(0, 31);
        is_division(&mut t, z, a);
    }
    t
}

// Every column of 16 bits, counted up from a multiple of a below all of them.
fn all_columns() -> Tally {
    let mut t = Tally::new("reduction of every 16-bit column");
    for a in [1, 2, 3, 5, 6, 7, 16, 31, 32, 100, 513, 1023, 1024] {
        let (mut q, mut r) = (0, 0);
        while q * a > -32768 {
            q -= 1;
        }
        for z in q * a..=32767 {
            if z >= -32768 {
                t.same(|| format!("{z} by {a}"), divided(z as i32, a), (q, r));
            }
            (q, r) = if r + 1 < a { (q, r + 1) } else { (q + 1, 0) };
        }
    }
    t
}

// A bank reduces i - b × q by a and j by d.
fn in_a_bank() -> Tally {
    let mut t = Tally::new("reduction in a bank");
    let mut case = |p: Plan, v: (i16, i16)| {
        t.same(|| format!("{p:?} {v:?}"), library::bank(p, v), as_told(oracle::bank(p, wide(v)), |k| vec![k as u64]));
    };
    for a in 1..=1024_i64 {
        let columns: Vec<i16> = edges(a).filter_map(|z| i16::try_from(z).ok()).collect();
        for b in [0, 1, a / 2, a - 1].into_iter().filter(|b| *b < a) {
            for (k, i) in columns.iter().enumerate() {
                let rows = [0, -1, 1, i16::MIN, i16::MAX];
                case(Plan { a: a as u32, b: b as u32, d: 1 }, (*i, rows[k % 5]));
                // the row by as large a d as there is, at the same edges
                case(Plan { a: 1, b: 0, d: a as u32 }, (rows[k % 5], *i));
            }
        }
    }
    for p in [Plan { a: 5, b: 2, d: 1 }, Plan { a: 6, b: 4, d: 5 }, Plan { a: 1024, b: 1023, d: 1 }] {
        (i16::MIN..=i16::MAX).for_each(|i| case(p, (i, -7)));
        (i16::MIN..=i16::MAX).for_each(|j| case(p, (3, j)));
    }
    t
}

pub fn run() -> Vec<Tally> {
    vec![by_itself(), all_columns(), in_a_bank()]
}
