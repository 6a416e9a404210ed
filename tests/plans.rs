//! The normal form, and a plan's bank, depth, address and reverse map.

use crate::library::{self, Plan, Told};
use crate::{as_told, oracle, told, wide, Random, Tally};

const EDGES: [i16; 10] = [-32768, -32767, -1025, -1, 0, 1, 2, 1024, 32766, 32767];
pub const SIDES: [u32; 8] = [0, 1, 2, 7, 4095, 4096, 4097, u32::MAX];

fn plan(a: u32, b: u32, d: u32) -> Plan {
    Plan { a, b, d }
}

// Three numbers that are a plan, of any bank count up to 1024.
pub fn legal_plan(random: &mut Random) -> Plan {
    let most = random.one_of(&[1, 2, 5, 12, 32, 100, 1024]);
    let a = random.from_to(1, most);
    let d = random.from_to(1, 1024 / a);
    plan(a as u32, random.from_to(0, a - 1) as u32, d as u32)
}

// Three numbers near the edges of what is a plan, and far from them.
pub fn any_plan(random: &mut Random) -> Plan {
    let numbers = [0, 1, 2, 3, 31, 32, 33, 1023, 1024, 1025, 65536, 1 << 31, u32::MAX];
    plan(random.one_of(&numbers), random.one_of(&numbers), random.one_of(&numbers))
}

pub fn any_coordinate(random: &mut Random) -> i16 {
    match random.from_to(0, 2) {
        0 => random.one_of(&EDGES),
        1 => random.from_to(-40, 40) as i16,
        _ => random.from_to(-32768, 32767) as i16,
    }
}

fn normal_form() -> Tally {
    let mut t = Tally::new("normal form");
    let mut figure = |x, y, wanted: Told| t.same(|| format!("{x:?} {y:?}"), library::normal_form(x, y), wanted);
    figure((4, 2), (2, 4), told(0, &[6, 4, 2]));
    figure((-5, 0), (3, -1), told(0, &[5, 2, 1]));
    figure((2, 1), (4, 2), told(8, &[0]));
    figure((32, 0), (0, 33), told(9, &[0]));
    figure((32, 0), (0, 32), told(0, &[32, 0, 32]));
    figure((1024, 0), (0, 1), told(0, &[1024, 0, 1]));
    figure((0, 1), (-1025, 0), told(9, &[0]));
    figure((-32768, -32768), (-32768, -32768), told(8, &[0]));
    figure((-32768, 32767), (32767, -32768), told(9, &[0]));
    figure((-32768, -32767), (-32767, -32766), told(0, &[1, 0, 1]));
    let mut case = |x: (i16, i16), y: (i16, i16)| {
        let wanted = as_told(oracle::normal_form(wide(x), wide(y)), |p| vec![p.a.into(), p.b.into(), p.d.into()]);
        t.same(|| format!("{x:?} {y:?}"), library::normal_form(x, y), wanted);
    };
    for x1 in EDGES {
        for x2 in EDGES {
            for y1 in EDGES {
                for y2 in EDGES {
                    case((x1, x2), (y1, y2));
                }
            }
        }
    }
    let mut random = Random::new(1);
    for _ in 0..20_000 {
        let reach = random.one_of(&[3, 8, 20, 40]);
        let mut c = || random.from_to(-reach, reach) as i16;
        case((c(), c()), (c(), c()));
    }
    // long vectors with a small determinant: a multiple of one is taken off the other
    for _ in 0..20_000 {
        let (mut x, mut y) = ((random.from_to(0, 40), random.from_to(0, 40)), (random.from_to(-40, 40), random.from_to(1, 40)));
        for _ in 0..4 {
            let k = random.from_to(-12, 12);
            let longer = (x.0 + k * y.0, x.1 + k * y.1);
            if longer.0.abs().max(longer.1.abs()) < 32768 {
                (x, y) = (y, longer);
            }
        }
        case((x.0 as i16, x.1 as i16), (y.0 as i16, y.1 as i16));
    }
    t
}

fn bank() -> Tally {
    let mut t = Tally::new("bank");
    t.same(|| "figure".into(), library::bank(plan(6, 4, 2), (-1, -1)), told(0, &[9]));
    t.same(|| "figure".into(), library::bank(plan(5, 2, 1), (6, 3)), told(0, &[0]));
    t.same(|| "table, 11".into(), library::bank(plan(0, 0, 1), (0, 0)), told(11, &[0]));
    t.same(|| "N = 1024".into(), library::bank(plan(1, 0, 1024), (0, -1)), told(0, &[1023]));
    for (a, d) in [(1025, 1), (1, 1025), (41, 25), (205, 5), (25, 41)] {
        t.same(|| format!("N = {a} × {d} = 1025"), library::bank(plan(a, 0, d), (0, 0)), told(11, &[0]));
    }
    for (a, d) in [(1024, 1), (1, 1024), (32, 32), (512, 2)] {
        let last = (a as i16 - 1, d as i16 - 1);
        t.same(|| format!("N = {a} × {d} = 1024"), library::bank(plan(a, 0, d), last), told(0, &[1023]));
    }
    t.same(|| "a product that would wrap".into(), library::bank(plan(65536, 0, 65536), (0, 0)), told(11, &[0]));
    let mut random = Random::new(2);
    for round in 0..60_000 {
        let p = if round % 3 == 0 { any_plan(&mut random) } else { legal_plan(&mut random) };
        let v = (any_coordinate(&mut random), any_coordinate(&mut random));
        t.same(|| format!("{p:?} {v:?}"), library::bank(p, v), as_told(oracle::bank(p, wide(v)), |k| vec![k as u64]));
    }
    t
}

// The README's picture of banks, 10 by 5, with the cross at column 6 and row 2 beside it.
fn picture() -> Tally {
    let mut t = Tally::new("the README's picture");
    let text = std::fs::read_to_string("README.md").expect("README.md is in this folder");
    let rows = text.lines().map(|line| line.split_whitespace().collect::<Vec<_>>()).filter(|row| row.len() == 20);
    let rows: Vec<_> = rows.filter(|row| row.iter().all(|word| word.len() == 1)).collect();
    t.same(|| "rows".into(), rows.len(), 5);
    for (j, row) in rows.iter().enumerate() {
        for i in 0..10_usize {
            let library::Told { row: bank, .. } = library::bank(plan(5, 2, 1), (i as i16, j as i16));
            let cross = i.abs_diff(6) + j.abs_diff(2) <= 1;
            let wanted = [bank[0].to_string(), if cross { bank[0].to_string() } else { ".".into() }];
            t.same(|| format!("({i}, {j})"), [row[i].to_string(), row[10 + i].to_string()], wanted);
        }
    }
    t
}

fn depth() -> Tally {
    let mut t = Tally::new("depth");
    t.same(|| "figure".into(), library::depth(plan(5, 2, 1), 7, 4), told(0, &[8]));
    t.same(|| "table, 12".into(), library::depth(plan(5, 2, 1), 0, 4), told(12, &[0]));
    t.same(|| "11 before 12".into(), library::depth(plan(5, 5, 1), 0, 4), told(11, &[0]));
    t.same(|| "the largest".into(), library::depth(plan(1, 0, 1), 4096, 4096), told(0, &[1 << 24]));
    let mut random = Random::new(3);
    for round in 0..20_000 {
        let p = if round % 3 == 0 { any_plan(&mut random) } else { legal_plan(&mut random) };
        let mut side = || if random.from_to(0, 1) == 0 { random.one_of(&SIDES) } else { random.from_to(1, 4096) as u32 };
        let (w, h) = (side(), side());
        t.same(|| format!("{p:?} {w} {h}"), library::depth(p, w, h), as_told(oracle::depth(p, w, h), |n| vec![n as u64]));
    }
    t
}

fn address() -> Tally {
    let mut t = Tally::new("address");
    t.same(|| "figure".into(), library::address(plan(5, 2, 1), 7, 4, (6, 3)), told(0, &[7]));
    t.same(|| "table, 14".into(), library::address(plan(5, 2, 1), 7, 4, (7, 0)), told(14, &[0]));
    t.same(|| "last row".into(), library::address(plan(5, 2, 1), 7, 4, (0, 4)), told(14, &[0]));
    t.same(|| "column -1".into(), library::address(plan(5, 2, 1), 7, 4, (-1, 0)), told(14, &[0]));
    t.same(|| "12 before 14".into(), library::address(plan(5, 2, 1), 4097, 4, (-1, 0)), told(12, &[0]));
    let last = library::address(plan(1, 0, 1), 4096, 4096, (4095, 4095));
    t.same(|| "the largest".into(), last, told(0, &[(1 << 24) - 1]));
    let mut random = Random::new(4);
    for round in 0..40_000 {
        let p = if round % 5 == 0 { any_plan(&mut random) } else { legal_plan(&mut random) };
        let mut side = || if random.from_to(0, 3) == 0 { random.one_of(&SIDES) } else { random.from_to(1, 4096) as u32 };
        let (w, h) = (side(), side());
        let mut along = |side: u32| match random.from_to(0, 4) {
            0 => any_coordinate(&mut random),
            1 => side.min(5000) as i16 - random.from_to(0, 1) as i16,
            _ => random.from_to(0, i64::from(side.clamp(1, 4096)) - 1) as i16,
        };
        let v = (along(w), along(h));
        let wanted = as_told(oracle::address(p, w, h, wide(v)), |n| vec![n as u64]);
        t.same(|| format!("{p:?} {w} {h} {v:?}"), library::address(p, w, h, v), wanted);
    }
    t
}

fn locate() -> Tally {
    let mut t = Tally::new("reverse map");
    t.same(|| "figure".into(), library::locate(plan(5, 2, 1), 7, 4, 0, 7), told(0, &[6, 3]));
    t.same(|| "figure".into(), library::locate(plan(5, 2, 1), 7, 4, 4, 1), told(15, &[0]));
    t.same(|| "table, 15".into(), library::locate(plan(5, 2, 1), 7, 4, 5, 0), told(15, &[0]));
    t.same(|| "address = depth".into(), library::locate(plan(5, 2, 1), 7, 4, 0, 8), told(15, &[0]));
    t.same(|| "far".into(), library::locate(plan(5, 2, 1), 7, 4, u64::MAX, u64::MAX), told(15, &[0]));
    t.same(|| "bank past 32 bits".into(), library::locate(plan(5, 2, 1), 7, 4, 1 << 32, 7), told(15, &[0]));
    t.same(|| "address past 32 bits".into(), library::locate(plan(5, 2, 1), 7, 4, 0, (1 << 32) + 7), told(15, &[0]));
    let last = library::locate(plan(1, 0, 1), 4096, 4096, 0, (1 << 24) - 1);
    t.same(|| "the last pixel".into(), last, told(0, &[4095, 4095]));
    t.same(|| "12 before 15".into(), library::locate(plan(5, 2, 1), 7, 0, 9, 9), told(12, &[0]));
    t.same(|| "11 before 12".into(), library::locate(plan(5, 2, 1025), 7, 0, 9, 9), told(11, &[0]));
    let mut random = Random::new(5);
    // small pictures: every bank and address, one past each included
    for _ in 0..150 {
        let a = random.from_to(1, 9);
        let p = plan(a as u32, random.from_to(0, a - 1) as u32, random.from_to(1, 5) as u32);
        let (w, h) = (random.from_to(1, 13) as u32, random.from_to(1, 13) as u32);
        let depth = oracle::depth(p, w, h).unwrap() as u64;
        for bank in 0..=u64::from(p.a * p.d) {
            for address in 0..=depth {
                let wanted = as_told(oracle::locate(p, w, h, bank, address), |v| vec![v.0 as u64, v.1 as u64]);
                t.same(|| format!("{p:?} {w} {h} {bank} {address}"), library::locate(p, w, h, bank, address), wanted);
            }
        }
    }
    // what is refused before the bank and the address are looked at
    for _ in 0..5_000 {
        let (p, w, h) = (any_plan(&mut random), random.one_of(&SIDES), random.one_of(&SIDES));
        if let Err((number, place)) = oracle::depth(p, w, h) {
            t.same(|| format!("{p:?} {w} {h}"), library::locate(p, w, h, 0, 0), told(number, &[place]));
        }
    }
    // large pictures: a pixel is found again at its bank and address; there is no bank N and no address depth
    for _ in 0..40_000 {
        let p = legal_plan(&mut random);
        let (w, h) = (random.from_to(1, 4096), random.from_to(1, 4096));
        let depth = oracle::depth(p, w as u32, h as u32).unwrap() as u64;
        let banks = u64::from(p.a * p.d);
        for (bank, address) in [(banks, 0), (0, depth), (banks - 1, depth), (banks, depth - 1)] {
            let got = library::locate(p, w as u32, h as u32, bank, address);
            t.same(|| format!("{p:?} {w} {h} {bank} {address}"), got, told(15, &[0]));
        }
        let v = (random.from_to(0, w - 1), random.from_to(0, h - 1));
        let bank = oracle::bank(p, v).unwrap() as u64;
        let address = oracle::address(p, w as u32, h as u32, v).unwrap() as u64;
        let wanted = told(0, &[v.0 as u64, v.1 as u64]);
        t.same(|| format!("{p:?} {w} {h} {bank} {address}"), library::locate(p, w as u32, h as u32, bank, address), wanted);
    }
    t
}

pub fn run() -> Vec<Tally> {
    vec![normal_form(), bank(), picture(), depth(), address(), locate()]
}
