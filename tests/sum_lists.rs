//! Lists of calls in numbers that keep, read and make afresh the sums of the banks (Card 6 of document 02), mixed with every other
//! call, on memories and sums of any content: by run_list and find_and_run, beside the brute force and beside single calls.

use crate::calls::{Call, Kind};
use crate::library::{Plan, Told};
use crate::memory::Lent;
use crate::run_cases::Buffers;
use crate::runs::{damage, draw, limits, numbers_of, Case, Drawn};
use crate::sums::walk;
use crate::{Random, Tally};

// Calls on the sums put between those of a drawn list.
fn with_sums(drawn: &Drawn, random: &mut Random) -> Vec<Call> {
    let kinds = [Kind::ReadSum, Kind::ReadSum, Kind::Sum, Kind::Sum, Kind::MakeSums];
    let banks = drawn.lent.banks().clamp(1, 1024);
    let mut calls = Vec::new();
    for c in &drawn.calls {
        calls.push(*c);
        while random.from_to(0, 1) == 0 {
            let past = random.one_of(&[0, 1, 1 << 32, 1 << 63]) + banks as u64;
            let k = if random.from_to(0, 9) == 0 { past } else { random.from_to(0, banks - 1) as u64 };
            calls.push(Call { kind: random.one_of(&kinds), k, room: 0, ..*c });
        }
    }
    calls
}

// What was seen in the lists: sums that were made afresh, look-ups before that, those of them that are not the walk's figure,
// look-ups behind it, and calls on the sums that were refused.
#[derive(Debug, Default)]
struct Seen {
    made: u64,
    before: u64,
    other: u64,
    behind: u64,
    refused: u64,
}

// The words of a picture, changed as the replies tell, and the look-ups held against them: from the first call on that made the
// sums afresh each is the sum of its bank's words, and a walk always is.
fn hold(t: &mut Tally, case: &Case, left: &Buffers, seen: &mut Seen) {
    let (g, mut memory, mut made) = (case.lent, case.start().memory, false);
    for (x, reply) in case.numbers.chunks(5).zip(left.replies.chunks(12)) {
        let signed = |u: u64| u as i64 - if u < 32768 { 0 } else { 65536 };
        seen.refused += u64::from(x[0] >= 5 && reply[0] != 0);
        if reply[0] != 0 {
            continue;
        }
        let what = || format!("{x:?} of {case:?}");
        let sum = |memory: &[u16]| walk(&g, memory, x[3] as usize) as u64;
        match x[0] {
            0 => memory[g.place_of((signed(x[1]), signed(x[2])))] = x[3] as u16,
            1 => memory[x[3] as usize * g.depth() as usize..][..g.depth() as usize].fill(0),
            5 => made = true,
            6 => t.same(what, reply[1], sum(&memory)),
            7 if made => t.same(what, reply[1], sum(&memory)),
            7 if g.is_held() => seen.other += u64::from(reply[1] != sum(&memory)),
            _ => {}
        }
        seen.behind += u64::from(x[0] == 7 && made);
        seen.before += u64::from(x[0] == 7 && !made);
    }
    seen.made += u64::from(made);
    for k in 0..if made { g.banks() as usize } else { 0 } {
        t.same(|| format!("sum {k} at the end of {case:?}"), u128::from(left.sums[k]), walk(&g, &memory, k));
    }
}

fn plan_of(told: &Told) -> Plan {
    Plan { a: told.row[0] as u32, b: told.row[1] as u32, d: told.row[2] as u32 }
}

fn lists(count: usize) -> Tally {
    let mut t = Tally::new("sums: 5,000 random lists on memories and sums of any content");
    let (mut random, mut seen, mut gave) = (Random::new(61), Seen::default(), [0; 256]);
    for _ in 0..count {
        let drawn = draw(&mut t, &mut random);
        let calls = with_sums(&drawn, &mut random);
        let mut numbers: Vec<u64> = calls.iter().flat_map(|c| numbers_of(c, random.next())).collect();
        let outs = calls.iter().map(|c| if c.kind.fetches() { c.room } else { 0 }).sum::<usize>() + random.one_of(&[0, 0, 5]);
        let replies = 12 * calls.len() + random.one_of(&[0, 0, 7]);
        let (record, r, lent, content) = (&drawn.record, drawn.r, drawn.lent, random.from_to(1, 1 << 40) as u64);
        let limits = limits(record, r, &mut random);
        let case = Case { record, r, lent, numbers: &numbers, outs, replies, content };
        let (_, left) = case.ask(&mut t);
        hold(&mut t, &case, &left, &mut seen);
        for &limit in &limits {
            let (told, left) = case.ask_finder(&mut t, limit);
            gave[told.number as usize] += 1;
            if told.number == 0 {
                hold(&mut t, &Case { lent: Lent { plan: plan_of(&told), ..lent }, ..case.clone() }, &left, &mut seen);
            }
        }
        damage(&mut numbers, &mut random);
        let case = Case { record, r, lent, numbers: &numbers, outs, replies, content };
        gave[case.ask(&mut t).0.number as usize] += 1;
        gave[case.ask_finder(&mut t, limits[0]).0.number as usize] += 1;
    }
    let Seen { made, before, other, behind, refused } = seen;
    let often = made > 1_000 && before > 5_000 && other > 5_000 && behind > 20_000 && refused > 5_000;
    t.same(|| format!("{seen:?}"), often, true);
    t.same(|| "lists were made, and refused by 16 and by 255".into(), [0, 16, 255].map(|n| gave[n] > 500), [true; 3]);
    t
}

pub fn run() -> Vec<Tally> {
    vec![lists(5_000)]
}
