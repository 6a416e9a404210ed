//! Lists of calls in numbers: run_list and find_and_run beside the single calls, and beside the map of what was stored. All
//! twelve numbers of the answer and of every reply are compared, and every word of the memory, of the sums and of the outputs. The
//! edges are in run_edges.rs and ring_edges.rs.

use crate::calls::{Call, Kind};
use crate::library::{self, Record, Told};
use crate::lists::{self, new_list};
use crate::memory::Lent;
pub use crate::run_cases::{numbers_of, Case};
use crate::run_cases::{Buffers, KINDS};
use crate::{ring_edges, run_edges, told, wide, Random, Tally};

/// A drawn list: its record, which may be none, its r, which may be none, what each call is lent, which may be wrong, and calls,
/// legal and refused ones.
pub struct Drawn {
    pub record: Record,
    pub r: u32,
    pub lent: Lent,
    pub calls: Vec<Call>,
}

pub fn draw(t: &mut Tally, random: &mut Random) -> Drawn {
    let mut list = new_list(t, random, &[1, 1, 1, 1, 2, 3, 4, 5, 6, 7, 8]);
    let mut record = list.record.clone();
    let mut shared = list.legal(Kind::Fetch, random);
    let few = random.from_to(0, shared.lent.banks() - 1) as usize;
    shared.lent.entries = if random.from_to(0, 7) == 0 { few } else { list.entries(random) };
    while random.from_to(0, 5) == 0 {
        list.break_one(&mut shared, &mut record, random);
    }
    let (r, lent, mut other) = (shared.r, shared.lent, record.clone());
    let steps = random.one_of(&[0, 1, 2, 5, 20, 60, 60, 200]);
    let mut calls = Vec::new();
    while calls.len() < steps {
        let kind = list.kind(calls.len(), random);
        let mut c = list.legal(kind, random);
        while random.from_to(0, 3) == 0 {
            list.break_one(&mut c, &mut other, random);
        }
        if kind == Kind::Store && lent.has(wide(c.v)) {
            list.stored.push(c.v);
        }
        calls.push(Call { r, lent, ..c });
    }
    Drawn { record, r, lent, calls }
}

// Some numbers of a list are changed, or some are left out or added at its end.
pub fn damage(numbers: &mut Vec<u64>, random: &mut Random) {
    let edges = [0, 1, 2, 3, 4, 5, 6, 7, 8, 64, 65, 32767, 32768, 65535, 65536, 1 << 32, 1 << 63, u64::MAX];
    while random.from_to(0, 2) > 0 {
        match random.from_to(0, 9) {
            0 => numbers.extend(vec![3; random.from_to(1, 6) as usize]),
            1 => numbers.truncate(numbers.len().saturating_sub(random.from_to(1, 6) as usize)),
            _ if numbers.is_empty() => {}
            _ => {
                let at = random.from_to(0, numbers.len() as i64 - 1) as usize;
                numbers[at] = random.one_of(&edges);
            }
        }
    }
}

// Limits about the count of the plan that there is, and those that are none.
pub fn limits(record: &Record, r: u32, random: &mut Random) -> Vec<u32> {
    let found = library::find(record, r, 1024);
    let banks = if found.number == 0 { (found.row[0] * found.row[2]) as u32 } else { 1 };
    vec![banks, 1024, random.one_of(&[banks - 1, banks + 1, 0, 1, 1023, 1025, u32::MAX])]
}

// How often each kind of call gave each number, under the plan given and under the finder's, and what the lists themselves gave.
struct Gave {
    calls: [[u64; 21]; 8],
    found_calls: [[u64; 21]; 8],
    lists: [u64; 256],
    found: [u64; 256],
}

// Counts the numbers that the calls of a list gave.
fn count_numbers(calls: &[Call], left: &Buffers, gave: &mut [[u64; 21]; 8]) {
    for (k, c) in calls.iter().enumerate() {
        let kind = KINDS.iter().position(|kind| *kind == c.kind).unwrap();
        gave[kind][left.replies[12 * k] as usize] += 1;
    }
}

impl Gave {
    fn reached(&self, t: &mut Tally) {
        for (k, kind) in KINDS.iter().enumerate() {
            for &number in [0].iter().chain(kind.refusals()) {
                let gave = self.calls[k][number as usize] > 0;
                t.same(|| format!("{kind:?} never gave {number}"), gave, true);
                // the finder gives a plan only where book and r are sound, and it is one and suits
                let (gave, never) = (self.found_calls[k][number as usize] > 0, [2, 3, 4, 19, 20, 11, 10].contains(&number));
                t.same(|| format!("{kind:?} gave {number} under a plan found"), gave, !never);
            }
        }
        let numbers = |of: &[u64; 256]| (0..256).filter(|&n| of[n] > 0).collect::<Vec<usize>>();
        t.same(|| "the numbers that run_list gave".into(), numbers(&self.lists), vec![0, 16, 255]);
        t.same(|| "the numbers that find_and_run gave".into(), numbers(&self.found), vec![0, 2, 3, 4, 6, 7, 16, 19, 20, 255]);
    }
}

fn random_lists(count: usize) -> Tally {
    let mut t = Tally::new("6,000 random lists at once, by run_list and find_and_run");
    let mut random = Random::new(27);
    let mut gave = Gave { calls: [[0; 21]; 8], found_calls: [[0; 21]; 8], lists: [0; 256], found: [0; 256] };
    for _ in 0..count {
        let Drawn { record, r, lent, calls } = draw(&mut t, &mut random);
        let mut numbers: Vec<u64> = calls.iter().flat_map(|c| numbers_of(c, random.next())).collect();
        let rooms = calls.iter().map(|c| if c.kind.fetches() { c.room } else { 0 });
        let outs = rooms.sum::<usize>() + random.one_of(&[0, 0, 5]);
        let replies = 12 * calls.len() + random.one_of(&[0, 0, 7]);
        let (record, limits) = (&record, limits(&record, r, &mut random));
        let case = Case { record, r, lent, numbers: &numbers, outs, replies, content: 0 };
        let (told, left) = case.ask(&mut t);
        t.same(|| format!("a list of calls, {case:?}"), told.number, 0);
        count_numbers(&calls, &left, &mut gave.calls);
        for &limit in &limits {
            let (told, left) = case.ask_finder(&mut t, limit);
            gave.found[told.number as usize] += 1;
            if told.number == 0 {
                count_numbers(&calls, &left, &mut gave.found_calls);
            }
        }
        damage(&mut numbers, &mut random);
        let outs = outs - random.one_of(&[0, 0, 0, 1]).min(outs);
        let replies = replies - random.one_of(&[0, 0, 0, 1]).min(replies);
        let case = Case { record, r, lent, numbers: &numbers, outs, replies, content: 0 };
        gave.lists[case.ask(&mut t).0.number as usize] += 1;
        gave.found[case.ask_finder(&mut t, limits[0]).0.number as usize] += 1;
    }
    gave.reached(&mut t);
    t
}

// A call as a list of one. 999 where the rest of the reply is not 0.
pub fn by_list(book: &Record, c: &Call, mem: &mut [u16], sums: &mut [u64], out: &mut [u16]) -> Told {
    let (Lent { plan, w, h, .. }, mut reply) = (c.lent, [7; 12]);
    let list = library::run_list(book, c.r, plan, w, h, mem, sums, &numbers_of(c, 12345), out, &mut reply);
    let values = match reply[0] {
        0 => usize::from(!matches!(c.kind, Kind::Store | Kind::Clear | Kind::MakeSums)),
        10 => 3 + c.r as usize,
        _ => 1,
    };
    let fine = list == told(0, &[]) && reply[1 + values..].iter().all(|&x| x == 0);
    told(if fine { reply[0] } else { 999 }, &reply[1..1 + values])
}

pub fn run() -> Vec<Tally> {
    let cycles = [1, 1, 1, 1, 2, 3, 4, 5, 6, 7, 8];
    let ones = lists::lists("500 random lists of 200 calls, each call as a list of one", 28, 500, by_list, &cycles);
    vec![run_edges::run(), ring_edges::run(), random_lists(6_000), ones]
}
