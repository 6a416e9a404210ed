//! The edges of 13 for the sums (Card 6 of document 02), which of two faults is told, and the sums in lists of calls in numbers. The
//! answers and replies are stated here, and compared with the brute force too.

use crate::calls::{Call, Kind, Picture};
use crate::library::Plan;
use crate::memory::Lent;
use crate::pictures::{cross, expect, record};
use crate::run_edges::{Edges, MOST};
use crate::runs::Case;
use crate::search::plan;
use crate::sum_figures::WAYS;
use crate::{told, Tally};

const WITH_SUMS: [Kind; 4] = [Kind::Store, Kind::Clear, Kind::MakeSums, Kind::ReadSum];
const WITHOUT: [Kind; 4] = [Kind::Load, Kind::Sum, Kind::Fetch, Kind::Ring];

// Sums of no entry, of one less than there are banks, of just as many, and of more: from 1 to 1,024 banks. A call that is not lent
// the sums is not refused for them, not even in a list.
fn entries() -> Tally {
    let mut t = Tally::new("sums: no entry, N - 1, N and more");
    let book = record(&[vec![(0, 0)]]);
    let shapes = [(1, 0, 1), (2, 1, 1), (1, 0, 2), (5, 2, 1), (3, 2, 4), (1023, 5, 1), (1024, 1023, 1), (1, 0, 1024), (32, 31, 32)];
    for (a, b, d) in shapes {
        for (_, way) in WAYS {
            // sides of a ring where there are few banks
            let side = if a * d < 100 { (a * d) as u32 } else { 2 };
            let mut picture = Picture::new(plan(a, b, d), side, side);
            picture.way = way;
            let n = (a * d) as usize;
            for entries in [0, 1, n / 2, n - 1, n, n + 1, n + 16] {
                let lent = Lent { entries, ..picture.lent };
                for kind in WITH_SUMS {
                    let number = if entries < n { 13 } else { 0 };
                    expect(&mut t, Call { k: n as u64 - 1, ..Call::new(kind, lent) }, number, &book, &mut picture);
                }
                // bank N, which may be an entry
                for kind in [Kind::Clear, Kind::ReadSum] {
                    let number = if entries < n { 13 } else { 15 };
                    expect(&mut t, Call { k: n as u64, ..Call::new(kind, lent) }, number, &book, &mut picture);
                }
                for kind in WITHOUT {
                    let number = if kind == Kind::Ring && n > 100 { 18 } else { 0 };
                    expect(&mut t, Call { k: n as u64 - 1, ..Call::new(kind, lent) }, number, &book, &mut picture);
                }
            }
        }
    }
    t
}

// What can be wrong with a call.
#[derive(Clone, Copy, Debug)]
enum Fault {
    Plan,
    Sides,
    Words,
    Entries,
    Pixel,
    Bank,
}

fn break_call(c: &mut Call, fault: Fault) {
    let Plan { a, d, .. } = c.lent.plan;
    match fault {
        Fault::Plan => c.lent.plan.b = a,
        Fault::Sides => c.lent.w = 0,
        Fault::Words => c.lent.words -= 1,
        Fault::Entries => c.lent.entries -= 1,
        Fault::Pixel => c.v = (-1, 0),
        Fault::Bank => c.k = (a * d).into(),
    }
}

// Two faults and the number that is told; a call that reads a sum has no fault by sides or words.
fn two_faults() -> Tally {
    use Fault::*;
    let mut t = Tally::new("sums: which of two faults is told");
    let book = record(&[vec![(0, 0)]]);
    let both = [([Plan, Entries], 11), ([Sides, Entries], 12), ([Words, Entries], 13), ([Plan, Words], 11), ([Sides, Words], 12)];
    let store = [([Entries, Pixel], 13), ([Words, Pixel], 13), ([Sides, Pixel], 12), ([Plan, Pixel], 11), ([Pixel, Bank], 14)];
    let clear = [([Entries, Bank], 13), ([Words, Bank], 13), ([Sides, Bank], 12), ([Plan, Bank], 11), ([Pixel, Bank], 15)];
    let by_plan = [([Plan, Entries], 11), ([Plan, Bank], 11), ([Plan, Sides], 11), ([Plan, Words], 11)];
    let read = [([Entries, Bank], 13), ([Entries, Sides], 13), ([Bank, Sides], 15), ([Bank, Words], 15), ([Sides, Words], 0)];
    let of_kind = |kind: Kind| match kind {
        Kind::Store => [&both[..], &store].concat(),
        Kind::Clear => [&both[..], &clear].concat(),
        Kind::MakeSums => [&both[..], &[([Pixel, Bank], 0)]].concat(),
        _ => [&by_plan[..], &read].concat(),
    };
    for (a, b, d) in [(1, 0, 1), (5, 2, 1), (1024, 7, 1), (32, 0, 32)] {
        for ((_, way), kind) in WAYS.into_iter().flat_map(|way| WITH_SUMS.map(|kind| (way, kind))) {
            let mut picture = Picture::new(plan(a, b, d), 7, 4);
            picture.way = way;
            for (faults, number) in of_kind(kind) {
                let mut c = Call::new(kind, picture.lent);
                faults.into_iter().for_each(|fault| break_call(&mut c, fault));
                expect(&mut t, c, number, &book, &mut picture);
            }
        }
    }
    t
}

// A call of every kind, on the cross, and a read and a walk of bank N.
const CALLS: [[u64; 5]; 10] = [
    [0, 3, 2, 7, 0],
    [1, 0, 0, 1, 0],
    [2, 3, 2, 0, 0],
    [3, 3, 2, 0, 5],
    [4, 3, 2, 0, 5],
    [5, 0, 0, 0, 0],
    [6, 0, 0, 4, 0],
    [7, 0, 0, 4, 0],
    [6, 0, 0, 5, 0],
    [7, 0, 0, 5, 0],
];

// Too few entries, wrong sides, a memory that is too short, and a plan that is none, for a whole list.
fn shared(t: &mut Tally) {
    let (book, numbers) = (record(&[cross()]), CALLS.concat());
    let sound = Lent::new(plan(5, 2, 1), 10, 5);
    for (lent, wanted) in [
        (sound, [0, 0, 0, 0, 0, 0, 0, 0, 15, 15]),
        (Lent { entries: 6, ..sound }, [0, 0, 0, 0, 0, 0, 0, 0, 15, 15]),
        (Lent { entries: 4, ..sound }, [13, 13, 0, 0, 0, 13, 0, 13, 15, 13]),
        (Lent { entries: 0, ..sound }, [13, 13, 0, 0, 0, 13, 0, 13, 15, 13]),
        (Lent { w: 0, ..sound }, [12, 12, 12, 12, 12, 12, 12, 0, 12, 15]),
        (Lent { h: 4097, ..sound }, [12, 12, 12, 12, 12, 12, 12, 0, 12, 15]),
        (Lent { w: 0, entries: 4, ..sound }, [12, 12, 12, 12, 12, 12, 12, 13, 12, 13]),
        (Lent { words: 49, ..sound }, [13, 13, 13, 13, 13, 13, 13, 0, 13, 15]),
        (Lent { words: 49, entries: 4, ..sound }, [13; 10]),
    ] {
        for content in [0, 9] {
            let case = Case { record: &book, r: 1, lent, numbers: &numbers, outs: 10, replies: 120, content };
            for (_, left) in [case.ask(t), case.ask_finder(t, 1024)] {
                let first: Vec<u64> = left.replies[..120].iter().copied().step_by(12).collect();
                t.same(|| format!("the replies of {case:?}"), first, wanted.to_vec());
            }
        }
    }
    let lent = Lent { plan: plan(5, 5, 1), ..sound };
    let case = Case { record: &book, r: 1, lent, numbers: &numbers, outs: 10, replies: 120, content: 0 };
    let first: Vec<u64> = case.ask(t).1.replies[..120].iter().copied().step_by(12).collect();
    t.same(|| format!("the replies of {case:?}"), first, vec![11; 10]);
}

// A list with all numbers of its replies, its memory and its sums written out. At the start the sums of banks 0 and 1 are 1 and
// 2^64 - 2, and all words are 0. (0,0) and (6,3) are in bank 0, at 0 and 7 of the memory, (1,0) is in bank 1, at 8.
fn written_out(t: &mut Tally) {
    let before = [[7, 0, 0, 1, 0], [0, 1, 0, 9, 0], [7, 0, 0, 1, 0], [6, 0, 0, 1, 0], [0, 1, 0, 2, 0], [7, 0, 0, 1, 0]];
    let made = [[5, 65535, 65535, MOST, MOST], [7, 9, 9, 1, MOST], [0, 6, 3, 65535, 0], [0, 0, 0, 65535, 0]];
    let after = [[7, 0, 0, 0, 0], [6, 0, 0, 0, 0], [0, 6, 3, 65535, 0], [1, 0, 0, 1, 0], [7, 0, 0, 1, 0], [7, 0, 0, 0, 0]];
    let numbers = [&before[..], &made, &after].concat().concat();
    let (book, lent) = (record(&[cross()]), Lent::new(plan(5, 2, 1), 7, 4));
    let case = Case { record: &book, r: 1, lent, numbers: &numbers, outs: 0, replies: 192, content: 0 };
    let sums = [MOST - 1, 0, 7, 9, 0, 0, 0, 2, 0, 0, 131_070, 131_070, 0, 0, 0, 131_070];
    let mut wanted = case.start();
    wanted.replies[..192].copy_from_slice(&sums.map(|sum| [0, sum, 0, 0, 0, 0, 0, 0, 0, 0, 0, 0]).concat());
    (wanted.memory[0], wanted.memory[7]) = (65535, 65535);
    wanted.sums[..5].copy_from_slice(&[131_070, 0, 0, 0, 0]);
    let (got, found) = (case.ask(t), case.ask_finder(t, 1024));
    t.same(|| "run_list, written out".into(), got, (told(0, &[]), wanted.clone()));
    t.same(|| "find_and_run, written out".into(), found, (told(0, &[5, 2, 1]), wanted));
}

fn in_lists() -> Tally {
    let mut t = Tally::new("sums in lists, at their edges");
    let e = Edges::new(7, 4);
    // they have no room: any number stands there
    for room in [0, 1, 1 << 32, MOST] {
        e.made(&mut t, &[[5, 0, 0, room, room], [6, 0, 0, 4, room], [7, 0, 0, 4, room], [3, 3, 2, 0, 5]], &[0; 4]);
    }
    for k in 0..5 {
        e.made(&mut t, &[[7, 0, 0, k, 0], [0, 3, 2, 9, 0], [7, 0, 0, k, 0], [5, 0, 0, 0, 0], [7, 0, 0, k, 0]], &[0; 5]);
    }
    for k in [5, 6, 65535, 65536, 1 << 32, (1 << 32) + 4, 1 << 63, MOST] {
        e.made(&mut t, &[[6, 0, 0, k, 0], [7, 0, 0, k, 0], [5, 0, 0, k, 0]], &[15, 15, 0]);
    }
    // what is no call, behind calls on the sums and before them
    for bad in [[8, 0, 0, 0, 0], [5, 65536, 0, 0, 0], [5, 0, 65536, 0, 0], [6, 65536, 0, 0, 0], [7, 0, 65536, 0, 0]] {
        e.not_made(&mut t, &[[5, 0, 0, 0, 0], [0, 3, 2, 7, 0], bad], 0, 255, 10);
        e.not_made(&mut t, &[bad, [5, 0, 0, 0, 0]], 0, 255, 0);
    }
    shared(&mut t);
    written_out(&mut t);
    t
}

pub fn run() -> Vec<Tally> {
    vec![entries(), two_faults(), in_lists()]
}
