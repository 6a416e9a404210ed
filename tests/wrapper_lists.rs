//! The wrapper's lists of calls as types: random lists beside the wrapper's single calls, which lists.rs compares with the
//! brute force; then a turntable's ring fetches, the sums, the edges, and what is said of a list that was not made.

use crate::calls::{self, Kind};
use crate::library::bankplan::{numbers_of, replies_of, Book, Call, Clash, NotMade, Picture, Plan, Refused, Reply};
use crate::library::bankplan::{CALL_NUMBERS, CONDITIONS, NOT_CALLS, REPLY_NUMBERS};
use crate::memory::Lent;
use crate::pictures::cross;
use crate::runs::{self, Case, Drawn};
use crate::wrapper::{by_wrapper, told};
use crate::{oracle, Random, Tally};

fn typed(c: &calls::Call) -> Call {
    match c.kind {
        Kind::Store => Call::Store { pixel: c.v, word: c.x },
        Kind::Clear => Call::Clear { bank: c.k },
        Kind::Load => Call::Load { pixel: c.v },
        Kind::Fetch => Call::Fetch { pattern: c.n, at: c.v, room: c.room },
        Kind::Ring => Call::RingFetch { pattern: c.n, at: c.v, room: c.room },
        Kind::MakeSums => Call::MakeSums,
        Kind::Sum => Call::Sum { bank: c.k },
        Kind::ReadSum => Call::ReadSum { bank: c.k },
    }
}

// The memory and the sums, and what stands behind what is lent of them.
type Left = (Vec<u16>, Vec<u64>);

// The reply that the single call gives, with the words of a fetch.
fn single(book: &Book, c: &calls::Call, (mem, sums): &mut Left) -> Reply {
    // no pattern has more than 64 pixels
    let mut out = vec![0; c.room.min(64)];
    let said = by_wrapper(book, c, &mut mem[..c.lent.words], &mut sums[..c.lent.entries], &mut out);
    match (said.number, c.kind) {
        (0, Kind::Store | Kind::Clear | Kind::MakeSums) => Reply::Done,
        (0, Kind::Sum | Kind::ReadSum) => Reply::Sum(said.row[0]),
        (0, Kind::Load) => Reply::Word(said.row[0] as u16),
        (0, _) => Reply::Words(out[..said.row[0] as usize].to_vec()),
        _ => {
            let refused = refusal(&said.row, said.number);
            assert_eq!(told(Err::<(), _>(refused), |()| vec![]), said);
            Reply::Refused(refused)
        }
    }
}

fn refusal(row: &[u64], number: u64) -> Refused {
    let positions: Vec<usize> = row.iter().skip(2).map(|&e| e as usize).collect();
    let clash = row.get(1).map(|&n| Clash::new(n as usize, &positions));
    Refused { number, place: row[0] as usize, clash }
}

// How many ring fetches of a list gave words, and how many 18 refused.
fn rings(calls: &[Call], replies: &[Reply]) -> (usize, usize) {
    let of = |is: fn(&Reply) -> bool| {
        let pairs = calls.iter().zip(replies);
        pairs.filter(|(call, reply)| matches!(call, Call::RingFetch { .. }) && is(reply)).count()
    };
    (of(|reply| matches!(reply, Reply::Words(_))), of(|reply| matches!(reply, Reply::Refused(refused) if refused.number == 18)))
}

impl Drawn {
    fn start(&self, lent: Lent) -> Left {
        let case = Case { record: &self.record, r: self.r, lent, numbers: &[], outs: 0, replies: 0, content: 0 };
        (case.start().memory, case.start().sums)
    }

    // By the wrapper's single calls under a plan.
    fn by_calls(&self, lent: Lent) -> (Vec<Reply>, Left) {
        let mut left = self.start(lent);
        let one = |c: &calls::Call| single(&self.record, &calls::Call { lent, ..*c }, &mut left);
        let replies = self.calls.iter().map(one).collect();
        (replies, left)
    }

    // Under the finder's plan, by one call and by single ones.
    fn ask_finder(&self, t: &mut Tally, list: &[Call], limit: u32) {
        let Drawn { record: book, r, lent, calls } = self;
        let found = book.find(*r, limit);
        let under = Lent { plan: found.unwrap_or(lent.plan), ..*lent };
        let mut left = self.start(under);
        let (mem, sums) = (&mut left.0[..lent.words], &mut left.1[..lent.entries]);
        let got = book.find_and_run(*r, limit, (lent.w, lent.h), mem, sums, list);
        let wanted = match found {
            Ok(plan) => {
                let (replies, left) = self.by_calls(under);
                (Ok((plan, replies)), left)
            }
            Err(refused) => (Err(NotMade::Refused(refused)), self.start(under)),
        };
        t.same(|| format!("limit {limit}, {lent:?}, {calls:?}"), (got, left), wanted);
    }
}

fn random_lists(t: &mut Tally) {
    let mut random = Random::new(29);
    let (mut served, mut refused) = (0, 0);
    for _ in 0..1_500 {
        let mut drawn = runs::draw(t, &mut random);
        for c in &mut drawn.calls {
            // as a type a fetch may have any room
            if c.kind.fetches() && random.from_to(0, 9) == 0 {
                c.room = random.one_of(&[64, 65, 1 << 32, usize::MAX]);
            }
        }
        let Drawn { record: book, r, lent, calls } = &drawn;
        let list: Vec<Call> = calls.iter().map(typed).collect();
        let what = || format!("{lent:?}, {calls:?}");
        // a call that has no use for a number has 0 there
        let numbers: Vec<u64> = calls.iter().flat_map(|c| runs::numbers_of(c, 0)).collect();
        t.same(what, numbers_of(&list), numbers);
        let mut left = drawn.start(*lent);
        let (mem, sums) = (&mut left.0[..lent.words], &mut left.1[..lent.entries]);
        let got = Picture { plan: lent.plan, width: lent.w, height: lent.h }.run_list(book, *r, mem, sums, &list);
        let (replies, wanted) = drawn.by_calls(*lent);
        let (words, no_ring) = rings(&list, &replies);
        served += words;
        refused += no_ring;
        t.same(what, (got, left), (Ok(replies), wanted));
        drawn.ask_finder(t, &list, random.one_of(&[1024, 1024, 9, 0]));
    }
    t.same(|| format!("{served} ring fetches gave words, 18 refused {refused}"), served > 500 && refused > 50, true);
}

// A turntable of 12 by 6 whose pattern, 6 by 2, gets the plan 6, 0, 2. Each ring fetch gives the words at the wrapped pixels, as
// the list stored them; with other sides it is refused by 18, and the calls around it are made.
fn turntable(t: &mut Tally) {
    let block: Vec<(i8, i8)> = (0..12).map(|k| (k % 6, k / 6)).collect();
    let book = Book::new(&[block]).unwrap();
    let word = |i: i16, j: i16| (100 * j.rem_euclid(6) + i.rem_euclid(12) + 1) as u16;
    let stores = (0..72).map(|k| Call::Store { pixel: (k % 12, k / 12), word: word(k % 12, k / 12) });
    let at = [(0, 0), (6, 4), (9, 5), (-1, -1), (11, -6), (24, 13), (-32768, 32767), (32767, -32768)];
    let fetches = at.map(|at| Call::RingFetch { pattern: 0, at, room: 12 });
    let calls: Vec<Call> = stores.chain(fetches).collect();
    let around = |(i, j): (i16, i16)| (0..12).map(move |k| word(i.rem_euclid(12) + k % 6, j.rem_euclid(6) + k / 6)).collect();
    let words = at.map(|at| Reply::Words(around(at)));
    let wanted = [vec![Reply::Done; 72], words.to_vec()].concat();
    let got = book.find_and_run(1, 1024, (12, 6), &mut [0; 72], &mut [0; 12], &calls);
    t.same(|| "a turntable".into(), got, Ok((Plan { a: 6, b: 0, d: 2 }, wanted)));
    let no_ring = Reply::Refused(Refused { number: 18, place: 0, clash: None });
    let ring = |room| Call::RingFetch { pattern: 0, at: (5, 5), room };
    let load = Call::Load { pixel: (0, 0) };
    for (sides, served) in [((6, 2), true), ((18, 4), true), ((12, 5), false), ((11, 6), false), ((6, 12), true), ((4, 6), false)] {
        let list = [ring(12), load, ring(11)];
        let got = book.find_and_run(1, 12, sides, &mut [7; 108], &mut [], &list).map(|(_, replies)| replies);
        let short = Reply::Refused(Refused { number: 16, place: 0, clash: None });
        let (first, last) = if served { (Reply::Words(vec![7; 12]), short) } else { (no_ring.clone(), no_ring.clone()) };
        t.same(|| format!("a ring of {sides:?}"), got, Ok(vec![first, Reply::Word(7), last]));
    }
}

// A list in numbers that is none, or has too little room; nothing changes.
fn not_made(t: &mut Tally, book: &Book, picture: Picture) {
    let mut case = |numbers: &[u64], outs: usize, replies: usize, wanted: Result<(), NotMade>| {
        let lent = || (vec![3; 40], [4; 5], vec![5; outs], vec![7; replies]);
        for finder in [false, true] {
            let (mut mem, mut sums, mut out, mut rows) = lent();
            let got = match finder {
                false => picture.run_numbers(book, 1, &mut mem, &mut sums, numbers, &mut out, &mut rows),
                true => {
                    let found = book.find_and_run_numbers(1, 9, (7, 4), &mut mem, &mut sums, numbers, &mut out, &mut rows);
                    found.map(|_| ())
                }
            };
            t.same(|| format!("{numbers:?}, {outs}, {replies}"), got, wanted);
            t.same(|| format!("{numbers:?}, {outs}, {replies}"), wanted.is_err() && (mem, sums, out, rows) != lent(), false);
        }
    };
    case(&[], 0, 0, Ok(()));
    case(&[3, 3, 2, 0, 5], 5, 12, Ok(()));
    case(&[3, 3, 2, 0, 5], 4, 12, Err(NotMade::Short));
    case(&[3, 3, 2, 0, 5], 5, 11, Err(NotMade::Short));
    case(&[3, 3, 2, 0, u64::MAX], 5, 12, Err(NotMade::Short));
    case(&[3, 3, 2, 0], 5, 12, Err(NotMade::NotCalls { place: 0 }));
    case(&[4, 3, 2, 0, 5], 5, 12, Ok(()));
    case(&[4, 3, 2, 0, 5], 4, 12, Err(NotMade::Short));
    case(&[3, 3, 2, 0, 5, 4, 3, 2, 0, 5], 9, 24, Err(NotMade::Short));
    case(&[4, 65536, 2, 0, 5], 5, 12, Err(NotMade::NotCalls { place: 0 }));
    case(&[5, 0, 0, 0, 0, 6, 0, 0, 4, 0, 7, 0, 0, 4, 0], 0, 36, Ok(()));
    case(&[5, 0, 0, 0, u64::MAX], 0, 12, Ok(()));
    case(&[5, 0, 0, 0, 0], 0, 11, Err(NotMade::Short));
    case(&[7, 0, 65536, 0, 0], 5, 12, Err(NotMade::NotCalls { place: 0 }));
    case(&[2, 3, 2, 0, 0, 8, 0, 0, 0, 0], 5, 24, Err(NotMade::NotCalls { place: 5 }));
    case(&[0, 65536, 2, 0, 0], 5, 12, Err(NotMade::NotCalls { place: 0 }));
}

// A record whose pixels are not in order: a fetch is turned down by 19, the calls around it are made, and no plan is found.
fn lower(t: &mut Tally, book: &Book, picture: Picture) {
    let refused = Refused { number: 19, place: 0, clash: None };
    let mut unordered = book.clone();
    unordered.columns[1] = 1;
    let fetch = Call::Fetch { pattern: 0, at: (3, 2), room: 5 };
    let list = [Call::Store { pixel: (3, 2), word: 8 }, fetch, Call::Load { pixel: (3, 2) }];
    let (mut mem, mut sums) = ([0; 40], [0; 5]);
    let got = picture.run_list(&unordered, 1, &mut mem, &mut sums, &list);
    t.same(|| "pixels not in order".into(), got, Ok(vec![Reply::Done, Reply::Refused(refused), Reply::Word(8)]));
    let before = (mem, sums);
    let got = unordered.find_and_run(1, 1024, (7, 4), &mut mem, &mut sums, &list);
    t.same(|| "pixels not in order".into(), (got, (mem, sums)), (Err(NotMade::Refused(refused)), before));
    let words = Reply::Words(vec![0, 0, 8, 0, 0]);
    t.same(|| "pixels in order".into(), picture.run_list(book, 1, &mut mem, &mut [], &[fetch]), Ok(vec![words]));
}

// The sums as types, under 5, 2, 1 with W = 7 and H = 4: (6, 3) is in bank 0, and the sums begin wrong.
fn sums(t: &mut Tally, book: &Book) {
    let refused = |number| Reply::Refused(Refused { number, place: 0, clash: None });
    let (store, read) = (|word| Call::Store { pixel: (6, 3), word }, Call::ReadSum { bank: 0 });
    let list = [store(5), read, Call::MakeSums, read, store(65535), read, Call::Sum { bank: 0 }, Call::Clear { bank: 0 }, read];
    let wanted = |first: u64| {
        let [a, b, c, d, e] = [first.wrapping_add(5), 5, 65535, 65535, 0].map(Reply::Sum);
        vec![Reply::Done, a, Reply::Done, b, Reply::Done, c, d, Reply::Done, e]
    };
    let plan = Plan { a: 5, b: 2, d: 1 };
    for first in [0, 1, u64::MAX, u64::MAX - 5, 1 << 63] {
        let (mut mem, mut sums) = ([0; 40], [first, 2, 3, 4, 5, 6]);
        let got = book.find_and_run(1, 5, (7, 4), &mut mem, &mut sums, &list);
        t.same(|| format!("sums, {first}"), (got, sums, mem), (Ok((plan, wanted(first))), [0, 0, 0, 0, 0, 6], [0; 40]));
    }
    let few = [store(5), Call::Clear { bank: 0 }, Call::MakeSums, read, Call::Sum { bank: 5 }, Call::Load { pixel: (6, 3) }];
    let got = book.find_and_run(1, 5, (7, 4), &mut [8; 40], &mut [1; 4], &few).map(|(_, replies)| replies);
    let wanted = [vec![refused(13); 4], vec![refused(15), Reply::Word(8)]].concat();
    t.same(|| "too few sums".into(), got, Ok(wanted));
}

// The texts, the layout's numbers, and slices that are too short for the replies.
fn texts(t: &mut Tally, book: &Book, picture: Picture) {
    let mut says = |answer: NotMade, wanted: &str| t.same(|| wanted.into(), answer.to_string(), wanted.into());
    says(NotMade::NotCalls { place: 15 }, "list not made: the numbers from place 15 on are no call's");
    says(NotMade::Short, "list not made: outputs or replies too short");
    let refused = book.find_and_run(1, 4, (7, 4), &mut [], &mut [], &[]).unwrap_err();
    says(refused, "list not made: refused 7: no suiting plan within limit");
    let numbers = (CALL_NUMBERS, REPLY_NUMBERS, NOT_CALLS, CONDITIONS.len());
    t.same(|| "the layout".into(), numbers, (5, 12, 255, 20));
    let list = [Call::Load { pixel: (0, 0) }, Call::Fetch { pattern: 0, at: (3, 2), room: 5 }, Call::Clear { bank: 9 }];
    let rows = [&[0, 7], &[0; 10][..], &[0, 5], &[0; 10], &[15, 0]].concat();
    let clear = Reply::Refused(Refused { number: 15, place: 0, clash: None });
    let all = vec![Reply::Word(7), Reply::Words(vec![1, 2, 3]), clear];
    t.same(|| "short slices".into(), replies_of(&list, &rows, &[1, 2, 3]), all.clone());
    t.same(|| "short slices".into(), replies_of(&list, &rows[..24], &[1, 2, 3]), all[..2].to_vec());
    t.same(|| "short slices".into(), replies_of(&list, &[], &[]), vec![]);
    // 64 rooms that no memory has
    let most = vec![Call::Fetch { pattern: 0, at: (3, 2), room: usize::MAX }; 64];
    let got = picture.run_list(book, 1, &mut [6; 40], &mut [], &most);
    t.same(|| "large rooms".into(), got, Ok(vec![Reply::Words(vec![6; 5]); 64]));
    // a fetch of 64 words, with just their room and with more
    let block: Vec<(i8, i8)> = (0..64).map(|k| (k % 8, k / 8)).collect();
    let full = Book::new(&[block]).unwrap();
    for (room, number) in [(63, 16), (64, 0), (65, 0), (usize::MAX, 0)] {
        let calls = [Call::Fetch { pattern: 0, at: (0, 0), room }, Call::RingFetch { pattern: 0, at: (3, -5), room }];
        let wanted = match number {
            0 => Reply::Words(vec![6; 64]),
            _ => Reply::Refused(Refused { number, place: 0, clash: None }),
        };
        let got = full.find_and_run(1, 1024, (8, 8), &mut [6; 512], &mut [], &calls).map(|(_, replies)| replies);
        t.same(|| format!("64 words, room {room}"), got, Ok(vec![wanted.clone(), wanted]));
    }
}

pub fn run() -> Tally {
    let mut t = Tally::new("the wrapper: 1,500 random lists as types");
    random_lists(&mut t);
    turntable(&mut t);
    let book = oracle::record_of(&[cross()]);
    let picture = Picture { plan: book.find(1, 1024).unwrap(), width: 7, height: 4 };
    not_made(&mut t, &book, picture);
    lower(&mut t, &book, picture);
    sums(&mut t, &book);
    texts(&mut t, &book, picture);
    t
}
