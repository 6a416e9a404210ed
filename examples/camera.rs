//! A camera's buffer, from Rust: a filter of five pixels in a cross, the plan with the fewest banks for it, a picture of 7 by 4
//! under that plan, what shuffled books, suppliers and wrong positions get, the sum of a bank by a look-up and by the walk, a list
//! of calls made at once, the same filter read in two cycles, and a turntable, whose pixels are fetched around its edges. camera.c
//! does the same in C.
//!
//!     rustc --edition 2021 -O --crate-type rlib --out-dir target -L native=target/staticlib -l static=capi bindings/bankplan.rs
//!     rustc --edition 2021 -O --out-dir target --extern bankplan=target/libbankplan.rlib examples/camera.rs

use bankplan::{read_book, Book, Call, Picture, PixelRecord, Refused, Reply};
use std::error::Error;

// One pattern of five pixels, which ascend by row, then column: (0,-1), (-1,0), (0,0), (1,0), (0,1); column byte first.
const BYTES: [u8; 12] = [1, 5, 0, 0xff, 0xff, 0, 0, 0, 1, 0, 0, 1];
// The same pixels, but (-1,0) behind (0,0).
const SHUFFLED: [u8; 12] = [1, 5, 0, 0, 0xff, 0, 1, 0, 0, 0xff, 0, 1];

// Says what turned a call down.
fn say(call: &str, refused: Refused) {
    let number = refused.number;
    match refused.clash {
        Some(c) => {
            let pixels: Vec<String> = c.positions().iter().map(|e| e.to_string()).collect();
            let (last, before) = pixels.split_last().expect("a clash has r + 1 pixels");
            println!("{call}: refused {number}, pixels {} and {last} of pattern {} share a bank", before.join(", "), c.pattern)
        }
        None => println!("{call}: refused {number}"),
    }
}

// Shows the replies of a list.
fn show(replies: Vec<Reply>) {
    for reply in replies {
        match reply {
            Reply::Done => println!("list: done"),
            Reply::Word(word) => println!("list: word {word:02}"),
            Reply::Sum(sum) => println!("list: sum {sum:02}"),
            Reply::Words(words) => {
                println!("list: words {}", words.iter().map(|word| format!("{word:02}")).collect::<Vec<_>>().join(" "))
            }
            Reply::Refused(refused) => say("list", refused),
        }
    }
}

// A camera that may take two cycles needs fewer banks: each pixel's bank and cycle, and what a plan of two banks gets.
fn two_cycles(book: &Book) -> Result<(), Refused> {
    let plan = book.find(2, 1024)?;
    println!("plan in two cycles: {} {} {}, {} banks", plan.a, plan.b, plan.d, plan.banks());
    let mut cycles = [0; 64];
    let written = book.write_cycles(2, plan, 0, &mut cycles)?;
    for ((i, j), cycle) in book.pattern(0).into_iter().flatten().zip(&cycles[..written]) {
        println!("cycles: ({i}, {j}) from bank {} in cycle {cycle}", plan.bank((i.into(), j.into()))?);
    }
    if let Err(refused) = book.check(2, (2, 0), (0, 1)) {
        say("check in two cycles", refused);
    }
    Ok(())
}

// A turntable's picture of 12 by 6 closes to a ring both ways. Its filter is 6 by 2 pixels, and the plan for it is 6, 0, 2. A list
// stores a word at each pixel, then fetches around the corner.
fn turntable() -> Result<(), Box<dyn Error>> {
    let filter: Vec<(i8, i8)> = (0..12).map(|k| (k % 6, k / 6)).collect();
    let store = |(i, j)| Call::Store { pixel: (i, j), word: (100 * j + i) as u16 };
    let mut calls: Vec<Call> = (0..72).map(|k| store((k % 12, k / 12))).collect();
    calls.push(Call::RingFetch { pattern: 0, at: (9, 5), room: 12 });
    // a word to each pixel and the sums of 12 banks, all 0
    let (plan, mut replies) = Book::new(&[filter])?.find_and_run(1, 1024, (12, 6), &mut [0; 72], &mut [0; 12], &calls)?;
    println!("turntable: plan {} {} {}", plan.a, plan.b, plan.d);
    show(replies.split_off(72));
    Ok(())
}

fn main() -> Result<(), Box<dyn Error>> {
    // the book, as a record
    let book = read_book(&BYTES)?;
    let cross: Vec<(i8, i8)> = book.pattern(0).into_iter().flatten().collect();
    println!("book: {} pattern, {} pixels", book.count, cross.len());

    // shuffled pixels are no book
    if let Err(refused) = read_book(&SHUFFLED) {
        say("shuffled", refused);
    }

    // the plan with the fewest banks, all pixels in one cycle
    let plan = book.find(1, 1024)?;
    println!("plan: {} {} {}, {} banks", plan.a, plan.b, plan.d, plan.banks());

    // what two suppliers send: twice as many banks as needed, and too few
    for (x, y) in [((10, 0), (2, 1)), ((2, 0), (0, 1))] {
        match book.check(1, x, y) {
            Ok(c) => println!("check: {} {} {}, surplus {}", c.plan.a, c.plan.b, c.plan.d, c.surplus),
            Err(refused) => say("check", refused),
        }
    }

    // the memory that the picture needs: N × depth words
    let picture = Picture { plan, width: 7, height: 4 };
    let depth = picture.depth()?;
    let mut mem = vec![0; (plan.banks() * depth) as usize];
    println!("memory: {} words, {depth} to a bank", mem.len());

    // the sums of the N banks, made from the memory at the start; the stores and clears below keep them
    let mut sums = vec![0; plan.banks() as usize];
    picture.make_sums(&mem, &mut sums)?;

    // each pixel gets a word of its own: its row, then its column
    for j in 0..4 {
        for i in 0..7 {
            picture.store(&mut mem, &mut sums, (i, j), (10 * j + i) as u16)?;
        }
    }

    // the cross at (3, 2): five words from five banks
    let mut words = [0; 64];
    let fetched = picture.fetch(&book, 1, &mem, 0, (3, 2), &mut words)?;
    for ((column, row), word) in cross.iter().zip(&words[..fetched]) {
        let (i, j) = (3 + i16::from(*column), 2 + i16::from(*row));
        println!("fetch: word {word:02} at ({i}, {j}) from bank {}", plan.bank((i, j))?);
    }

    // where the words of three pixels stand
    let mut list = [(0, 0), (3, 2), (6, 3)].map(|(column, row)| PixelRecord { column, row, bank: 0, address: 0 });
    picture.fill_records(&mut list)?;
    for PixelRecord { column, row, bank, address } in list {
        println!("record: ({column}, {row}) in bank {bank}, address {address}");
    }

    // at the corner the cross leaves the picture
    if let Err(refused) = picture.fetch(&book, 1, &mem, 0, (0, 0), &mut words) {
        say("fetch at the corner", refused);
    }

    // a ring fetch goes around the edges, but not with these sides: 5 does not divide 7
    if let Err(refused) = picture.ring_fetch(&book, 1, &mem, 0, (0, 0), &mut words) {
        say("ring fetch at the corner", refused);
    }

    // the sum of bank 0, by a look-up and by a walk through its words, before and after it is cleared
    for _ in 0..2 {
        println!("bank 0: sum {} by a look-up, {} by the walk", plan.read_sum(&sums, 0)?, picture.sum(&mem, 0)?);
        picture.clear(&mut mem, &mut sums, 0)?;
    }

    // six calls in one list
    let calls = [
        Call::MakeSums,
        Call::Store { pixel: (4, 2), word: 99 },
        Call::Load { pixel: (-1, 2) },
        Call::Clear { bank: 3 },
        Call::ReadSum { bank: 0 },
        Call::Fetch { pattern: 0, at: (3, 2), room: 5 },
    ];
    show(picture.run_list(&book, 1, &mut mem, &mut sums, &calls)?);

    // the finder too, and the same list on a memory of 0, which the list itself makes the sums of
    mem.fill(0);
    let (plan, replies) = book.find_and_run(1, 1024, (7, 4), &mut mem, &mut sums, &calls)?;
    println!("list under plan {} {} {}", plan.a, plan.b, plan.d);
    show(replies);
    two_cycles(&book)?;
    turntable()
}
