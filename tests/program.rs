//! The program `bankplan`, run as a process.

use crate::books::{bytes_of, damage, reached};
use crate::finds::random_book;
use crate::oracle::{self, Pattern};
use crate::search::{first_plan, hardest, one_to_a_bank};
use crate::{Random, Tally};
use std::io::{Read, Write};
use std::process::{Command, Stdio};

const PROGRAM: &str = "target/bin/bankplan";

// What document 01 has the program write.
fn text(bytes: &[u8]) -> String {
    match oracle::read(bytes) {
        Err((number, _)) => format!("refused {number}\n"),
        Ok(book) => {
            let p = first_plan(&book, 1024, one_to_a_bank).expect("limit 1024 is always enough");
            format!("banks {}\nplan {} {} {}\n", p.a * p.d, p.a, p.b, p.d)
        }
    }
}

// Runs the program on an input that is handed over in pieces, and gives what it wrote and whether it ended by itself within a
// minute. The rest of an input that the program does not want is kept.
pub fn run(pieces: impl IntoIterator<Item = Vec<u8>>) -> (String, bool) {
    let mut child = Command::new("timeout")
        .args(["60", PROGRAM])
        .stdin(Stdio::piped())
        .stdout(Stdio::piped())
        .spawn()
        .expect("the program is built");
    let mut input = child.stdin.take().unwrap();
    for piece in pieces {
        if input.write_all(&piece).and_then(|()| input.flush()).is_err() {
            break;
        }
    }
    drop(input);
    let mut written = String::new();
    child.stdout.take().unwrap().read_to_string(&mut written).unwrap();
    (written, child.wait().unwrap().code() == Some(0))
}

// What the program writes, and what the brute force has it write.
fn case(t: &mut Tally, name: &str, bytes: &[u8], wanted: String) {
    t.same(|| format!("brute force, {name}: {bytes:02x?}"), text(bytes), wanted.clone());
    t.same(|| format!("{name}: {bytes:02x?}"), run([bytes.to_vec()]), (wanted, true));
}

// 16 patterns of 64 pixels, each an 8 by 8 block: as many bytes as a book can have.
fn longest() -> Vec<u8> {
    let block: Pattern = (0..64).map(|k| (k % 8, k / 8)).collect();
    bytes_of(&vec![block; 16])
}

fn inputs() -> Tally {
    let mut t = Tally::new("the program");
    case(&mut t, "figure", &[1, 5, 0, 0xff, 0xff, 0, 0, 0, 1, 0, 0, 1], "banks 5\nplan 5 2 1\n".into());
    case(&mut t, "the figure as it was", &[1, 5, 0, 0, 0xff, 0, 1, 0, 0, 0xff, 0, 1], "refused 19\n".into());
    case(&mut t, "figure", &[], "refused 1\n".into());
    case(&mut t, "Card 1's figure", &[1, 4, 0, 0, 1, 0, 0, 1, 1, 1], "banks 4\nplan 2 0 2\n".into());
    case(&mut t, "table, 2", &[0], "refused 2\n".into());
    case(&mut t, "table, 3", &[1, 1, 0x10, 0], "refused 3\n".into());
    case(&mut t, "table, 4", &[1, 2, 0, 0, 0, 0], "refused 4\n".into());
    case(&mut t, "table, 5", &[1, 1, 0, 0, 0], "refused 5\n".into());
    case(&mut t, "the hardest book", &bytes_of(&hardest()), "banks 1024\nplan 32 0 32\n".into());
    let longest = longest();
    assert_eq!(longest.len(), 2065);
    case(&mut t, "the longest book", &longest, "banks 64\nplan 8 0 8\n".into());
    for (more, number) in [(1, 5), (2, 5), (5_000, 5), (10_000_000, 5)] {
        let bytes = [longest.clone(), vec![7; more]].concat();
        t.same(|| format!("{more} bytes after the longest book"), run([bytes]), (format!("refused {number}\n"), true));
    }
    for end in [1, 2, 100, 1000, 2063, 2064] {
        case(&mut t, "the longest book cut off", &longest[..end], "refused 1\n".into());
    }
    let zeros = run([vec![0; 5_000_000]]);
    t.same(|| "zeros".into(), zeros, ("refused 2\n".into(), true));
    // byte by byte, and an input without end
    let bytewise = run(longest.iter().map(|&b| vec![b]));
    t.same(|| "byte by byte".into(), bytewise, ("banks 64\nplan 8 0 8\n".into(), true));
    let endless = run(std::iter::once(longest).chain(std::iter::repeat(vec![0; 4096])));
    t.same(|| "an input without end".into(), endless, ("refused 5\n".into(), true));
    let mut random = Random::new(11);
    let mut gave = [0; 21];
    for round in 0..500 {
        let (width, height) = random.one_of(&[(2, 2), (8, 8), (5, 12), (32, 2)]);
        let mut bytes = bytes_of(&random_book(&mut random, 16, 64, width, height));
        if round % 2 == 1 {
            damage(&mut bytes, &mut random);
        }
        let wanted = text(&bytes);
        gave[wanted.strip_prefix("refused ").map_or(0, |number| number.trim().parse().unwrap())] += 1;
        case(&mut t, "random", &bytes, wanted);
    }
    reached(&mut t, &gave, &[0, 1, 2, 3, 4, 5, 19], 5);
    t
}

// What a shell's command writes to standard output, its status, and whether it wrote to standard error.
fn shell(command: &str) -> (String, Option<i32>, bool) {
    let out = Command::new("timeout").args(["60", "bash", "-c", command]).output().unwrap();
    (String::from_utf8(out.stdout).unwrap(), out.status.code(), !out.stderr.is_empty())
}

// Standard input or output that is closed or fails: the program ends, says so on standard error, and writes no whole answer to
// standard output. That nobody reads the pipe any more is such a failure too: the program does not take the system's signal.
fn closed() -> Tally {
    let mut t = Tally::new("the program with closed or failing input or output");
    let book = "examples/cross.book";
    let cross = "banks 5\nplan 5 2 1\n";
    let (status, read) = ("echo $? > target/tests/status", "cat target/tests/status");
    for (how, wanted) in [
        (format!("{PROGRAM} <&-"), ("", Some(0), true)),
        (format!("{PROGRAM} < /"), ("", Some(0), true)),
        (format!("{PROGRAM} < {book} >&-"), ("", Some(0), true)),
        (format!("{PROGRAM} < {book} > /dev/full"), ("", Some(0), true)),
        (format!("(sleep 0.3; {PROGRAM} < {book}; {status}) | true; {read}"), ("0\n", Some(0), true)),
        (format!("(trap '' PIPE; sleep 0.3; {PROGRAM} < {book}; {status}) | true; {read}"), ("0\n", Some(0), true)),
        (format!("{PROGRAM} < {book} 2>&-"), (cross, Some(0), false)),
        (format!("{PROGRAM} < /dev/null"), ("refused 1\n", Some(0), false)),
    ] {
        t.same(|| how.clone(), shell(&how), (wanted.0.into(), wanted.1, wanted.2));
    }
    t
}

pub fn run_all() -> Vec<Tally> {
    vec![inputs(), closed()]
}
