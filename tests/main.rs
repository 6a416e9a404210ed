//! Runs the proved code, through its static library, against an independent brute force, on figures, edges and random
//! inputs, legal and damaged. Prints how many cases each subject had; a mismatch ends the run with a failure.

mod books;
mod calls;
mod classes;
mod corollary;
mod cycle_orders;
mod cycles;
mod drawings;
mod fetches;
mod finds;
mod library;
mod lists;
mod memory;
mod oracle;
mod orders;
mod pictures;
mod plans;
mod program;
mod random_pictures;
mod records;
mod reduction;
mod ring_edges;
mod ring_figures;
mod rings;
mod run_cases;
mod run_edges;
mod runs;
mod search;
mod shuffles;
mod sum_edges;
mod sum_figures;
mod sum_lists;
mod sums;
mod wrapper;
mod wrapper_lists;

/// Cases of one subject, and the first few mismatches.
pub struct Tally {
    subject: &'static str,
    cases: u64,
    wrong: u64,
}

impl Tally {
    pub fn new(subject: &'static str) -> Tally {
        Tally { subject, cases: 0, wrong: 0 }
    }

    /// One case: what the library gave and what it should have given.
    pub fn same<T: PartialEq + std::fmt::Debug>(&mut self, what: impl Fn() -> String, got: T, wanted: T) {
        self.cases += 1;
        if got != wanted {
            self.wrong += 1;
            if self.wrong <= 5 {
                println!("{}: {}: got {got:?}, wanted {wanted:?}", self.subject, what());
            }
        }
    }

    pub fn done(self) -> (u64, u64) {
        println!("{}: {} cases, {} wrong", self.subject, self.cases, self.wrong);
        (self.cases, self.wrong)
    }
}

/// Random numbers that are the same in every run.
pub struct Random(u64);

impl Random {
    pub fn new(seed: u64) -> Random {
        Random(seed * 2 + 1)
    }

    pub fn next(&mut self) -> u64 {
        self.0 ^= self.0 << 13;
        self.0 ^= self.0 >> 7;
        self.0 ^= self.0 << 17;
        self.0.wrapping_mul(0x2545_f491_4f6c_dd1d)
    }

    /// From low to high, both included.
    pub fn from_to(&mut self, low: i64, high: i64) -> i64 {
        low + ((self.next() >> 11) % (high - low + 1) as u64) as i64
    }

    pub fn one_of<T: Copy>(&mut self, xs: &[T]) -> T {
        xs[self.from_to(0, xs.len() as i64 - 1) as usize]
    }
}

pub fn told(number: u64, row: &[u64]) -> library::Told {
    library::Told { number, row: row.to_vec() }
}

pub fn wide(v: (i16, i16)) -> (i64, i64) {
    (v.0.into(), v.1.into())
}

/// An oracle's answer as the library tells it.
pub fn as_told<T>(answer: Result<T, oracle::Refused>, row: impl FnOnce(T) -> Vec<u64>) -> library::Told {
    match answer {
        Ok(x) => library::Told { number: 0, row: row(x) },
        Err((number, place)) => library::Told { number, row: vec![place] },
    }
}

fn main() {
    let mut tallies = plans::run();
    tallies.extend(reduction::run());
    tallies.extend(books::run());
    tallies.extend(orders::run());
    tallies.extend(shuffles::run());
    tallies.extend(finds::run());
    tallies.extend(cycles::run());
    tallies.extend(pictures::run());
    tallies.extend(rings::run());
    tallies.extend(sums::run());
    tallies.extend(runs::run());
    tallies.push(records::run());
    tallies.extend(wrapper::run());
    tallies.extend(program::run_all());
    tallies.extend(drawings::run());
    let (mut cases, mut wrong) = (0, 0);
    for t in tallies {
        let (c, w) = t.done();
        assert!(c > 0, "a subject without cases");
        cases += c;
        wrong += w;
    }
    println!("in all: {cases} cases, {wrong} wrong");
    if wrong > 0 {
        std::process::exit(1);
    }
}
