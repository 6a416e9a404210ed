//! Card 4 of document 02 again: the pixels of a pattern in one lattice class, told by their differences alone. It shares no code
//! with the library, and asks for no bank.

use crate::library::Plan;
use crate::oracle::Pattern;
use crate::search::{in_lattice, minus};

/// "r from 1 to 8"
pub fn is_cycles(r: u32) -> bool {
    (1..=8).contains(&r)
}

/// "no lattice class holds more than r pixels of one pattern": of each pixel those are counted that differ from it by a point of
/// the lattice, itself too.
pub fn suits_for(r: u32, p: Plan, t: &Pattern) -> bool {
    let class = |v| t.iter().filter(|&&w| in_lattice(p, minus(w, v))).count();
    t.iter().all(|&v| class(v) <= r as usize)
}

/// "the count of earlier pixels of the pattern in its bank", of each pixel.
pub fn cycles(p: Plan, t: &Pattern) -> Vec<u8> {
    (0..t.len()).map(|e| t[..e].iter().filter(|&&v| in_lattice(p, minus(t[e], v))).count() as u8).collect()
}

/// "the r + 1 ascending positions of one lattice class that come first, compared position by position": the tuples are tried in
/// this order. `joined` says whether two pixels with this difference are in one class.
pub fn clash_for(r: u32, t: &Pattern, joined: impl Fn((i64, i64)) -> bool) -> Option<Vec<usize>> {
    let mut tuple = Vec::new();
    completed(&mut tuple, r as usize + 1, t, &joined).then_some(tuple)
}

// Whether some positions behind those of the tuple complete it; the first that do are put behind it.
fn completed(tuple: &mut Vec<usize>, size: usize, t: &Pattern, joined: &impl Fn((i64, i64)) -> bool) -> bool {
    if tuple.len() == size {
        return true;
    }
    for l in tuple.last().map_or(0, |&e| e + 1)..t.len() {
        if tuple.iter().all(|&e| joined(minus(t[l], t[e]))) {
            tuple.push(l);
            if completed(tuple, size, t, joined) {
                return true;
            }
            tuple.pop();
        }
    }
    false
}

/// The clash of a pattern under a plan.
pub fn clash_under(r: u32, p: Plan, t: &Pattern) -> Option<Vec<usize>> {
    clash_for(r, t, |v| in_lattice(p, v))
}
