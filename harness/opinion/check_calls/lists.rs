//! Lists of calls from a fresh machine.
use super::chance::{self, draw};
use super::counting::Counts;
use super::run::{Run, Until};

/// A whole list; what was seen in it comes to the counts.
pub fn list(from: u32, k: u32, counts: &mut Counts) -> Run {
    let seed = draw(from, k).wrapping_add(1);
    let mut run = Run::set_up(k, seed, *counts);
    run.turns(seed, 200, Until::Halt);
    run.end(chance::next(seed));
    run.counts.lists += 1;
    *counts = run.counts;
    run
}
