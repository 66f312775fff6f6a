//! Finds the ring that a piece is on. The planner names the lowest piece on one; a person needs all of it, to see which
//! link to take away.

use std::collections::{HashMap, VecDeque};

/// The pieces of a shortest ring through this one, from it along the links back to it, so that it stands at both ends.
/// Nothing if it is on none.
pub fn through(piece: usize, links: &[(usize, usize)]) -> Option<Vec<usize>> {
    let mut came_from = HashMap::new();
    let mut waiting = VecDeque::from([piece]);
    while let Some(here) = waiting.pop_front() {
        for &(_, after) in links.iter().filter(|(before, _)| *before == here) {
            if after == piece {
                return Some(walked(piece, here, &came_from));
            }
            came_from.entry(after).or_insert_with(|| {
                waiting.push_back(after);
                here
            });
        }
    }
    None
}

/// From the piece to the last one before it again, told by where each was reached from.
fn walked(piece: usize, last: usize, came_from: &HashMap<usize, usize>) -> Vec<usize> {
    let mut ring = vec![piece];
    let mut here = last;
    while here != piece {
        ring.push(here);
        here = came_from[&here];
    }
    ring.push(piece);
    ring.reverse();
    ring
}
