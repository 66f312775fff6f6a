//! The smallest worst lateness of a tiny desk, by trying every allowed plan. In each slot the desk
//! rests or works on any piece that is ready and whose pieces before it on the desk are finished.

use crate::checks::{Facts, Shown};
use std::collections::HashMap;

/// One desk with the ready moments of the finished plan, pieces by their place on the desk.
pub struct Desk {
    ready: Vec<i64>,
    duration: Vec<i64>,
    latest: Vec<i64>,
    links: Vec<(usize, usize)>,
}

type Known = HashMap<(i64, Vec<i64>), i64>;

impl Desk {
    pub fn new(facts: &Facts, shown: &Shown, desk: i64) -> Desk {
        let pieces = facts.of_desk(desk);
        let place = |piece: usize| pieces.iter().position(|&other| other == piece);
        let ready = |&piece: &usize| {
            let others = facts.before(piece).filter(|&(before, _)| facts.desk(before) != desk);
            let handed_over = others.map(|(before, delay)| shown.finish[before] + delay);
            handed_over.max().unwrap_or(0).max(facts.pieces[piece][2])
        };
        let inside = |link: &(usize, usize, i64)| Some((place(link.0)?, place(link.1)?));
        Desk {
            ready: pieces.iter().map(ready).collect(),
            duration: pieces.iter().map(|&piece| facts.pieces[piece][1]).collect(),
            latest: pieces.iter().map(|&piece| shown.latest[piece]).collect(),
            links: facts.links.iter().filter_map(inside).collect(),
        }
    }

    /// Few enough plans to try them all.
    pub fn is_tiny(&self) -> bool {
        let work: i64 = self.duration.iter().sum();
        (2..=5).contains(&self.ready.len()) && work <= 16 && self.last_moment() <= 40
    }

    /// Once all pieces are ready a rest only puts work off, so later plans are no better.
    fn last_moment(&self) -> i64 {
        self.ready.iter().max().unwrap_or(&0) + self.duration.iter().sum::<i64>()
    }

    pub fn least_worst_lateness(&self) -> i64 {
        self.least_from(0, self.duration.clone(), &mut HashMap::new())
    }

    /// The least worst lateness among the pieces not finished at this moment.
    fn least_from(&self, moment: i64, left: Vec<i64>, known: &mut Known) -> i64 {
        if left.iter().all(|&left| left == 0) {
            return i64::MIN;
        }
        if moment == self.last_moment() {
            return i64::MAX;
        }
        if let Some(&least) = known.get(&(moment, left.clone())) {
            return least;
        }
        let mut least = self.least_from(moment + 1, left.clone(), known);
        for place in (0..left.len()).filter(|&place| self.may_work(place, moment, &left)) {
            let mut less = left.clone();
            less[place] -= 1;
            let done = less[place] == 0;
            let own = if done { moment + 1 - self.latest[place] } else { i64::MIN };
            least = least.min(own.max(self.least_from(moment + 1, less, known)));
        }
        known.insert((moment, left), least);
        least
    }

    fn may_work(&self, place: usize, moment: i64, left: &[i64]) -> bool {
        let behind = |link: &(usize, usize)| link.1 == place && left[link.0] > 0;
        left[place] > 0 && self.ready[place] <= moment && !self.links.iter().any(behind)
    }
}

#[test]
fn least_worst_lateness_by_hand() {
    let desk = |ready: [i64; 2], duration: [i64; 2], latest: [i64; 2], links: &[(usize, usize)]| {
        let links = links.to_vec();
        Desk { ready: ready.into(), duration: duration.into(), latest: latest.into(), links }
    };
    // The first is due first; the other way round would be 5 - 2.
    assert_eq!(desk([0, 0], [2, 3], [2, 9], &[]).least_worst_lateness(), 0);
    // Interrupting the long one at 1 keeps the short one's moment 2 and ends the long one at 5.
    assert_eq!(desk([0, 1], [4, 1], [5, 2], &[]).least_worst_lateness(), 0);
    // The link forbids just that.
    assert_eq!(desk([0, 1], [4, 1], [5, 2], &[(0, 1)]).least_worst_lateness(), 3);
}
