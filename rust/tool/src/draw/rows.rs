//! Which nodes have a row: all of a small tree; of a larger one those that say most.

use super::Picture;
use crate::trace::Trace;
use std::collections::BTreeSet;

/// The most rows.
const MOST: usize = 64;

impl Picture<'_> {
    /// The nodes that have a row, in preorder, and in words which those are.
    pub fn choose_rows(&self) -> (Vec<usize>, &'static str) {
        let all = self.trace.nodes.len();
        if all <= MOST {
            return ((0..all).collect(), "");
        }
        let read: Vec<usize> = (0..all).filter(|&node| self.read[node].is_some()).take(MOST).collect();
        if !read.is_empty() {
            return (read, "those that the query read first");
        }
        let differs = |node: &usize| (0..3).any(|axis| !self.bar(*node, axis).agrees);
        let odd: Vec<usize> = (0..all).filter(differs).take(MOST / 2).collect();
        if odd.is_empty() {
            return (upper_levels(self.trace, MOST), "the upper levels");
        }
        let both: BTreeSet<usize> = upper_levels(self.trace, MOST / 2).into_iter().chain(odd).collect();
        (both.into_iter().collect(), "the upper levels, and where records differ")
    }
}

/// The nodes of the upper levels, as many whole levels as there is room for.
fn upper_levels(trace: &Trace, room: usize) -> Vec<usize> {
    let mut depths = vec![0usize; trace.nodes.len()];
    for at in 1..trace.nodes.len() {
        depths[at] = trace.nodes[at].parent.map_or(0, |parent| depths[parent] + 1);
    }
    let mut levels: Vec<usize> = Vec::new();
    for &depth in &depths {
        levels.resize(levels.len().max(depth + 1), 0);
        levels[depth] += 1;
    }
    let mut sum = 0;
    let fits = |count: &&usize| {
        sum += **count;
        sum <= room
    };
    let whole = levels.iter().take_while(fits).count();
    (0..trace.nodes.len()).filter(|&at| depths[at] < whole).collect()
}
