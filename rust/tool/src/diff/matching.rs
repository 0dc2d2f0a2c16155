//! Nodes of two trees matched by the set of their items, and the first split above each that differs.

use crate::trace::Trace;
use std::collections::HashMap;

/// A set of places by its size and a sum of mixed words: equal sets have equal ones, and others by no chance that matters.
type Set = (usize, u128);

/// The nodes of two trees side by side.
pub struct Matching {
    /// Of each node of the one the node of the other that holds the same items.
    pub partner: [Vec<Option<usize>>; 2],
    /// Of each node the first node above it, root first, whose split differs.
    pub first_split: [Vec<Option<usize>>; 2],
    /// Whether the roots hold the same items.
    pub same_items: bool,
}

fn mixed(place: usize) -> u128 {
    let mix = |x: u64| {
        let z = (x ^ (x >> 30)).wrapping_mul(0xBF58_476D_1CE4_E5B9);
        let z = (z ^ (z >> 27)).wrapping_mul(0x94D0_49BB_1331_11EB);
        z ^ (z >> 31)
    };
    let x = (place as u64 + 1).wrapping_mul(0x9E37_79B9_7F4A_7C15);
    (mix(x) as u128) << 64 | mix(!x) as u128
}

/// The set of each node, from the leaves up.
fn sets(trace: &Trace) -> Vec<Set> {
    let mut sets = vec![(0, 0u128); trace.nodes.len()];
    for (place, leaf) in trace.leaves.iter().enumerate() {
        if let Some(leaf) = leaf {
            sets[*leaf].0 += 1;
            sets[*leaf].1 = sets[*leaf].1.wrapping_add(mixed(place));
        }
    }
    for at in (1..sets.len()).rev() {
        if let Some(parent) = trace.nodes[at].parent {
            let set = sets[at];
            sets[parent] = (sets[parent].0 + set.0, sets[parent].1.wrapping_add(set.1));
        }
    }
    sets
}

impl Matching {
    pub fn of(a: &Trace, b: &Trace) -> Matching {
        let all = [sets(a), sets(b)];
        let partner = [partners(&all[0], &all[1]), partners(&all[1], &all[0])];
        let first_split = [first_splits(a, b, &partner[0]), first_splits(b, a, &partner[1])];
        Matching { same_items: all[0][0] == all[1][0], partner, first_split }
    }

    /// The first node of a, in preorder, whose split differs.
    pub fn first_of_all(&self) -> Option<usize> {
        self.first_split[0].iter().flatten().copied().min()
    }
}

fn partners(one: &[Set], other: &[Set]) -> Vec<Option<usize>> {
    let places: HashMap<Set, usize> = other.iter().enumerate().map(|(k, set)| (*set, k)).collect();
    one.iter().map(|set| places.get(set).copied()).collect()
}

/// A node keeps the first differing split of its parent, or has its parent where the other tree's children are others.
fn first_splits(trace: &Trace, other: &Trace, partner: &[Option<usize>]) -> Vec<Option<usize>> {
    let mut first: Vec<Option<usize>> = vec![None; trace.nodes.len()];
    for at in 1..trace.nodes.len() {
        let Some(parent) = trace.nodes[at].parent else { continue };
        first[at] = first[parent].or((!same_place(trace, other, partner, parent, at)).then_some(parent));
    }
    first
}

/// Whether a child is, by its items, the same child of the other tree's node.
fn same_place(trace: &Trace, other: &Trace, partner: &[Option<usize>], parent: usize, child: usize) -> bool {
    let ours = trace.nodes[parent].children;
    let theirs = partner[parent].and_then(|twin| other.nodes[twin].children);
    match (ours, theirs, partner[child]) {
        (Some(ours), Some(theirs), Some(twin)) => {
            ours.iter().position(|&k| k == child) == theirs.iter().position(|&k| k == twin)
        }
        _ => false,
    }
}
