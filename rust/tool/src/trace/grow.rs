//! Rules T8 and R10, R11, R13: the tree in preorder, its leaves' positions and the order list. Without recursion: hostile
//! boxes make trees of thousands of levels.

use super::{fold, split, Node};
use bounds::BvhItem;

/// The tree, the order list and the leaf of each place.
pub struct Grown {
    pub nodes: Vec<Node>,
    pub order: Vec<usize>,
    pub leaves: Vec<Option<usize>>,
}

/// Grows the tree over the present places.
pub fn grow(items: &[BvhItem], threshold: usize, present: &[usize]) -> Grown {
    let mut grown = Grown { nodes: Vec::new(), order: Vec::new(), leaves: vec![None; items.len()] };
    let mut waiting: Vec<(Vec<usize>, Option<usize>)> = vec![(present.to_vec(), None)];
    while let Some((got, parent)) = waiting.pop() {
        let at = grown.nodes.len();
        let bounds = fold::fold(items, &got);
        grown.nodes.push(Node { parent, children: None, items: got.len(), size: 1, bounds, first: 0 });
        if got.len() <= threshold {
            grown.leaf(at, &got, threshold);
        } else {
            let [first, second] = split::split(items, &got).children();
            waiting.push((second, Some(at)));
            waiting.push((first, Some(at)));
        }
    }
    if threshold == 1 {
        grown.order = present.to_vec();
    }
    grown.close();
    grown
}

impl Grown {
    /// R11: at threshold 1 a position is a place; above it positions go leaf after leaf.
    fn leaf(&mut self, at: usize, got: &[usize], threshold: usize) {
        self.nodes[at].first = match (threshold, got.first()) {
            (_, None) => 0,
            (1, Some(&place)) => place,
            _ => self.order.len(),
        };
        self.order.extend(got);
        for &place in got {
            self.leaves[place] = Some(at);
        }
    }

    /// Sizes and children, from the last node up: a node comes behind its parent.
    fn close(&mut self) {
        for at in (1..self.nodes.len()).rev() {
            let (size, parent) = (self.nodes[at].size, self.nodes[at].parent);
            let parent = &mut self.nodes[parent.expect("only the root has none")];
            parent.size += size;
            // The first child comes last here.
            parent.children = Some(parent.children.map_or([at, at], |[_, second]| [at, second]));
        }
    }
}
