//! Rule S4: the polygons around a vertex, from the first triangle that has it.

use super::{Shrinking, Triangle, Wrong};

/// The most polygons of a ring, without the first.
const MOST: usize = 63;

impl Shrinking {
    /// The places of the triangles around a vertex that `first` has in this slot, by their links.
    pub(super) fn ring(&self, vertex: usize, first: &Triangle, slot: usize) -> Vec<usize> {
        let most = if self.does(Wrong::ShortRing) { MOST - 1 } else { MOST };
        let begin = if self.does(Wrong::RingBegins) { slot } else { (slot + 2) % 3 };
        let mut ring = Vec::new();
        let (mut before, mut next) = (first.polygon, first.links[begin].or(first.links[slot]));
        while let Some(polygon) = next {
            let Some(place) = self.places.get(polygon).copied().flatten() else { break };
            ring.push(place);
            let triangle = &self.triangles[place];
            let onward = (0..3).find(|side| triangle.corners[(side + 1) % 3] == vertex).map(|side| {
                // The link by which it was come to leads back: the next one then.
                let link = triangle.links[side];
                if link == Some(before) {
                    triangle.links[(side + 1) % 3]
                } else {
                    link
                }
            });
            if let Some(link) = onward {
                (before, next) = (polygon, link);
            }
            let closed = onward.flatten() == Some(first.polygon) && !self.does(Wrong::OpenRing);
            if closed || ring.len() >= most {
                break;
            }
        }
        ring
    }
}
