//! Rule T1 in words: the fold of one value over the boxes that a node got.

use super::{Explainer, Step};
use crate::boxes::words;
use crate::field::{AXES, CORNERS};
use crate::number::{both, counted, float};
use crate::rules::Rule::*;
use crate::trace::fold;

/// A fold over more boxes than this is told by its end.
const SHOWN: usize = 8;

impl Explainer<'_> {
    /// The fold of one of the six values over these places.
    pub fn fold_steps(&self, places: &[usize], value: usize) -> Vec<Step> {
        let name = value_name(value);
        let start = float(f32::from_bits(fold::START[value]));
        let Some(won) = fold::winner(self.trace.items, places, value) else {
            let kept = format!("fold of {name} over no value that replaces the start: {start}");
            return vec![Step::new(&[T1, F3], kept)];
        };
        let place = places[won];
        let word = words(&self.trace.items[place])[value];
        let origin = self.origin(place, value);
        if places.len() == 1 {
            let text = format!("fold of {name} over {}: {}", self.named(place), both(word));
            let mut steps = vec![Step::new(&[T1], text).note(origin)];
            steps.extend(self.beneath(place, value));
            return steps;
        }
        let mut steps = self.fold_shown(places, value);
        steps.push(Step::new(&[T1, F4], format!("so {name} is {}'s: {}", self.named(place), both(word))).note(origin));
        steps.extend(self.beneath(place, value));
        steps
    }

    fn fold_shown(&self, places: &[usize], value: usize) -> Vec<Step> {
        let name = value_name(value);
        let show = |word: &u32| float(f32::from_bits(*word));
        let given: Vec<u32> = places.iter().map(|&place| words(&self.trace.items[place])[value]).collect();
        let mut steps = Vec::new();
        if places.len() <= SHOWN {
            let list = |of: &[u32]| of.iter().map(show).collect::<Vec<_>>().join(", ");
            let boxes = self.boxes_named(places);
            steps.push(Step::new(&[T1, F3], format!("fold of {name} over {boxes}: {}", list(&given))));
            steps.push(Step::new(&[], format!("after each: {}", list(&fold::steps(self.trace.items, places, value)))));
        } else {
            let count = counted(places.len(), self.noun());
            steps.push(Step::new(&[T1, F3], format!("fold of {name} over {count}, in the order it got them")));
        }
        let last_nan = given.iter().rposition(|&word| f32::from_bits(word).is_nan());
        if let Some(at) = last_nan {
            let wiped =
                if at == 0 { "comes first".into() } else { format!("wipes the {} before it", counted(at, "value")) };
            let note = format!("the NaN of {} {wiped}; what follows starts anew", self.named(places[at]));
            steps.push(Step::new(&[F3], note).note(self.origin(places[at], value)));
        }
        steps
    }

    /// What a value of an entry's box comes from, where that is no input.
    fn beneath(&self, place: usize, value: usize) -> Vec<Step> {
        self.mesh.map_or(Vec::new(), |mesh| mesh.box_steps(place, value))
    }

    /// Where one of an entry's six values stands in the input.
    pub fn origin(&self, place: usize, value: usize) -> String {
        match self.mesh {
            Some(_) => String::new(), // what is beneath says it
            None => self.boxes.origin.value(place, CORNERS[value / 3], AXES[value % 3]),
        }
    }
}

/// `min.x` .. `max.z`.
pub fn value_name(value: usize) -> String {
    format!("{}.{}", CORNERS[value / 3], AXES[value % 3])
}
