//! What there is to say of a cause: its values in a and in b.

use super::causes::Cause;
use super::input::Change;
use super::matching::Matching;
use super::Side;
use crate::boxes::words;
use crate::explain::value_name;
use crate::field::{AXES, CORNERS};
use crate::number::{counted, cut, float, place, plural, some};
use crate::rules::Rule::*;
use plain::fold;
use plain::scale::Scale;
use plain::split::Split;
use std::collections::BTreeSet;

/// A fold over more boxes than this is told by its ends.
const SHOWN: usize = 10;

/// A cause in words.
pub fn lines(sides: &[Side; 2], matching: &Matching, changes: &[Change], cause: Cause) -> Vec<String> {
    match cause {
        Cause::Bytes => vec!["the line `bytes` above names them; what stands there is not explained".into()],
        Cause::Threshold | Cause::List => listed(sides, changes, |change| !matches!(change, Change::Word { .. })),
        Cause::Scale(axis) => scale(sides, axis),
        Cause::Split(node) => split(sides, matching, node),
        Cause::Own(value) => own(sides, changes, value),
        Cause::Order => order(sides),
        Cause::Unknown => vec!["not explained".into()],
    }
}

fn listed(sides: &[Side; 2], changes: &[Change], which: impl Fn(&Change) -> bool) -> Vec<String> {
    let named = |change: &Change| match change.to_string().strip_prefix("box ") {
        Some(rest) => format!("{} {rest}", sides[0].noun),
        None => change.to_string(),
    };
    let all: Vec<&Change> = changes.iter().filter(|change| which(change)).collect();
    cut(&all, SHOWN, |change| named(change))
}

/// The box of all on an axis: the folds that changed, then what follows from them.
fn scale(sides: &[Side; 2], axis: usize) -> Vec<String> {
    let [a, b] = [&sides[0].trace, &sides[1].trace];
    let mut lines = Vec::new();
    for value in [axis, axis + 3] {
        if a.all[value] != b.all[value] {
            lines.push(format!("fold of {} over all", value_name(value)));
            lines.push(format!("  a: {}", fold_line(&sides[0], value)));
            lines.push(format!("  b: {}", fold_line(&sides[1], value)));
        }
    }
    let name = AXES[axis];
    let pair = |what: &str, of: fn(&Scale) -> f32| {
        format!("{what}.{name} {} -> {}", float(of(&a.scales[axis])), float(of(&b.scales[axis])))
    };
    let values =
        [pair("min", |s| s.min), pair("max", |s| s.max), pair("cen", |s| s.cen), pair("inverse", |s| s.inverse)];
    lines.push(values.join("   "));
    lines.push(format!("so every {name} value has another scale"));
    lines.extend(sides.iter().zip(["a", "b"]).filter_map(|(side, which)| wraps(side, which, axis)));
    lines
}

/// Node values that wrap: what lies outside the box of all, which a NaN made too small.
fn wraps(side: &Side, which: &str, axis: usize) -> Option<String> {
    let trace = &side.trace;
    let values =
        (0..trace.nodes.len()).flat_map(|node| CORNERS.map(|corner| trace.quantised(node, corner, AXES[axis])));
    let wrapped = values.filter(|quantised| quantised.wrapped()).count();
    let ends = &trace.scales[axis];
    let outside = format!("{}..{}", place(ends.min as f64), place(ends.max as f64));
    let count = counted(wrapped, "node value");
    (wrapped > 0).then(|| format!("in {which} {count} on {} wrap ({F8}): they lie outside {outside}", AXES[axis]))
}

/// `0 2 NaN 6 -> 0 0 NaN 6`, and what a NaN did.
fn fold_line(side: &Side, value: usize) -> String {
    let trace = &side.trace;
    let given: Vec<u32> = trace.present.iter().map(|&place| words(&trace.items[place])[value]).collect();
    let show = |of: &[u32]| of.iter().map(|&word| float(f32::from_bits(word))).collect::<Vec<_>>().join(" ");
    let nan = given.iter().rposition(|&word| f32::from_bits(word).is_nan());
    let wiped = nan.map_or(String::new(), |at| {
        let whose = format!("{} {}", side.noun, trace.present[at]);
        let from = given
            .get(at + 1)
            .map_or("nothing follows it".into(), |&next| format!("{} starts anew", float(f32::from_bits(next))));
        format!("   <- the NaN of {whose} wipes what came before ({F3}); {from}")
    });
    if given.len() > SHOWN {
        let whose = fold::winner(trace.items, &trace.present, value)
            .map_or("the start".into(), |at| format!("{} {}'s", side.noun, trace.present[at]));
        return format!(
            "{} of {}: {}, {whose}{wiped}",
            value_name(value),
            counted(given.len(), side.noun),
            float(f32::from_bits(trace.all[value]))
        );
    }
    format!("{}; after each {}{wiped}", show(&given), show(&fold::steps(trace.items, &trace.present, value)))
}

/// A split that differs: average, counts, axis, groups.
fn split(sides: &[Side; 2], matching: &Matching, node: usize) -> Vec<String> {
    let twin = matching.partner[0][node].unwrap_or(0);
    let (Some(a), Some(b)) = (sides[0].trace.split(node), sides[1].trace.split(twin)) else {
        return vec![format!("node {node} of a is node {twin} of b, and one of them is a leaf ({T8})")];
    };
    let mut lines = Vec::new();
    if node != twin {
        lines.push(format!("node {node} of a has the same {} as node {twin} of b", plural(sides[0].noun)));
    }
    let n = a.one.len() + a.two.len();
    for (axis, name) in AXES.iter().enumerate() {
        if a.average[axis].to_bits() != b.average[axis].to_bits() {
            let (one, two) = (float(a.average[axis]), float(b.average[axis]));
            lines.push(format!(
                "average {name} {one} -> {two}{}",
                if b.average[axis].is_nan() { ": no centre is above or below it" } else { "" }
            ));
        }
    }
    let below = |split: &Split| format!("{:?}", split.below);
    lines.push(format!(
        "centres below it on x, y, z of {n}: {} -> {}; axis {} -> {}",
        below(&a),
        below(&b),
        AXES[a.axis],
        AXES[b.axis]
    ));
    lines.push(format!("a: {}", groups(&a)));
    lines.push(format!("b: {}", groups(&b)));
    lines.extend(changed_sides(&a, &b, sides[0].noun));
    lines.extend(sorted_below(&sides[0], 'a', node));
    lines.extend(sorted_below(&sides[1], 'b', twin));
    lines
}

/// Of long groups that differ by few boxes: those that went from one child to the other.
fn changed_sides(a: &Split, b: &Split, noun: &str) -> Option<String> {
    let firsts = [a, b].map(|split| split.clone().children()[0].iter().copied().collect::<BTreeSet<usize>>());
    let moved: Vec<usize> = firsts[0].symmetric_difference(&firsts[1]).copied().collect();
    let long = firsts[0].len() > SHOWN;
    (long && moved.len() <= SHOWN).then(|| format!("on the other side in b: {noun} {}", some(&moved)))
}

/// The children of a split that fell back to sorting: what a NaN does goes on below.
fn sorted_below(side: &Side, name: char, node: usize) -> Vec<String> {
    let children = side.trace.nodes[node].children.into_iter().flatten();
    let told = |child: usize| {
        let split = side.trace.split(child)?;
        split.sorted.then(|| format!("then {name}'s node {child}: {}", groups(&split)))
    };
    children.filter_map(told).collect()
}

fn groups(split: &Split) -> String {
    let [first, second] = split.clone().children();
    let how =
        if split.sorted { format!("   none above: sorted, a NaN first, and cut ({T6}, {F2})") } else { String::new() };
    format!("{} | {}{how}", some(&first), some(&second))
}

/// The first leaf whose boxes a sort above it put in another order.
fn order(sides: &[Side; 2]) -> Vec<String> {
    let [a, b] = [&sides[0].trace, &sides[1].trace];
    let at =
        a.order.iter().zip(&b.order).find(|(one, two)| one != two).map(|(&one, &two)| (a.leaves[one], b.leaves[two]));
    let Some((Some(leaf), Some(twin))) = at else { return Vec::new() };
    let (one, two) = (some(&a.got(leaf)), some(&b.got(twin)));
    vec![format!("node {leaf} has {one} in a and {two} in b: a sort above it compares the values that changed")]
}

/// Boxes whose own value changed.
fn own(sides: &[Side; 2], changes: &[Change], value: usize) -> Vec<String> {
    let mut lines = listed(sides, changes, |change| matches!(change, Change::Word { value: at, .. } if *at == value));
    if lines.is_empty() {
        lines.push(format!("the same {} in another order, and a NaN among them ({F3})", plural(sides[0].noun)));
    }
    let nan = sides.iter().any(|side| side.trace.present.iter().any(|&p| side.trace.floats(p)[value].is_nan()));
    if nan {
        lines.push(format!("a NaN becomes 0 in a record ({F8})"));
    }
    lines
}
