//! Why a query hands an item out, or not: the records read on the way to its leaf.

use super::{fold::value_name, Explainer, Explanation, Step};
use crate::boxes::words;
use crate::dump::Dump;
use crate::field::{Field, InRecord};
use crate::mesh::rounded::Query;
use crate::number::{counted, float, place};
use crate::rules::Rule::*;
use crate::trace::{walk, Told};
use bounds::premises::{ordinary, Axis, Corner};
use bounds::{BvhItem, Vec3};
use plain::walk::{Miss, Reading, Span};

/// What there is to say of an item and a query.
pub struct Asked<'a> {
    pub dump: &'a Dump,
    pub min: Vec3,
    pub max: Vec3,
    pub item: usize,
    /// Of a mesh whose file's numbers centring rounded.
    pub rounded: Option<Exact>,
}

/// What was asked, of which the query is the widened one, and the item's box as its file has it.
pub struct Exact {
    pub asked: Query,
    pub item: BvhItem,
    pub by: [f64; 3],
}

impl Explainer<'_> {
    /// The story of an item and a query. The records are the dump's; where a value comes from is told only of fields that
    /// are `accounted` for, as coming from its input.
    ///
    /// Also answers how many records it saw read, which must be as many as the library read.
    pub fn query(&self, asked: &Asked, accounted: &dyn Fn(Field) -> bool) -> (Explanation, usize) {
        let walked = walk(asked.dump, asked.min, asked.max);
        let place = |&position: &u16| asked.dump.place(position as usize);
        let handed = walked.positions.iter().filter_map(place).any(|place| place == asked.item);
        let meets = asked.meets(&self.trace.items[asked.item]);
        let mut steps: Vec<Step> = asked.rounded.iter().filter_map(|exact| exact.step(asked)).collect();
        steps.push(Step::new(&[W1], format!("the query in records: {}", span_words(&walked.span))));
        let leaf = asked.dump.leaves()[asked.item];
        match leaf {
            None => {
                steps.push(Step::new(&[T9, R16], format!("no leaf of the records holds {}", self.named(asked.item))))
            }
            Some(leaf) => steps.extend(self.readings(asked, &walked, leaf, accounted)),
        }
        if let Some(leaf) = leaf {
            steps.extend(beside(asked.dump, &walked, leaf));
        }
        let (reads, out) = (counted(walked.readings.len(), "record"), counted(walked.positions.len(), "position"));
        steps.push(Step::new(&[W3, W5, W7], format!("in all {reads} read, {out} handed out")));
        let name = self.mesh.map_or_else(|| self.named(asked.item), |mesh| mesh.prepared_name(asked.item));
        let heading = verdict(&name, self.trace.items[asked.item].present != 0, meets, handed);
        (Explanation { of: format!("query item {}", asked.item), heading, steps, bytes: None }, walked.readings.len())
    }

    /// What was read on the way to a leaf, up to the record that misses.
    fn readings(&self, asked: &Asked, walked: &Told, leaf: usize, accounted: &dyn Fn(Field) -> bool) -> Vec<Step> {
        let way = way(asked.dump, walked, leaf);
        let met: Vec<String> = way.iter().filter(|r| r.miss().is_none()).map(|r| name_of(r)).collect();
        let mut steps = Vec::new();
        if !met.is_empty() {
            steps.push(Step::new(&[W2, W3, W5], format!("meets: {}", shortened(&met))));
        }
        match way.iter().find(|r| r.miss().is_some()) {
            Some(reading) => steps.extend(self.missed(reading, leaf, accounted)),
            None if way.last().is_some_and(|r| name_of(r) == format!("node {leaf}")) => {
                steps.push(Step::new(&[W7], format!("node {leaf}, its leaf, meets and hands out its positions")));
                steps.extend(self.apart(asked, leaf));
            }
            None => steps.push(Step::new(&[R15], format!("node {leaf}, its leaf, lies in no range that was read"))),
        }
        steps
    }

    /// Where a box does not meet the query and its leaf's record does: on the axis on which it does not, both.
    fn apart(&self, asked: &Asked, leaf: usize) -> Option<Step> {
        let v = asked
            .rounded
            .as_ref()
            .map_or(self.trace.floats(asked.item), |exact| words(&exact.item).map(f32::from_bits));
        let Query { min, max } = asked.asked();
        let (min, max) = ([min.x, min.y, min.z], [max.x, max.y, max.z]);
        let axis = (0..3).find(|&k| !(v[k] <= max[k] && min[k] <= v[k + 3]))?;
        let (records, node) = (&asked.dump.records, asked.dump.records.node(leaf)?);
        let stands = |value: i16| place(records.stands_for(axis, value));
        let (low, high) = (stands(node.min[axis]), stands(node.max[axis]));
        let (name, is) = (["x", "y", "z"][axis], format!("{}..{}", float(v[axis]), float(v[axis + 3])));
        let whose = if node.item_count > 1 {
            format!("the record of its {}", counted(node.item_count as usize, self.noun()))
        } else {
            "its record".into()
        };
        Some(Step::new(&[T1, T2], format!("on {name} the box is {is}, and {whose} stands for {low}..{high}")))
    }

    /// The record that misses, what it passes over, and where its value comes from.
    fn missed(&self, reading: &Reading, leaf: usize, accounted: &dyn Fn(Field) -> bool) -> Vec<Step> {
        let Some(miss) = reading.miss() else { return Vec::new() };
        let (corner, relation, side) =
            if miss.record_above { (Corner::Min, "above", "max") } else { (Corner::Max, "below", "min") };
        let Miss { axis, record, query, .. } = miss;
        let name = name_of(reading);
        let text = format!("{name} misses on {axis}: its {corner} {record} is {relation} the query's {side} {query}");
        let over = match *reading {
            Reading::Tree { .. } => format!("its range is not read, node {leaf} with it"),
            Reading::Node { node, .. } if node == leaf => "it is the leaf, and hands out nothing".into(),
            Reading::Node { passes, .. } => {
                format!("{} passed over, node {leaf}, its leaf, among them", counted(passes, "node"))
            }
        };
        let mut steps = vec![Step::new(&[W2], text), Step::new(&[W3, W5], over)];
        let field = field_of(reading, corner, axis);
        if accounted(field) {
            steps.extend(self.value_came(reading, corner, axis));
        } else {
            steps.push(Step::new(
                &[],
                format!("{field} is not what the input gives: where {record} comes from is not explained"),
            ));
        }
        steps
    }

    /// Where the value that misses comes from.
    fn value_came(&self, reading: &Reading, corner: Corner, axis: Axis) -> Vec<Step> {
        let node = match *reading {
            Reading::Tree { tree, .. } => self.trace.ranges[tree].0,
            Reading::Node { node, .. } => node,
        };
        if node >= self.trace.nodes.len() {
            return vec![Step::new(&[R12], format!("node {node} is padding, which no build's walk reads"))];
        }
        let quantised = self.trace.quantised(node, corner, axis);
        let value = 3 * corner as usize + axis as usize;
        let v = f32::from_bits(self.trace.nodes[node].bounds[value]);
        let whose = match self.trace.source(node, corner, axis) {
            Some(place) => format!("{}'s {} {}", self.named(place), value_name(value), float(v)),
            None => format!("the fold's start {}", float(v)),
        };
        let how = match quantised.wrapped() {
            true => format!(", WRAPPED from {}", quantised.whole),
            false if quantised.product.is_nan() => ", a NaN become 0".into(),
            false => String::new(),
        };
        let mut steps = vec![Step::new(&[T1, T2, F8], format!("{} is {whose}{how}", quantised.short))];
        if let Err(broken) = ordinary(self.trace.items) {
            steps.push(Step::new(&[P4], format!("outside the premises, {broken}: items may be missed")));
        }
        steps
    }
}

impl Asked<'_> {
    /// The query before it was widened.
    fn asked(&self) -> Query {
        self.rounded.as_ref().map_or(Query { min: self.min, max: self.max }, |exact| exact.asked)
    }

    /// Whether the item's box meets what was asked, as its file has it.
    fn meets(&self, stands: &BvhItem) -> bool {
        let Query { min, max } = self.asked();
        self.rounded.as_ref().map_or(stands, |exact| &exact.item).meets(min, max)
    }
}

impl Exact {
    /// What is said where the query became another: an endless one does not.
    fn step(&self, of: &Asked) -> Option<Step> {
        let walked = Query { min: of.min, max: of.max };
        let words = |query: Query| format!("{} to {}", point_words(query.min), point_words(query.max));
        let text = format!("{} is widened to {}: {}", words(self.asked), words(walked), rounded_words(&self.by));
        (walked != self.asked).then(|| Step::new(&[K1, V1], text))
    }
}

/// By how much a query is widened, and why.
pub fn rounded_words(by: &[f64; 3]) -> String {
    let axis = |(by, name): (&f64, &str)| (*by > 0.0).then(|| format!("{name} {by:?}"));
    let moved: Vec<String> = by.iter().zip(["x", "y", "z"]).filter_map(axis).collect();
    format!("about the centre the file's numbers are rounded by up to {}", moved.join(", "))
}

/// `6.0,0.0,0.0`.
pub fn point_words(v: Vec3) -> String {
    [v.x, v.y, v.z].map(float).join(",")
}

/// The tree record and the nodes that lead to a leaf, by the records alone.
struct Above {
    tree: Option<usize>,
    nodes: Vec<usize>,
}

fn above(dump: &Dump, leaf: usize) -> Above {
    let records = &dump.records;
    let holds = |first: i16, last: i16| (first as i32) <= leaf as i32 && (leaf as i32) < last as i32;
    let tree = (0..records.tree_count())
        .find(|&k| records.tree(k).is_some_and(|tree| holds(tree.node_index1, tree.node_index2)));
    let spans = |k: &usize| {
        *k == leaf || records.node(*k).is_some_and(|n| n.item_count == 0 && leaf < k + n.item_id.max(1) as usize)
    };
    Above { tree, nodes: (0..=leaf).filter(spans).collect() }
}

/// The readings on the way to a leaf.
fn way<'w>(dump: &Dump, walked: &'w Told, leaf: usize) -> Vec<&'w Reading> {
    let above = above(dump, leaf);
    let on_it = |reading: &&Reading| match **reading {
        Reading::Tree { tree, .. } => above.tree == Some(tree),
        Reading::Node { node, .. } => above.nodes.contains(&node),
    };
    walked.readings.iter().filter(on_it).collect()
}

/// What was read besides: records on no way to the leaf.
fn beside(dump: &Dump, walked: &Told, leaf: usize) -> Option<Step> {
    let way = way(dump, walked, leaf);
    let other = walked.readings.iter().filter(|reading| !way.contains(reading));
    let told = |reading: &Reading| {
        format!("{} {}", name_of(reading), if reading.miss().is_none() { "meets" } else { "misses" })
    };
    let told: Vec<String> = other.map(told).collect();
    (!told.is_empty()).then(|| Step::new(&[W5], format!("besides: {}", shortened(&told))))
}

/// The record on the way to a leaf that misses.
pub fn first_miss(dump: &Dump, walked: &Told, leaf: usize) -> Option<Reading> {
    way(dump, walked, leaf).into_iter().find(|reading| reading.miss().is_some()).copied()
}

fn verdict(item: &str, present: bool, meets: bool, handed: bool) -> String {
    match (present, meets, handed) {
        (false, _, false) => format!("{item} is absent ({T9}) and is not handed out"),
        (false, _, true) => format!("{item} is absent ({T9}), and the records hand it out: no build does that"),
        (_, true, true) => format!("{item} meets the query as floats ({W2}) and is handed out"),
        (_, true, false) => format!("{item} meets the query as floats ({W2}) and is NOT handed out"),
        (_, false, true) => {
            format!("{item} does not meet the query as floats ({W2}) and is handed out: its leaf's record meets")
        }
        (_, false, false) => format!("{item} does not meet the query as floats ({W2}) and is not handed out"),
    }
}

/// `x -32767..-19660, y ..`.
pub fn span_words(span: &Span) -> String {
    let axis = |k: usize| format!("{} {}..{}", ["x", "y", "z"][k], span.min[k], span.max[k]);
    [0, 1, 2].map(axis).join(", ")
}

fn shortened(names: &[String]) -> String {
    match names {
        [a, b, .., c, d] if names.len() > 10 => format!("{a}, {b} .. {c}, {d} ({} records)", names.len()),
        _ => names.join(", "),
    }
}

fn name_of(reading: &Reading) -> String {
    match reading {
        Reading::Tree { tree, .. } => format!("tree {tree}"),
        Reading::Node { node, .. } => format!("node {node}"),
    }
}

/// The field of a value of a reading's box.
fn field_of(reading: &Reading, corner: Corner, axis: Axis) -> Field {
    match *reading {
        Reading::Tree { tree, .. } => Field::Tree(tree, InRecord::Box(corner, axis)),
        Reading::Node { node, .. } => Field::Node(node, InRecord::Box(corner, axis)),
    }
}
