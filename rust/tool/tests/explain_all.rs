//! Explanations of every field of every record of 1,000 random builds reach the library's bytes.

mod common;

use bounds::{BvhItem, Tree};
use common::{length, list, Random, THRESHOLDS};
use std::io::Write;
use tool::boxes::{Boxes, Origin};
use tool::dump::{Dump, Records};
use tool::explain::query::Asked;
use tool::explain::Explainer;
use tool::field::Field;
use tool::trace::Trace;

const BUILDS: usize = 1_000;

/// What was met on the way, so that the builds are seen to be no tame ones.
#[derive(Default, Debug)]
struct Met {
    builds: usize,
    fields: usize,
    steps: usize,
    thresholds: std::collections::BTreeSet<u32>,
    padding: usize,
    ranges: usize,
    wrapped: usize,
    made_nan: usize,
    sorted: usize,
    empty: usize,
    outside: usize,
}

#[test]
fn every_field_of_1000_random_builds() {
    let mut random = Random(2026);
    let mut met = Met::default();
    while met.builds < BUILDS {
        let (items, threshold) = match met.builds {
            edge @ 0..12 => about_a_ranges_limit(&mut random, 58 + edge),
            _ => {
                let n = length(&mut random);
                (list(&mut random, n), random.pick(&THRESHOLDS))
            }
        };
        let tree = Tree::build(&items, threshold).expect("within the limits");
        let records = Records::of(&tree);
        met.outside += tree.premises().is_err() as usize;
        let boxes = Boxes { items, origin: Origin::Children { file: "random.bin".into() } };
        each_field(&boxes, threshold, &records, &mut met);
        met.builds += 1;
        met.thresholds.insert(threshold);
    }
    // Past the capture of tests, so that the count is seen.
    let _ = writeln!(std::io::stderr(), "explain reaches the library's bytes: {met:?}");
    assert_eq!(met.thresholds.len(), 7, "{met:?}");
    for seen in [met.padding, met.wrapped, met.made_nan, met.sorted, met.outside] {
        assert!(seen > 100, "{met:?}");
    }
    assert!(met.fields > 150_000 && met.ranges > 10 && met.empty > 10, "{met:?}");
}

/// 64 boxes at threshold 1 have 127 nodes, the most of a range.
fn about_a_ranges_limit(random: &mut Random, n: usize) -> (Vec<BvhItem>, u32) {
    let mut items = list(random, n);
    items.iter_mut().for_each(|item| item.present = 1);
    (items, 1)
}

fn each_field(boxes: &Boxes, threshold: u32, records: &Records, met: &mut Met) {
    let trace = Trace::of(&boxes.items, threshold as usize);
    let explainer = Explainer { boxes, trace: &trace, records, mesh: None };
    met.empty += trace.present.is_empty() as usize;
    met.ranges += (trace.ranges.len() > 1) as usize;
    met.padding += records.capacity() - records.node_count();
    assert_eq!((trace.nodes.len(), trace.capacity()), (records.node_count(), records.capacity()));
    for field in Field::all(records) {
        let explained = explainer.field(field);
        let found = field.raw(records).expect("the field is there");
        let reached = match &explained.bytes {
            None => field.is_given(),
            Some(bytes) => bytes == &found || field.is_made() && nan(bytes) && nan(&found),
        };
        assert!(reached, "{field}: {} is not {found:02X?} of {:?} at {threshold}", explained.text(), boxes.items);
        assert!(!explained.steps.is_empty() && explained.steps.iter().any(|step| !step.rules.is_empty()), "{field}");
        met.fields += 1;
        met.steps += explained.steps.len();
        met.wrapped += explained.steps.iter().any(|step| step.text.contains("WRAPPED")) as usize;
        met.sorted += explained.steps.iter().any(|step| step.text.contains("sorted")) as usize;
        met.made_nan += (field.is_made() && nan(&found)) as usize;
    }
}

fn nan(bytes: &[u8]) -> bool {
    bytes.len() == 4 && f32::from_le_bytes([bytes[0], bytes[1], bytes[2], bytes[3]]).is_nan()
}

/// Every item of random lists, asked about with random queries: the story ends as the library's walk does.
#[test]
fn every_item_of_random_queries() {
    let mut random = Random(7);
    let (mut asked, mut handed_out, mut missed) = (0, 0, 0);
    for round in 0..400 {
        let n = 1 + length(&mut random);
        let threshold = random.pick(&THRESHOLDS);
        let items = list(&mut random, n);
        let boxes = Boxes { items: items.clone(), origin: Origin::Children { file: "random.bin".into() } };
        let (dump, _) = Dump::build("random.bin", boxes, threshold).expect("within the limits");
        let trace = Trace::of(&items, threshold as usize);
        let explainer =
            Explainer { boxes: dump.input().expect("its input"), trace: &trace, records: &dump.records, mesh: None };
        let other = list(&mut random, 1)[0];
        let query = if round % 2 == 0 { items[random.below(n)] } else { other };
        let found = dump.walk(query.min, query.max).expect("a build's records");
        let places: Vec<_> = found.positions.iter().map(|&p| dump.place(p as usize).expect("a place")).collect();
        for (item, entry) in items.iter().enumerate() {
            let ask = Asked { dump: &dump, min: query.min, max: query.max, item };
            let (told, reads) = explainer.query(&ask, &|_| true);
            assert_eq!(reads, found.reads, "{}", told.text());
            let (handed, meets) = (places.contains(&item), entry.meets(query.min, query.max));
            let expected = match (entry.present != 0, meets, handed) {
                (false, ..) => "is absent",
                (_, true, true) => "as floats (W2) and is handed out",
                (_, true, false) => "as floats (W2) and is NOT handed out",
                (_, false, true) => "and is handed out: its leaf's record meets",
                (_, false, false) => "and is not handed out",
            };
            assert!(told.heading.contains(expected), "{}", told.text());
            let misses = told.steps.iter().any(|step| step.text.contains(" misses on "));
            assert_eq!(misses, entry.present != 0 && !handed, "{}", told.text());
            asked += 1;
            handed_out += handed as usize;
            let lost = entry.present != 0 && meets && !handed;
            assert!(!lost || bounds::ordinary(&items).is_err(), "within the premises nothing is missed");
            missed += lost as usize;
        }
    }
    let counts = format!("{asked} items asked about, {handed_out} handed out, {missed} missed outside the premises");
    let _ = writeln!(std::io::stderr(), "explain query ends as the library's walk: {counts}");
    assert!(asked > 4_000 && handed_out > 500 && missed > 10);
}
