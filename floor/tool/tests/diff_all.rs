//! Random pairs of lists compared: each field that differs has one cause, and a list compared with itself has none.

mod common;

use bounds::BvhItem;
use common::{dump, length, list, Random, THRESHOLDS};
use std::collections::BTreeMap;
use tool::diff::{compare, Cause, Verdict};

/// One to three changes: a value, an entry's presence, the list's length; now and then the threshold.
fn changed(random: &mut Random, items: &[BvhItem], threshold: u32) -> (Vec<BvhItem>, u32) {
    let mut changed = items.to_vec();
    let mut threshold = threshold;
    for _ in 0..1 + random.below(3) {
        let at = random.below(changed.len().max(1));
        let other = list(random, 1)[0];
        match random.below(8) {
            0 if !changed.is_empty() => changed[at].present ^= 1,
            1 => changed.push(other),
            2 => drop(changed.pop()),
            3 => threshold = random.pick(&THRESHOLDS),
            4 if !changed.is_empty() => changed[at] = other,
            _ if !changed.is_empty() => changed[at].min.x = other.min.x,
            _ => (),
        }
    }
    (changed, threshold)
}

#[test]
fn each_field_has_one_cause() {
    let mut random = Random::new(5);
    let mut seen: BTreeMap<String, usize> = BTreeMap::new();
    let (mut pairs, mut fields, mut lost) = (0, 0, 0);
    for _ in 0..600 {
        let n = length(&mut random);
        let (items, threshold) = (list(&mut random, n), random.pick(&THRESHOLDS));
        let (others, other_threshold) = changed(&mut random, &items, threshold);
        let (a, b) = (dump("a", items, threshold), dump("b", others, other_threshold));
        let comparison = compare(&a, &b).expect("two dumps");
        let known = comparison.known.as_ref().expect("both inputs");
        let caused: usize = known.causes.iter().map(|cause| cause.fields.len()).sum();
        assert_eq!(caused, comparison.fields.len());
        assert!(!known.changes.is_empty() || comparison.fields.is_empty(), "the same inputs give the same bytes");
        for cause in &known.causes {
            let name = format!("{:?}", cause.cause);
            *seen.entry(name.split('(').next().unwrap_or("").into()).or_default() += cause.fields.len();
            assert!(cause.cause != Cause::Bytes, "both are what their inputs give");
            assert!(cause.cause != Cause::Unknown, "{:?}", cause.fields);
            assert!(!cause.title.is_empty() && !cause.rules.is_empty());
        }
        assert!(comparison.text().starts_with("verdict  ") && comparison.json().to_string().starts_with('{'));
        lost += known.rows.iter().filter(|row| row.verdict == Verdict::Lost).count();
        pairs += 1;
        fields += comparison.fields.len();
    }
    println!("{pairs} pairs, {fields} fields that differ, by cause {seen:?}; {lost} boxes lost");
    for cause in ["Threshold", "List", "Scale", "Split", "Own"] {
        assert!(seen.get(cause).is_some_and(|&n| n > 20), "{cause}: {seen:?}");
    }
}

#[test]
fn a_dump_and_itself_are_the_same() {
    let mut random = Random::new(6);
    for _ in 0..100 {
        let n = length(&mut random);
        let (items, threshold) = (list(&mut random, n), random.pick(&THRESHOLDS));
        let (a, b) = (dump("a", items.clone(), threshold), dump("b", items, threshold));
        let comparison = compare(&a, &b).expect("two dumps");
        assert!(
            comparison.fields.is_empty() && comparison.text().contains("the inputs are the same; no field differs")
        );
    }
}
