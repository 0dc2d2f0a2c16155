//! Damaged records in every command's hands: nothing panics, and no field is explained that the input does not give.

mod common;

use bounds::Vec3;
use common::{length, list, Random, THRESHOLDS};
use tool::account::{account, traced};
use tool::boxes::{Boxes, Origin};
use tool::diff::compare;
use tool::draw::{Picture, Query};
use tool::dump::Dump;
use tool::explain::query::Asked;
use tool::explain::Explainer;
use tool::field::Field;

fn dump(random: &mut Random) -> Dump {
    let n = 1 + length(random).min(40);
    let (items, threshold) = (list(random, n), random.pick(&THRESHOLDS));
    let boxes = Boxes { items, origin: Origin::Entries { file: "boxes.bin".into() } };
    Dump::build("random", boxes, threshold).expect("within the limits").0
}

/// A few bytes of the records, the padding among them, become others.
fn damage(random: &mut Random, dump: &mut Dump) {
    for _ in 0..1 + random.below(4) {
        let value = random.pick(&[0, 1, 2, 0x7F, 0x80, 0xFF]);
        let records = &mut dump.records;
        match random.below(8) {
            0 => records.header[random.below(128)] = value,
            1 => records.header[8 + random.below(2)] = value, // the count of nodes
            2 | 3 => {
                let at = random.below(records.trees.len());
                records.trees[at] = value;
            }
            4 if !records.order.is_empty() => {
                let at = random.below(records.order.len());
                records.order[at] = value as u16;
            }
            _ => {
                let at = random.below(records.nodes.len());
                records.nodes[at] = value;
            }
        }
    }
}

#[test]
fn damaged_records_are_told_as_such() {
    let mut random = Random(99);
    let (mut damaged, mut walked, mut explained) = (0, 0, 0);
    for _ in 0..600 {
        let whole = dump(&mut random);
        let mut broken = whole.clone();
        damage(&mut random, &mut broken);
        let account = account(&broken).expect("its input can be built");
        let trace = traced(&broken, &account).expect("the trace is of the input");
        let boxes = broken.input().expect("its input");
        let explainer = Explainer { boxes, trace: &trace, records: &account.rebuilt, mesh: None };
        damaged += (!account.differing.is_empty()) as usize;
        for field in Field::all(&broken.records).into_iter().filter(|&field| !account.differs(field)) {
            let told = explainer.field(field);
            assert!(field.is_given() || trace.reaches(field, &broken.records), "{}", told.text());
            explained += 1;
        }
        let query = boxes.items[random.below(boxes.items.len())];
        let (min, max) = (query.min, query.max);
        if broken.walk(min, max).is_ok() {
            for item in 0..broken.entries {
                explainer.query(&Asked { dump: &broken, min, max, item }, &|field| !account.differs(field));
            }
            walked += 1;
        }
        let far = Query { min: Vec3::new(f32::NEG_INFINITY, min.y, min.z), max };
        assert!(Picture::of(&broken, &trace, &account, Some(far)).svg().ends_with("</svg>\n"));
        let text = compare(&whole, &broken).expect("both have inputs").text();
        assert_eq!(text.contains("\nbytes    "), !account.differing.is_empty(), "{text}");
    }
    println!("{damaged} dumps damaged, {walked} walked all the same, {explained} fields explained");
    assert!(damaged > 400 && walked > 100);
}
