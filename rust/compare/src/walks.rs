//! Walks over records: the proved walk and the plain Rust one over the same records, every count, refusal and place
//! compared.

use crate::lent::Lent;
use crate::records::{Case, Records};
use crate::report::{Line, Progress};
use crate::walk::{Walk, Walked};
use bounds::walk as proved;
use bounds::Vec3;

/// How often each refusal was reached, and what was read and handed out in all.
#[derive(Default)]
struct Reached {
    refusals: [u64; 12],
    reads: u64,
    handed: u64,
}

impl Reached {
    fn note(&mut self, walked: Walked) {
        self.refusals[walked.refusal as usize] += 1;
        self.reads += walked.reads as u64;
        self.handed += walked.handed as u64;
    }

    fn lines(&self) -> Vec<String> {
        let refused = [1, 2, 9, 10, 11].map(|number| format!("refused {number}: {}", self.refusals[number]));
        let walked = format!("walked to the end: {}", self.refusals[0]);
        let sums = format!("records read: {}; positions handed out: {}", self.reads, self.handed);
        refused.into_iter().chain([walked, sums]).collect()
    }
}

/// The proved library's walk.
pub fn proved(walk: &Walk, out: &mut [u16]) -> Walked {
    let vec3 = |p: [f32; 3]| Vec3::new(p[0], p[1], p[2]);
    let records = proved::Records {
        node_bytes: walk.nodes,
        nodes_count: walk.node_count,
        tree_bytes: walk.trees,
        trees_count: walk.tree_count,
        items_count: walk.item_count,
    };
    let (min, max, cen, inverse) = (vec3(walk.query.min), vec3(walk.query.max), vec3(walk.cen), vec3(walk.inverse));
    let (refusal, counts) = match proved::walk(min, max, cen, inverse, &records, out) {
        Ok(counts) => (0, counts),
        Err(refused) => (refused.refusal.number(), refused.counts),
    };
    Walked { refusal, reads: counts.reads, handed: counts.handed }
}

/// `cases` walks by `ours`, which answers for a walk and the output that it is lent.
pub fn run(seed: u64, cases: u64, ours: impl Fn(&Walk, &mut [u16]) -> Walked) -> Line {
    let mut progress = Progress::new("walk", cases);
    let (mut reached, mut mismatches, mut first) = (Reached::default(), 0, None);
    let mut records = Records::new(seed);
    for done in 0..cases {
        let case = records.case();
        match differs(&case, &ours, seed ^ done << 20) {
            Ok(walked) => reached.note(walked),
            Err(why) => {
                mismatches += 1;
                first.get_or_insert((why, case));
            }
        }
        if done % 4096 == 0 {
            progress.at(done);
        }
    }
    progress.end(mismatches);
    let smallest = first.map(|(why, case)| format!("{why}\n  {}", describe(&case)));
    Line { operation: "walk".to_string(), cases, mismatches, smallest, reached: reached.lines() }
}

/// What both answer; `Err` with the first thing that is not the same.
fn differs(case: &Case, ours: impl Fn(&Walk, &mut [u16]) -> Walked, seed: u64) -> Result<Walked, String> {
    let mut theirs_out = vec![0; case.out];
    let theirs = case.walk().run(&mut theirs_out);
    let mut out = Lent::<u16>::new(case.out, seed);
    let ours = ours(&case.walk(), out.buffer());
    if ours != theirs {
        return Err(format!("{ours:?}, expected {theirs:?}"));
    }
    out.check(&theirs_out[..theirs.handed])?;
    Ok(theirs)
}

fn describe(case: &Case) -> String {
    let records = |bytes: &[u8]| -> Vec<[i16; 8]> {
        let short = |r: &[u8], i: usize| i16::from_le_bytes([r[2 * i], r[2 * i + 1]]);
        bytes.chunks_exact(16).take(40).map(|r| std::array::from_fn(|i| short(r, i))).collect()
    };
    let Case { query, cen, inverse, node_count, tree_count, item_count, out, .. } = case;
    let mut text = format!("query {query:?}, cen {cen:?}, inverse {inverse:?}, items {item_count}, output of {out}");
    text += &format!("\n  trees {tree_count} in {} bytes: {:?}", case.trees.len(), records(&case.trees));
    text + &format!("\n  nodes {node_count} in {} bytes: {:?}", case.nodes.len(), records(&case.nodes))
}

#[cfg(test)]
mod tests {
    use super::*;

    #[test]
    fn the_plain_walk_matches_itself_and_every_refusal_is_reached() {
        let line = run(1, 20_000, |walk, out| walk.run(out));
        assert_eq!((line.mismatches, line.smallest), (0, None));
        assert!(line.reached.iter().all(|what| !what.ends_with(": 0")), "{:?}", line.reached);
    }

    #[test]
    fn the_proved_walk_matches() {
        assert_eq!(run(3, 20_000, proved).smallest, None);
    }

    #[test]
    fn a_wrong_walk_is_found() {
        let wrong: [fn(&Walk, &mut [u16]) -> Walked; 3] = [
            |walk, out| Walked { reads: walk.run(out).reads.max(1), ..walk.run(out) },
            |walk, out| {
                let walked = walk.run(out);
                out[..walked.handed].reverse();
                walked
            },
            |walk, out| {
                let walked = walk.run(out);
                if let Some(behind) = out.get_mut(walked.handed) {
                    *behind = 0;
                }
                walked
            },
        ];
        for walk in wrong {
            assert!(run(2, 5_000, walk).mismatches > 0);
        }
    }
}
