//! `tree_header`: the 128 bytes of a header, by the proved library and by the reference. Every float is copied, so that a
//! NaN's bits are compared too.

use crate::inputs::{Input, Inputs};
use crate::lent::Lent;
use crate::random::Random;
use crate::report::{Line, Progress};
use bounds::bvh::HEADER;
use bounds::{tree_header, Bvh, Vec3};
use oracle::tree::{self, Header};

struct Case {
    header: Header,
    len: usize,
}

/// Random headers, `cases` of them.
pub fn run(seed: u64, cases: u64) -> Line {
    let mut progress = Progress::new("header", cases);
    let (mut reached, mut mismatches, mut first) = ([0; 3], 0, None);
    let (mut random, mut inputs) = (Random::new(seed ^ 0x4EAD), Inputs::new(seed));
    for done in 0..cases {
        let case = case(&mut random, &mut inputs);
        let theirs = expected(&case);
        reached[theirs.as_ref().map_or_else(|&number| number as usize, |_| 0)] += 1;
        if let Err(why) = differs(&case, &theirs, seed ^ done << 20) {
            mismatches += 1;
            first.get_or_insert_with(|| format!("{why}\n  {} bytes lent for {:?}", case.len, case.header));
        }
        if done % 4096 == 0 {
            progress.at(done);
        }
    }
    progress.end(mismatches);
    let reached = (1..3).map(|n| format!("refused {n}: {}", reached[n])).chain([format!("written: {}", reached[0])]);
    Line { operation: "header".to_string(), cases, mismatches, smallest: first, reached: reached.collect() }
}

fn case(random: &mut Random, inputs: &mut Inputs) -> Case {
    let mut words = [0; 15];
    inputs.fill(&[Input::Float; 15], &mut words);
    let point = |i: usize| std::array::from_fn(|axis| f32::from_bits(words[3 * i + axis]));
    let mut address = || random.u64() >> random.below(64);
    let (nodes_address, trees_address) = (address(), address());
    let mut count = || random.u32() >> random.below(32);
    let (nodes_count, nodes_capacity) = (count(), count());
    let trees_count = match random.below(8) {
        0 => random.pick(&[65_534, 65_535, 65_536, 65_537, 131_071, u32::MAX as usize]),
        1 => random.u32() as usize,
        _ => random.below(65_536),
    };
    let len = match random.below(8) {
        0 => random.below(HEADER),
        1 => HEADER - 1,
        2 => HEADER + random.below(40),
        _ => HEADER,
    };
    let header = Header {
        nodes_address,
        nodes_count,
        nodes_capacity,
        min: point(0),
        max: point(1),
        cen: point(2),
        inverse: point(3),
        quantum: point(4),
        trees_address,
        trees_count,
    };
    Case { header, len }
}

/// The reference's answer, and then refusal 2, which it has not.
fn expected(case: &Case) -> Result<[u8; 128], u32> {
    let bytes = tree::header(&case.header).map_err(|refused| refused.0 as u32)?;
    if case.len < HEADER {
        Err(2)
    } else {
        Ok(bytes)
    }
}

fn differs(case: &Case, theirs: &Result<[u8; 128], u32>, seed: u64) -> Result<(), String> {
    let mut out = Lent::<u8>::new(case.len, seed);
    let answer = tree_header(out.buffer(), &ours(&case.header));
    match (answer, theirs) {
        (Ok(()), Ok(theirs)) => out.check(theirs),
        (Err(ours), Err(theirs)) if ours.number() == *theirs => out.check(&[]),
        (ours, theirs) => Err(format!("{ours:?}, expected {:?}", theirs.map(|_| ()))),
    }
}

fn ours(h: &Header) -> Bvh {
    let vec3 = |p: [f32; 3]| Vec3::new(p[0], p[1], p[2]);
    Bvh {
        nodes_address: h.nodes_address,
        nodes_count: h.nodes_count,
        nodes_capacity: h.nodes_capacity,
        bb_min: vec3(h.min),
        bb_max: vec3(h.max),
        bb_center: vec3(h.cen),
        quantum_inverse: vec3(h.inverse),
        quantum: vec3(h.quantum),
        trees_address: h.trees_address,
        trees_count: h.trees_count as u32,
    }
}
