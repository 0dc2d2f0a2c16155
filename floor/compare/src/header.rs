//! `tree_header`: the 128 bytes of a header, by the proved library and by the reference. Every float is copied, so that a
//! NaN's bits are compared too.

use crate::inputs::{Input, Inputs};
use crate::lent::Lent;
use crate::operation::point;
use crate::random::Random;
use crate::report::{shown, Cases, Line, Refusals};
use bounds::bvh::HEADER;
use bounds::{tree_header, Bvh, Refusal};

/// A header, and how many bytes are lent for it.
#[derive(Debug)]
struct Case {
    header: Bvh,
    len: usize,
}

/// Random headers, `cases` of them.
pub fn run(seed: u64, cases: u64) -> Line {
    let mut reached = Refusals::default();
    let (mut random, mut inputs) = (Random::new(seed ^ 0x4EAD), Inputs::new(seed));
    let asked = |case: &Case, done: u64| {
        let theirs = expected(case);
        reached.note(&theirs);
        differs(case, &theirs, seed ^ done << 20)
    };
    let next = |_| case(&mut random, &mut inputs);
    let line = Cases::new("header", cases, Vec::new()).compared(next, asked, |_| 0, shown);
    let written = format!("written: {}", reached.none());
    line.reaching(reached.lines(&[1, 2]).chain([written]).collect())
}

fn case(random: &mut Random, inputs: &mut Inputs) -> Case {
    let mut words = [0; 15];
    inputs.fill(&[Input::Float; 15], &mut words);
    let mut address = || random.u64() >> random.below(64);
    let (nodes_address, trees_address) = (address(), address());
    let mut count = || random.u32() >> random.below(32);
    let (nodes_count, nodes_capacity) = (count(), count());
    let trees_count = match random.below(8) {
        0 => random.pick(&[65_534, 65_535, 65_536, 65_537, 131_071, u32::MAX]),
        1 => random.u32(),
        _ => random.below(65_536) as u32,
    };
    let len = match random.below(8) {
        0 => random.below(HEADER),
        1 => HEADER - 1,
        2 => HEADER + random.below(40),
        _ => HEADER,
    };
    let header = Bvh {
        nodes_address,
        nodes_count,
        nodes_capacity,
        bb_min: point(&words),
        bb_max: point(&words[3..]),
        bb_center: point(&words[6..]),
        quantum_inverse: point(&words[9..]),
        quantum: point(&words[12..]),
        trees_address,
        trees_count,
    };
    Case { header, len }
}

/// The reference's answer, and then refusal 2, which it has not.
fn expected(case: &Case) -> Result<[u8; 128], Refusal> {
    let bytes = oracle::tree::header(&case.header)?;
    if case.len < HEADER {
        Err(Refusal::BufferTooShort)
    } else {
        Ok(bytes)
    }
}

fn differs(case: &Case, theirs: &Result<[u8; 128], Refusal>, seed: u64) -> Result<(), String> {
    let mut out = Lent::<u8>::new(case.len, seed);
    let answer = tree_header(out.buffer(), &case.header);
    if answer != theirs.map(drop) {
        return Err(format!("{answer:?}, expected {:?}", theirs.map(drop)));
    }
    out.check(theirs.as_ref().map_or(&[], |bytes| bytes))
}
