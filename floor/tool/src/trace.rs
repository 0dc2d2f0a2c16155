//! Fields of dumps and readings of walks as [`plain`] makes them. Records come from the proved library; the plain rules must
//! reach the same bytes, and what they do not reach is not explained.

use crate::dump::Dump;
use crate::failure::Failure;
use crate::field::mesh::{Derived, MeshField};
use crate::field::{Field, InHeader, InRecord, Point, Recorded};
use bounds::Vec3;
use plain::fold::words;
use plain::mesh::MeshTrace;
use plain::tree::Trace;
use plain::walk::{Reading, Span};

/// What was built or prepared, field by field.
pub trait Fields {
    type Field: Recorded;

    /// The bytes that the rules make; none for an address, which no input gives, or a field that is not there.
    fn bytes(&self, field: Self::Field) -> Option<Vec<u8>>;

    /// Whether the rules reach the bytes that were found; an address is given, and of a made NaN any bits will do.
    fn reaches(&self, field: Self::Field, found: <Self::Field as Recorded>::Of<'_>) -> bool {
        let Some(raw) = field.raw(found) else { return false };
        match self.bytes(field) {
            None => field.is_given(),
            Some(made) => made == raw || field.is_made(found) && field.is_nan(&made) && field.is_nan(&raw),
        }
    }

    /// Itself, where it reaches every field; of what it does not reach nothing is explained.
    fn reaching(self, name: &str, found: <Self::Field as Recorded>::Of<'_>) -> Result<Self, Failure>
    where
        Self: Sized,
    {
        match Self::Field::all(found).into_iter().find(|&field| !self.reaches(field, found)) {
            None => Ok(self),
            Some(field) => {
                let at = format!("the trace does not reach the library's bytes at {field}");
                Err(Failure::Refused(format!("{name}: {at}; nothing is explained")))
            }
        }
    }
}

impl Fields for Trace<'_> {
    type Field = Field;

    fn bytes(&self, field: Field) -> Option<Vec<u8>> {
        let short = |record: [i16; 8], at: InRecord| Some(record[at.number()].to_le_bytes().to_vec());
        match field {
            Field::Header(at) => header_bytes(self, at),
            Field::Node(k, at) => short(self.node_record(k)?, at),
            Field::Tree(k, at) => short(self.tree_record(k)?, at),
            Field::Order(k) => self.order.get(k).map(|&place| (place as u16).to_le_bytes().to_vec()),
        }
    }
}

fn header_bytes(trace: &Trace, at: InHeader) -> Option<Vec<u8>> {
    let word = |word: u32| word.to_le_bytes().to_vec();
    let trees = (trace.ranges.len() as u16).to_le_bytes().to_vec();
    Some(match at {
        InHeader::NodeAddress | InHeader::TreeAddress => return None,
        InHeader::NodeCount => word(trace.nodes.len() as u32),
        InHeader::NodeCapacity => word(trace.capacity() as u32),
        InHeader::Zeros => vec![0; 16],
        InHeader::LastZeros => vec![0; 4],
        InHeader::Point(point, axis) => word(header_word(trace, point, axis as usize)),
        InHeader::Filling(_) => word(0xFFC0_0000),
        InHeader::TreeCount | InHeader::TreeCountAgain => trees,
    })
}

/// A word of the header's five points.
pub fn header_word(trace: &Trace, point: Point, axis: usize) -> u32 {
    let scale = &trace.scales[axis];
    match point {
        Point::Min => trace.all[axis],
        Point::Max => trace.all[axis + 3],
        Point::Cen => scale.cen.to_bits(),
        Point::Inverse => scale.inverse.to_bits(),
        Point::Quantum => scale.quantum.to_bits(),
    }
}

impl Fields for MeshTrace<'_> {
    type Field = MeshField;

    fn bytes(&self, field: MeshField) -> Option<Vec<u8>> {
        match field {
            MeshField::Tree(field) => self.tree.as_ref()?.bytes(field),
            MeshField::PolygonBox(k, corner, axis) => {
                let item = self.standing.items.get(*self.order.get(k)?)?;
                Some(words(item)[3 * corner as usize + axis as usize].to_le_bytes().to_vec())
            }
            _ => field.raw(&Derived { prepared: &self.prepared, tree: None, boxes: &[] }),
        }
    }
}

/// Damaged records can make a walk read more than there is room to tell; a build's are far below.
const MOST_READINGS: usize = 1 << 20;

/// All readings of a walk over a dump's bytes, and what was handed out.
pub struct Told {
    pub span: Span,
    pub readings: Vec<Reading>,
    pub positions: Vec<u16>,
}

/// Walks. Records that a walk refuses end it: the library has said so before.
pub fn walk(dump: &Dump, min: Vec3, max: Vec3) -> Told {
    let walk = dump.plain_walk(min, max);
    let (mut readings, mut positions) = (Vec::new(), vec![0; walk.records.items_count]);
    let walked = walk.tell(&mut positions, |reading| {
        readings.push(reading);
        readings.len() < MOST_READINGS
    });
    positions.truncate(walked.handed);
    Told { span: walk.span(), readings, positions }
}
