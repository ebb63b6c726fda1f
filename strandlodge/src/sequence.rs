//! The main volume descriptor sequence, for display: its descriptors, and which of them count. Opening does not use
//! this module.

use crate::answer::{Refusal, Refused};
use crate::calls;
use crate::how::How;
use crate::udf::AVDP_SECTOR;
use std::collections::HashMap;
use std::fmt;

pub(crate) const SECTOR: usize = 2048;

/// The sector of the anchor, which gives the place and the length of the sequence.
const ANCHOR: usize = AVDP_SECTOR as usize;

/// The id of the descriptor that ends the sequence.
const TERMINATING: u16 = 8;

/// The kinds of descriptors of which one counts.
#[derive(Debug, Clone, Copy, PartialEq, Eq, Hash)]
pub enum Kind {
    /// Holds the label.
    PrimaryVolume,
    /// Says where the partition starts.
    Partition,
    /// Says where the file set descriptor is.
    LogicalVolume,
}

impl fmt::Display for Kind {
    fn fmt(&self, f: &mut fmt::Formatter<'_>) -> fmt::Result {
        f.write_str(match self {
            Kind::PrimaryVolume => "primary volume",
            Kind::Partition => "partition",
            Kind::LogicalVolume => "logical volume",
        })
    }
}

/// A descriptor of the main volume descriptor sequence.
#[derive(Debug, Clone, Copy, PartialEq, Eq, Hash)]
pub struct VolumeDescriptor {
    /// The sector that holds it.
    pub sector: u64,
    /// Its kind.
    pub kind: Kind,
    /// Its volume descriptor sequence number.
    pub number: u32,
    /// Whether it is the one of its kind that counts. None counts if the sequence was refused.
    pub prevails: bool,
}

/// The descriptors of the main sequence of which one of each kind counts, in order, up to the first that opening
/// refuses. This looks at the sectors again, and does not count them.
pub fn volume_descriptors(image: &[u8], how: How) -> Vec<VolumeDescriptor> {
    if !holds(image, ANCHOR) {
        return Vec::new();
    }
    let (first, whole) = (number(image, ANCHOR, 20) as usize, number(image, ANCHOR, 16) as usize / SECTOR);
    let (accepted, mut found) = (accepted(image, how), Vec::new());
    for sector in first..first + whole.min(accepted) {
        if !holds(image, sector) {
            break;
        }
        let kind = match number(image, sector, 0) as u16 {
            1 => Kind::PrimaryVolume,
            5 => Kind::Partition,
            6 => Kind::LogicalVolume,
            TERMINATING => return marked(image, found, how),
            _ => continue,
        };
        found.push(VolumeDescriptor { sector: sector as u64, kind, number: number(image, sector, 16), prevails: false });
    }
    if accepted < whole { found } else { marked(image, found, how) }
}

/// How many sectors of the sequence opening has accepted, at most. A refusal 1, 2 or 10 is for the last sector asked
/// for: the anchor, which is the first, a sector of the sequence, or the file set descriptor's, which comes after them.
fn accepted(image: &[u8], how: How) -> usize {
    // The sectors are the same without the maps, whose table has a refusal by 2 of its own.
    match calls::open(image, How { maps: false, ..how }.number()) {
        Err(Refused { why: Refusal::Io | Refusal::Malformed | Refusal::BadCrc, sectors }) => (sectors as usize).saturating_sub(2),
        _ => usize::MAX,
    }
}

/// The same, marking those that count: of each kind the last, or the last of those with the highest number. With maps,
/// the partition descriptors of each partition number are a kind of their own.
fn marked(image: &[u8], mut found: Vec<VolumeDescriptor>, how: How) -> Vec<VolumeDescriptor> {
    let mut prevail = HashMap::new();
    for (i, one) in found.iter().enumerate() {
        let kind = (one.kind, (how.maps && one.kind == Kind::Partition).then(|| partition(image, one)));
        let earlier = prevail.get(&kind).map(|at: &usize| found[*at].number);
        if !(how.highest && earlier.is_some_and(|number| number > one.number)) {
            prevail.insert(kind, i);
        }
    }
    prevail.into_values().for_each(|at| found[at].prevails = true);
    found
}

/// The partition number of a partition descriptor.
pub(crate) fn partition(image: &[u8], one: &VolumeDescriptor) -> u16 {
    (number(image, one.sector as usize, 20) >> 16) as u16
}

/// The start of its partition, as it gives it.
pub(crate) fn partition_start(image: &[u8], one: &VolumeDescriptor) -> u32 {
    number(image, one.sector as usize, 188)
}

fn holds(image: &[u8], sector: usize) -> bool {
    sector < image.len() / SECTOR
}

/// The number at an offset of a sector; its low half is an id.
pub(crate) fn number(image: &[u8], sector: usize, at: usize) -> u32 {
    calls::peek(image, sector * SECTOR + at).map_or(0, u32::from_le_bytes)
}
