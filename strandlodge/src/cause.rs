//! The cause of a refusal (docs/RULES.md, parts 5 to 7).

use crate::answer::Refusal;
use crate::diagnosis::{Diagnosis, Sought};
use crate::how::How;
use crate::maps::{place_of, started};
use crate::opening::Sequence;
use crate::records::{AllocExtent, LbAddr, LongAd};
use crate::sequence::Kind;
use crate::source::Source;
use crate::table::{MapForm, MapTable};
use crate::udf::{AVDP_SECTOR, AllocationExtentDescriptor, AnchorVolumeDescriptorPointer};
use crate::{SECTOR_SIZE, entries, parsing};
use std::fmt;
use std::io::{Read, Seek};
use strandlodge_sys::vault::Mount;

/// The other block sizes that discs have.
const SIZES: [u32; 3] = [512, 1024, 4096];

/// The anchor is in this block, whatever the block size; or in the last block, or this many blocks before it.
const ANCHOR: u32 = AVDP_SECTOR as u32;

/// The longest chain (docs/RULES.md, 6.16).
const MOST_CONTINUATIONS: usize = 32;
const LONGEST: u32 = 1 << 20;

/// The cause of a refusal: given for every refusal 4, and for others if it is known.
#[derive(Debug, Clone, PartialEq, Eq, Hash)]
#[non_exhaustive]
pub enum Cause {
    /// The block size is not 2,048 bytes, according to the logical volume descriptor, or because the anchor is where it
    /// would be for that size.
    BlockSize(u32),
    /// There is no anchor in sector 256, but one in this sector. Only sector 256 is used.
    AnchorAt(u64),
    /// The main sequence has no descriptor of this kind.
    NoDescriptor(Kind),
    /// A partition reference is not the number of the volume's partition. (References are compared with it without
    /// [`How::maps`].)
    Reference {
        /// The reference.
        reference: u16,
        /// The number of the partition.
        partition: u16,
    },
    /// A partition reference leads to no partition map.
    NoMap {
        /// The reference.
        reference: u16,
        /// The number of maps.
        maps: u32,
    },
    /// There are this many partition maps; up to four are supported.
    ManyMaps(u32),
    /// A partition map has an unsupported type.
    MapKind {
        /// Its index: the reference that leads to it.
        map: usize,
        /// Its type.
        kind: u8,
        /// Its partition type identifier, if it is of type 2.
        identifier: String,
    },
    /// A partition map is for a partition that has no descriptor.
    NoPartition {
        /// Its index.
        map: usize,
        /// The number of the partition.
        number: u16,
    },
    /// An extent is compressed: its recorded length differs from its information length.
    Compressed {
        /// The first block.
        block: u32,
        /// The number of recorded bytes.
        recorded: u32,
        /// The number of bytes that they stand for.
        information: u32,
    },
    /// An extent is not recorded. Type 1 is allocated, type 2 is not.
    NotRecorded {
        /// The type.
        extent_type: u8,
        /// Its length in bytes.
        length: u32,
    },
    /// A continuation of a file's descriptors has this many bytes; up to 1,048,576 are supported.
    LongContinuation(u32),
    /// An ICB has length 0 and names nothing.
    EmptyIcb,
}

impl fmt::Display for Cause {
    fn fmt(&self, f: &mut fmt::Formatter<'_>) -> fmt::Result {
        match self {
            Cause::BlockSize(size) => write!(f, "the disc has blocks of {size} bytes; only 2048 is supported"),
            Cause::AnchorAt(sector) => write!(f, "there is no anchor in sector 256; the one in sector {sector} is not used"),
            Cause::NoDescriptor(kind) => write!(f, "the volume has no {kind} descriptor"),
            Cause::Reference { reference, partition } => {
                write!(f, "partition reference {reference} is not the number of the volume's partition, which is {partition}")
            }
            Cause::NoMap { reference, maps } => {
                write!(f, "partition reference {reference} leads to no partition map; there are {maps}")
            }
            Cause::ManyMaps(maps) => write!(f, "the volume has {maps} partition maps; up to {} are supported", MapTable::MOST),
            Cause::MapKind { map, kind, identifier } => {
                let name = if identifier.is_empty() { String::new() } else { format!(" ({})", identifier.escape_debug()) };
                write!(f, "partition map {map} is of type {kind}{name}; only type 1 is supported")
            }
            Cause::NoPartition { map, number } => write!(f, "partition map {map} is for partition {number}, which has no descriptor"),
            Cause::Compressed { block, recorded, information } => {
                write!(f, "an extent is compressed: the {recorded} bytes from block {block} on stand for {information}")
            }
            Cause::NotRecorded { extent_type, length } => {
                write!(f, "an extent of {length} bytes is not recorded (type {extent_type}): the file has a hole")
            }
            Cause::LongContinuation(length) => {
                write!(f, "a continuation of the file's descriptors has {length} bytes; up to {LONGEST} are supported")
            }
            Cause::EmptyIcb => f.write_str("its ICB has length 0 and names nothing"),
        }
    }
}

/// The cause of a refused opening.
pub(crate) fn of_opening<R: Read + Seek>(source: &mut Source<R>, sequence: &Sequence, how: How, diagnosis: &Diagnosis) -> Option<Cause> {
    match diagnosis.refused.why {
        Refusal::Io | Refusal::Malformed if diagnosis.place.is_some_and(|place| place.sought == Sought::Anchor) => elsewhere(source),
        Refusal::NotBluray => lacking(sequence, how),
        Refusal::Unsupported => unread(sequence, how),
        _ => None,
    }
}

/// An anchor that isn't in sector 256: for another block size, or at the end.
fn elsewhere<R: Read + Seek>(source: &mut Source<R>) -> Option<Cause> {
    let mut says = |sector: u64, location: u64| {
        let anchor = source.look(sector).and_then(|bytes| AnchorVolumeDescriptorPointer::parse(&bytes).ok());
        anchor.is_some_and(|anchor| u64::from(anchor.tag.location) == location)
    };
    let sized = SIZES.into_iter().find(|size| says(u64::from(*size) * u64::from(ANCHOR) / SECTOR_SIZE, ANCHOR.into()));
    if let Some(size) = sized {
        return Some(Cause::BlockSize(size));
    }
    let end = source.length()? / SECTOR_SIZE;
    let ends = [end.checked_sub(1)?, end.checked_sub(1 + u64::from(ANCHOR))?];
    let mut says = |sector: &u64| source.look(*sector).is_some_and(|bytes| is_anchor_of(&bytes, *sector));
    ends.into_iter().find(|sector| says(sector)).map(Cause::AnchorAt)
}

fn is_anchor_of(bytes: &[u8], sector: u64) -> bool {
    AnchorVolumeDescriptorPointer::parse(bytes).is_ok_and(|anchor| u64::from(anchor.tag.location) == sector)
}

/// The first of the three descriptors that is missing (5.11).
fn lacking(sequence: &Sequence, how: How) -> Option<Cause> {
    let there = [sequence.has_primary, !sequence.partitions.is_empty(), sequence.logical(how).is_some()];
    let kinds = [Kind::PrimaryVolume, Kind::Partition, Kind::LogicalVolume];
    kinds.into_iter().zip(there).find(|(_, is_there)| !is_there).map(|(kind, _)| Cause::NoDescriptor(kind))
}

/// What is not supported in a volume (5.11, 5.28).
fn unread(sequence: &Sequence, how: How) -> Option<Cause> {
    let (logical, table) = (&sequence.logical(how)?.0, sequence.table(how)?);
    let reference = logical.file_set_descriptor_location.location.partition_ref;
    if u64::from(logical.logical_block_size) != SECTOR_SIZE {
        return Some(Cause::BlockSize(logical.logical_block_size));
    }
    let kind = |map: usize| match table.found.get(map)? {
        MapForm::Other { kind, identifier, .. } => {
            Some(Cause::MapKind { map, kind: *kind, identifier: String::from_utf8_lossy(identifier).into_owned() })
        }
        MapForm::Plain { .. } => None,
    };
    if !how.maps {
        let partition = sequence.partition(how, None)?.partition_number;
        return kind(reference.into()).or(Some(Cause::Reference { reference, partition }));
    }
    if table.maps > MapTable::MOST {
        return Some(Cause::ManyMaps(table.maps));
    }
    let lost = |map: usize| match table.found.get(map)? {
        MapForm::Plain { number, start: None, .. } => Some(Cause::NoPartition { map, number: *number }),
        _ => None,
    };
    let all = 0..table.found.len();
    let no_map = Cause::NoMap { reference, maps: table.maps };
    all.clone().find_map(kind).or_else(|| all.clone().find_map(lost)).or(Some(no_map))
}

/// The cause of a refusal at the file or directory of an ICB.
pub(crate) fn of_call<R: Read + Seek>(source: &mut Source<R>, mount: Mount, icb: LongAd, why: Refusal) -> Option<Cause> {
    match why {
        Refusal::Unsupported => of_reading(source, mount, icb),
        Refusal::Malformed => (icb.length == 0).then_some(Cause::EmptyIcb),
        _ => None,
    }
}

/// The cause of a read refused with 4: the first thing that is not supported, in the order of the read.
fn of_reading<R: Read + Seek>(source: &mut Source<R>, mount: Mount, icb: LongAd) -> Option<Cause> {
    let Some(start) = started(mount, icb) else {
        return Some(Cause::NoMap { reference: icb.location.partition_ref, maps: mount.maps });
    };
    let bytes = source.look(start + u64::from(icb.location.block))?;
    let entry = parsing::file_entry(&bytes).ok()?;
    let kind = entries::AdType::from_flags(entry.kind.into()).ok()?;
    let mut area = bytes.get(entry.area_at..)?.get(..entry.area_length)?.to_vec();
    let mut extents = Vec::new();
    for _ in 0..=MOST_CONTINUATIONS {
        let next = match cut(kind, &area, &mut extents) {
            Ok(next) => next,
            Err(cause) => return Some(cause),
        };
        let Some(next) = next else {
            return unrecorded(mount, &extents);
        };
        area = match continued(source, mount, start, next) {
            Ok(area) => area?,
            Err(cause) => return Some(cause),
        };
    }
    None
}

/// Appends the extents of an area and returns where it continues; or the compressed extent.
fn cut(kind: entries::AdType, area: &[u8], extents: &mut Vec<AllocExtent>) -> Result<Option<entries::AdContinuation>, Cause> {
    for one in entries::Area::new(kind, area) {
        match one {
            Ok(entries::Descriptor::Continuation(next)) => return Ok(Some(next)),
            Ok(other) => extents.extend(other.extent()),
            Err(entries::Unread::Compressed(ad)) => {
                return Err(Cause::Compressed {
                    block: ad.location.block,
                    recorded: ad.recorded_length,
                    information: ad.information_length,
                });
            }
            Err(entries::Unread::Malformed) => break,
        }
    }
    Ok(None)
}

/// The area of a continuation, if it is there; or what is not supported in it.
fn continued<R: Read + Seek>(
    source: &mut Source<R>,
    mount: Mount,
    start: u64,
    next: entries::AdContinuation,
) -> Result<Option<Vec<u8>>, Cause> {
    let first = match next.partition_ref {
        Some(partition_ref) => placed(mount, LbAddr { block: next.block, partition_ref })?,
        None => start + u64::from(next.block),
    };
    if next.length > LONGEST {
        return Err(Cause::LongContinuation(next.length));
    }
    let sectors = u64::from(next.length).div_ceil(SECTOR_SIZE);
    let bytes: Option<Vec<Vec<u8>>> = (first..first + sectors).map(|sector| source.look(sector)).collect();
    let whole = bytes.map(|bytes| bytes.concat()).unwrap_or_default();
    let header = AllocationExtentDescriptor::parse(&whole).ok();
    let area = |header: AllocationExtentDescriptor| {
        let length = header.length_of_allocation_descriptors as usize;
        Some(whole.get(AllocationExtentDescriptor::HEADER_SIZE..)?.get(..length)?.to_vec())
    };
    Ok(header.and_then(area))
}

/// The sector of a block, or why it has none on this volume.
fn placed(mount: Mount, place: LbAddr) -> Result<u64, Cause> {
    let reference = place.partition_ref;
    place_of(mount, place).ok_or(match mount.maps {
        0 => Cause::Reference { reference, partition: mount.partition },
        maps => Cause::NoMap { reference, maps },
    })
}

/// The first extent that is not supported (7.3). A read refused with 4 has come to it.
fn unrecorded(mount: Mount, extents: &[AllocExtent]) -> Option<Cause> {
    extents.iter().find_map(|&AllocExtent { length, extent_type, block, partition_ref }| {
        if extent_type != 0 {
            return Some(Cause::NotRecorded { extent_type, length });
        }
        placed(mount, LbAddr { block, partition_ref: partition_ref? }).err()
    })
}
