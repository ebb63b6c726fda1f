//! Repeats the sectors of an opening for a diagnosis. Opening itself does not use this module.

use crate::diagnosis::Sought;
use crate::how::How;
use crate::source::Source;
use crate::table::{MapForm, MapTable, table};
use crate::udf::{AVDP_SECTOR, AnchorVolumeDescriptorPointer, LogicalVolumeDescriptor, PartitionDescriptor};
use std::io::{Read, Seek};

const SECTOR: u32 = 2048;

/// The main sequence, as far as opening reads it without checking CRCs.
#[derive(Default)]
pub struct Sequence {
    /// The first sector, if there is an anchor.
    first: u64,
    /// How many of its sectors are asked for.
    visited: u64,
    pub has_primary: bool,
    pub partitions: Vec<PartitionDescriptor>,
    /// The logical volume descriptors, each with the bytes of its sector.
    logical: Vec<(LogicalVolumeDescriptor, Vec<u8>)>,
}

impl Sequence {
    pub fn read<R: Read + Seek>(source: &mut Source<R>) -> Sequence {
        let Some(anchor) = source.look(AVDP_SECTOR).and_then(|bytes| AnchorVolumeDescriptorPointer::parse(&bytes).ok()) else {
            return Sequence::default();
        };
        let main = anchor.main_volume_descriptor_sequence;
        let mut sequence = Sequence { first: main.location.into(), ..Sequence::default() };
        while sequence.visited < u64::from(main.length / SECTOR) {
            let bytes = source.look(sequence.first + sequence.visited);
            sequence.visited += 1;
            if !bytes.is_some_and(|bytes| sequence.take(bytes)) {
                break;
            }
        }
        sequence
    }

    /// Takes a sector by its id; false if the sequence ends there.
    fn take(&mut self, bytes: Vec<u8>) -> bool {
        match bytes[..2] {
            [1, 0] => self.has_primary = true,
            [5, 0] => self.partitions.extend(PartitionDescriptor::parse(&bytes)),
            [6, 0] => self.logical.extend(LogicalVolumeDescriptor::parse(&bytes).map(|logical| (logical, bytes))),
            [8, 0] => return false,
            _ => {}
        }
        true
    }

    /// The n-th sector that was asked for, and for what.
    pub fn asked(&self, how: How, n: u64) -> Option<(u64, Sought)> {
        match n.checked_sub(1)? {
            0 => Some((AVDP_SECTOR, Sought::Anchor)),
            n if n <= self.visited => Some((self.first + n - 1, Sought::VolumeDescriptor)),
            _ => Some((self.file_set(how)?, Sought::FileSet)),
        }
    }

    /// The logical volume descriptor that counts, with its sector.
    pub fn logical(&self, how: How) -> Option<&(LogicalVolumeDescriptor, Vec<u8>)> {
        prevailing(self.logical.iter(), how, |(logical, _)| logical.volume_descriptor_sequence_number)
    }

    /// The partition descriptor that counts, of all or of those with one number.
    pub fn partition(&self, how: How, number: Option<u16>) -> Option<&PartitionDescriptor> {
        let own = self.partitions.iter().filter(|one| number.is_none_or(|number| one.partition_number == number));
        prevailing(own, how, |one| one.volume_descriptor_sequence_number)
    }

    /// The maps of the logical volume descriptor that counts.
    pub fn table(&self, how: How) -> Option<MapTable> {
        let (_, bytes) = self.logical(how)?;
        let start = |number| self.partition(how, Some(number)).map(|one| one.partition_starting_location);
        Some(table(bytes, start))
    }

    /// The sector of the file set descriptor.
    fn file_set(&self, how: How) -> Option<u64> {
        let place = self.logical(how)?.0.file_set_descriptor_location.location;
        let start = if how.maps {
            match self.table(how)?.found.get(usize::from(place.partition_ref))? {
                MapForm::Plain { start, .. } => (*start)?,
                MapForm::Other { .. } => return None,
            }
        } else {
            self.partition(how, None)?.partition_starting_location.into()
        };
        Some(start + u64::from(place.block))
    }
}

/// The last one; with `highest`, the last of those with the highest number.
fn prevailing<T>(all: impl Iterator<Item = T>, how: How, number: impl Fn(&T) -> u32) -> Option<T> {
    if how.highest { all.max_by_key(number) } else { all.last() }
}
